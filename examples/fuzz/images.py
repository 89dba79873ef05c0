"""An image made by hand, as docs/IMAGE.md has the format, so that programs with decks, loops and messages are
mutated even where no compiler stands."""
import struct

DICTIONARY = b"""[Dictionary]
Name=SAMPLE_DICT
RecordTypeStart=1
RecordTypeLen=1
[Level]
Name=QUEST
[IdItems]
[Item]
Name=HH
Start=2
Len=3
ZeroFill=Yes
[Record]
Name=PERSON
RecordTypeValue='P'
RecordLen=12
MaxRecords=30
[Item]
Name=SEX
Start=5
Len=1
[ValueSet]
Name=SEX_VS
Value=1;Male
Value=2;Female
[Item]
Name=REL
Start=6
Len=1
[ValueSet]
Name=REL_VS
Value=1;Head
Value=2;Spouse
Value=3:8;Other
[Item]
Name=AGE
Start=7
Len=3
[Item]
Name=WEIGHT
Start=10
Len=3
Decimal=1
"""

DATA = b"P00111 35 10\nP00122   \nX001 unknown\nP00113  5\r\nP00211 70\nP002139\n"

DECKS = b"CSEB DECKS 1\nARRAY AGE_HD 2 4\n35\nNOTAPPL\n-1\nMISSING\n0\n7\nDEFAULT\n99\nEND\n"

(NUM, SPC, TXT, LDL, CMP, JMP, JZ, ROW, TOT, ITN, ALD, AST, MSG, IMP, CAL, RET, LPC, LPO, END, BRK) = (
    1, 2, 3, 4, 14, 20, 21, 24, 27, 30, 34, 35, 37, 38, 39, 40, 41, 42, 43, 44)

# An age that is blank is taken from the deck by sex and relation; another one is put there.
DECK = [
    (LDL, 0, 0, 0), (ITN, 0, 0, 3), (SPC, 0, 0, 0), (CMP, 0, 0, 0), (JZ, 0, 0, 17),
    (LDL, 0, 0, 0), (LDL, 0, 0, 0), (ITN, 0, 0, 1), (ROW, 0, 0, 14), (LDL, 0, 0, 0),
    (ITN, 0, 0, 2), (ROW, 1, 1, 0), (ALD, 0, 0, 0), (JMP, 0, 0, 15), (SPC, 2, 0, 0),
    (IMP, 0, 0, 3), (JMP, 0, 0, 26), (LDL, 0, 0, 0), (ITN, 0, 0, 1), (ROW, 0, 0, 26),
    (LDL, 0, 0, 0), (ITN, 0, 0, 2), (ROW, 1, 1, 0), (LDL, 0, 0, 0), (ITN, 0, 0, 3),
    (AST, 0, 0, 0), (RET, 0, 0, 0)]

# A loop over persons in which a counted loop is left early where there are more than two.
LOOPS = [
    (LPO, 0, 0, 9), (NUM, 0, 0, 0), (LPC, 0, 0, 8), (TOT, 0, 0, 0), (NUM, 0, 0, 1), (CMP, 4, 0, 0),
    (JZ, 0, 0, 8), (BRK, 0, 0, 8), (END, 0, 0, 2), (END, 0, 0, 0), (RET, 0, 0, 0)]

# A routine that gives a text, and one that lists it.
NAMES = [(TXT, 0, 0, 0), (RET, 0, 0, 0)]
GREETS = [(CAL, 0, 0, 0), (MSG, 0, 0, 0), (RET, 0, 0, 0)]


def section(entries):
    return struct.pack("<I", len(entries)) + b"".join(entries)


def routine(ambient, gift, locals_, code):
    """A routine whose locals are its parameters."""
    head = struct.pack("<BBBB", ambient, gift, len(locals_), len(locals_))
    return head + b"".join(locals_) + struct.pack("<I", len(code))


def deck_image():
    """A program for DICTIONARY: a greeting before the run, loops at the level, and a hot deck at AGE."""
    name = b"AGE_HD"
    array = struct.pack("<BBBBHH", 1, 2, len(name), 0, 2, 4) + name + struct.pack("<I", 0)
    text = struct.pack("<H", 1) + b"A"
    message = struct.pack("<IBBH", 0, 0, 0, 5) + b"Hi %s"
    items = [(255, 1, 3, 2), (0, 1, 1, 5), (0, 1, 1, 6), (0, 1, 3, 7), (0, 0, 3, 10)]
    sections = [
        [struct.pack("<HHI", 30, 0, 12)],
        [struct.pack("<BBHI", *item) for item in items],
        [struct.pack("<HHBBH", 1, 2, 0, 0, 0), struct.pack("<HHBBH", 2, 3, 0, 0, 0)],
        [struct.pack("<I", 0)],
        [struct.pack("<q", n) for n in (10, 2)],
        [struct.pack("<I", 10)],
        [text],
        [],
        [array],
        [message],
        [routine(0, 2, [], NAMES), routine(0, 0, [], GREETS),
         routine(1, 0, [struct.pack("<BBH", 3, 0, 0)], DECK), routine(1, 0, [], LOOPS)],
        [struct.pack("<BBHI", *event) for event in ((0, 0, 0, 1), (2, 0, 0, 3), (7, 0, 3, 2))]]
    code = b"".join(struct.pack("<BBHI", *line) for line in NAMES + GREETS + DECK + LOOPS)
    return b"CSEB" + struct.pack("<HH", 2, 0) + b"".join(map(section, sections)) + code
