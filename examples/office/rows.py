"""The rows of `test`: commands over the files of a folder, and what they come to. What is wanted was reckoned by hand from the four persons of the sample."""

# The bytes of a row's files, by the name that rows give them; the sample's own are read from examples/sample and examples/hello.
TEXTS = {
    "AGE.out": b"P00111 35\nP00122 33\nP00211 35\nP00213  4\n",
    "apart.out": b"P00111 35\nP00122 33\nP00311 35\nP00213  4\n",
    "unseen.dat": b"X001\n",
    "latin.dat": b"P001\xff\n",
    "back.dat": b"P00111 35\nP002195x3\nX002\nP00113  4\n",
    "AGE.lst": b"""CSEB LISTING 1
CASE [002]
M 0 household 002, person 1: no age
SUMMARY
cases 2
lines 4
unseen 0
message 0 1 household %03d, person %d: no age
END
""",
    "AGE.frq": b"CSEB FREQUENCIES 1\nITEM AGE 1\n35 1\nEND\n",
    "cases.csv": b"line,HH,item,occurrence,before,after\n3,002,AGE,1,   , 35\n",
    "items.csv": b"""area,item,label,occurrences,changed,percent
,HH,Household,4,0,0.00
,SEX,Sex,4,0,0.00
,REL,Relation,4,0,0.00
,AGE,Age,4,1,25.00
,WEIGHT,Weight,4,0,0.00
002,AGE,Age,2,1,50.00
""",
}
DICT = {"DICT": "SAMPLE.dcf"}
DIFF = DICT | {"DATA": "AGE.dat", "OUT": "AGE.out"}
REPORT = DICT | {"LIST": "AGE.lst", "FREQ": "AGE.frq"}
# What stands for a folder and for a full device where a row has a file.
FOLDER, FULL = "a folder", "a full device"

DIFFERS = """cases 2 changed 1
lines 4 changed 1

item  occurrences  changed  percent  label
AGE             4        1    25.00  Age

item  before  after  times  percent  label before  label after
AGE    blank     35      1   100.00
"""
AREAS = """
area  lines  changed  percent  items changed
001       2        0     0.00              0
002       2        1    50.00              1
"""
LOOKS = """cases 2
lines 4
unknown 0
extra 0
ids that come back 0

record  lines  label
PERSON      4  Person

item    occurrences  blank  missing  default  outside  first  label
SEX               4      0        0        0        0      0  Sex
REL               4      0        0        0        0      0  Relation
AGE               4      1        0        0        0      0  Age
WEIGHT            4      4        0        0        0      0  Weight
"""
COMES_BACK = """cases 3
lines 4
unknown 1 first at line 3
extra 0
ids that come back 1 first at line 4

record  lines  label
PERSON      3  Person

item    occurrences  blank  missing  default  outside  first  label
SEX               3      0        0        0        0      0  Sex
REL               3      0        0        0        1      2  Relation
AGE               3      0        0        1        0      2  Age
WEIGHT            3      3        0        0        0      0  Weight
"""
UNSEEN = """cases 0
lines 1
unknown 1 first at line 1
extra 0
ids that come back 0

record  lines  label
PERSON      0  Person

item    occurrences  blank  missing  default  outside  first  label
SEX               0      0        0        0        0      0  Sex
REL               0      0        0        0        0      0  Relation
AGE               0      0        0        0        0      0  Age
WEIGHT            0      0        0        0        0      0  Weight
"""
DICTIONARY = """dictionary SAMPLE_DICT
level QUEST
record type in columns 1

ids
item  columns  kind    fill   code  label      why opaque
HH    2-4      number  zeros        Household

record PERSON type 'P' columns 12 lines 30 Person
item    columns  kind    fill  code  label     why opaque
SEX     5        number              Sex
REL     6        number              Relation
AGE     7-9      number              Age
WEIGHT  10-12    opaque              Weight    decimals

set SEX_VS of SEX rows 2 Sex
1  Male
2  Female

set REL_VS of REL rows 3 Relation
1    Head
2    Spouse
3:8  Other
"""
REPORTS = """cases 2
lines 4
unknown 0
extra 0

message  times  of cases  of lines  text
      0      1     50.00     25.00  household %03d, person %d: no age

item  imputed  of lines  label
AGE         1     25.00  Age

item  value  times  percent  label
AGE      35      1   100.00
"""
SHOWS = """message 0 number 1 "Hi"

routine 0 application preproc, of the run, parameters 0, locals 0, at most 2 steps
  0 Message 0 "Hi"
  1 Return
"""

# Each row: its name, the words after the program's name, the files before, the files that it makes, what it prints (None
# where standard output is a full device), what it tells on standard error, and the status.
ROWS = [
    ("diff", "diff DICT DATA OUT", DIFF, {}, DIFFERS, "", 0),
    (
        "diff by households, with each change, and as a table",
        "diff DICT DATA OUT --by HH --cases CASES --csv CSV",
        DIFF,
        {"CASES": "cases.csv", "CSV": "items.csv"},
        DIFFERS + AREAS,
        "",
        0,
    ),
    ("diff of a file with itself", "diff DICT DATA DATA", DIFF, {}, "cases 2 changed 0\nlines 4 changed 0\n", "", 0),
    ("diff with a line that is no pair", "diff DICT DATA OUT", DIFF | {"OUT": "apart.out"}, {}, "", "refused 23 line 3 in OUT\n", 1),
    ("diff with a shorter file", "diff DICT DATA OUT", DIFF | {"OUT": "unseen.dat"}, {}, "", "refused 23 line 1 in OUT\n", 1),
    ("diff with bytes that are no text", "diff DICT DATA OUT", DIFF | {"OUT": "latin.dat"}, {}, "", "refused 20 line 1 in OUT\n", 1),
    ("diff by no item", "diff DICT DATA OUT --by HOUSE", DIFF, {}, "", "refused 40\n", 1),
    ("diff by no id item", "diff DICT DATA OUT --by HH,AGE", DIFF, {}, "", "refused 40\n", 1),
    ("diff with no dictionary's text", "diff DICT DATA OUT", DIFF | {"DICT": "AGE.dat"}, {}, "", "refused 11 in DICT\n", 1),
    ("diff without data", "diff DICT DATA OUT", DICT | {"OUT": "AGE.out"}, {}, "", "refused 72 in DATA\n", 3),
    ("diff with a folder as data", "diff DICT DATA OUT", DIFF | {"DATA": FOLDER}, {}, "", "refused 70 in DATA\n", 3),
    ("diff to a full device", "diff DICT DATA OUT --cases CASES", DIFF | {"CASES": FULL}, {}, "", "refused 71 in CASES\n", 3),
    ("diff without a place to print", "diff DICT DATA OUT", DIFF, {}, None, "refused 71\n", 3),
    ("usage of diff without its words", "diff DICT", DIFF, {}, "", "usage", 2),
    ("look", "look DICT DATA", DICT | {"DATA": "AGE.dat"}, {}, LOOKS, "", 0),
    ("look at ids that come back", "look DICT DATA", DICT | {"DATA": "back.dat"}, {}, COMES_BACK, "", 1),
    ("look at lines of no record", "look DICT DATA", DICT | {"DATA": "unseen.dat"}, {}, UNSEEN, "", 1),
    ("dict", "dict DICT", DICT, {}, DICTIONARY, "", 0),
    ("dict without a dictionary", "dict DICT", {}, {}, "", "refused 72 in DICT\n", 3),
    ("report", "report DICT LIST FREQ", REPORT, {}, REPORTS, "", 0),
    ("report of a listing that is none", "report DICT LIST FREQ", REPORT | {"LIST": "AGE.frq"}, {}, "", "refused 54 line 1 in LIST\n", 1),
    ("report of frequencies that are none", "report DICT LIST FREQ", REPORT | {"FREQ": "AGE.lst"}, {}, "", "refused 55 line 1 in FREQ\n", 1),
    ("show", "show IMAGE", {"IMAGE": "hello.img"}, {}, SHOWS, "", 0),
    ("show no image", "show IMAGE", {"IMAGE": "AGE.dat"}, {}, "", "refused 60 byte 0 in IMAGE\n", 1),
    ("a command of csbatch", "try IMAGE", {"IMAGE": "hello.img"}, {}, "Hi\n2 steps\n", "", 0),
]
