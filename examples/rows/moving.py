"""What docs/MIGRATING.md says of applications that move here: what compiles and writes other data, and what is left out."""
from row import Row, Run, decks, frequencies, listing, sample

# Logic of CSPro that docs/LOGIC.md leaves out: the number, and a § before the place of the fault.
LEFT_OUT = [
    (30, "AGE = 1§.5;"), (30, "AGE = 2 §^ 3;"), (46, "AGE = AGE §/ 2;"), (41, "AGE = §WEIGHT;"),
    (32, "if AGE §in 15:49 then endif;"), (32, "if invalueset(SEX§(1)) then endif;"), (32, "AGE = curocc(§);"),
    (32, "AGE = totocc(§);"), (32, "AGE = maxocc(§);"), (40, "if §true then endif;"), (40, "if §false then endif;"),
    (33, "§while AGE = 1 do enddo;"), (30, "if AGE = 1 §& SEX = 1 then endif;"), (30, "if AGE = 1 §| SEX = 1 then endif;"),
    (30, "if §!special(AGE) then endif;"), (30, "if §$ = 1 then endif;"), (33, "§recode AGE;"), (33, "§box AGE;"),
    *((33, f"§{word} AGE;") for word in "skip advance reenter noinput stop write file export list insert delete sort".split()),
    (33, "errmsg('a') §denom = 3;"), (32, "errmsg('a') §case;"), (33, "impute(AGE, 1) §stat(SEX);"), (32, "impute(AGE, 1) §title('a');"),
    (40, "§freq(AGE);"), (32, "freq §AGE;"), (32, "endlevel§;"), (32, "endgroup§;"), (32, "universe §AGE = 1;"), (32, "ask §if AGE = 1;"),
    (32, "move §to SEX;"), (32, "set §behavior() export;"), (32, "set §attributes(AGE) protect;"),
    *((40, f"§{name}(AGE);") for name in "display warning logtext trace getvalue setvalueset loadcase writecase selcase".split()),
    *((40, f"AGE = §{name}(AGE);") for name in "strip concat length edit maketext sum average min max seek noccurs soccurs".split()),
    *((40, f"AGE = §{name}(AGE);") for name in "sysdate systime random sqrt exp log abs round".split()),
    (32, "errmsg(§maketext('a'));"), (30, "AGE = AGE§[1:3];"), (40, "AGE = §count(AGE);"), (32, "AGE = count(PERSON §where SEX = 1);"),
    (40, "if AGE = §refused then endif;"), (32, "§numeric a;"), (33, "§onfocus"), (33, "§killfocus"), (33, "§onoccchange"),
]
LEFT_OUT_ELSEWHERE = [
    (32, "PROC GLOBAL numeric n §= 0;"), (32, "PROC GLOBAL §string s;"), (32, "PROC GLOBAL array §alpha (3) x(3);"),
    (32, "PROC GLOBAL function f(§alpha (3) x) end;"), (32, "PROC GLOBAL §set explicit;"), (40, "PROC §SAMPLE_FF preproc"),
    (32, "PROC GLOBAL numeric i, n; PROC QUEST do varying i = 1 until i > §n enddo;"), (43, "PROC QUEST §HH = 1;"),
    (32, "PROC GLOBAL numeric i; PROC QUEST do §i = 1 while i < 3 enddo;"), (49, "PROC §HH"),
]

# The relation's set with a row for blanks; ages with a row for those not stated.
BLANKS = sample().replace(b"Value=3:8;Other\r\n", b"Value=3:8;Other\r\nValue=' ';Not asked\r\nSpecial=NOTAPPL\r\n")
AGES = b"\r\n[ValueSet]\r\nName=AGE_VS\r\nValue=0:110\r\nValue=999;Not stated\r\nSpecial=MISSING\r\n"
# Three occurrences in the columns of AGE, with an item over each of the first two; and one over a WEIGHT with a decimal.
LAID = sample().replace(b"Name=AGE\r\nStart=7\r\nLen=3\r\n", b"Name=AGE\r\nStart=7\r\nLen=1\r\nOccurrences=3\r\n" + b"".join(
    b"\r\n[Item]\r\nName=%s\r\nStart=%d\r\nLen=%d\r\n" % it for it in ((b"FIRST", 7, 1), (b"SECOND", 8, 1), (b"TENTHS", 10, 3))))
SWAPPED = sample().replace(b"Name=SEX\r\n", b"Name=@\r\n").replace(b"Name=REL\r\n", b"Name=SEX\r\n").replace(b"Name=@\r\n", b"Name=REL\r\n")


def refused(number, marked):
    front, rest = marked.split("§")
    return Row(f"left out: {marked}", (front + rest).encode(), refused=f"refused {number} line 1 column {len(front) + 1}\n".encode())


def told(name, logic, line, text, message, dictionary):
    """A row that lists a message for one line, which stays."""
    wanted = {"OUT": line, "LIST": listing(["CASE [001]", f"M 0 {text}"], 1, 1, 0, [f"0 1 {message}"])}
    return Row(name, logic, [Run(line, wanted)], dictionary)


def silent():
    """What compiles, and writes other data than in CSPro."""
    within, shown = b'PROC REL errmsg("%d", invalueset(REL));', b'PROC AGE errmsg("%d %d %d", AGE, invalueset(AGE), special(AGE));'
    deck = b'PROC GLOBAL array R_HD (REL_VS%s) save; PROC AGE putdeck(R_HD, AGE); errmsg("%%d", getdeck(R_HD));'
    empty = b"PROC GLOBAL array S_HD (SEX_VS); PROC REL impute(REL, getdeck(S_HD));"
    blank = b"P0011  35\n"
    left = {"OUT": blank, "LIST": listing(["CASE [001]", "M 0 DEFAULT"], 1, 1, 0, ["0 1 %d"]), "DECKS": decks("ARRAY R_HD 4", *"0000")}
    more = {"OUT": blank, "LIST": listing(["CASE [001]", "M 0 35"], 1, 1, 0, ["0 1 %d"]), "DECKS": decks("ARRAY R_HD 5", *"0000", "35")}
    return [
        told("a blank is in no set, though there is a row for it", within, blank, "0", "%d", BLANKS),
        told("a code of that set is in it", within, b"P00113 35\n", "1", "%d", BLANKS),
        Row("the row of blanks of a hot deck is never picked", deck % b"", [Run(blank, left)], BLANKS),
        Row("a blank takes the row more", deck % b"(+)", [Run(blank, more)], BLANKS),
        Row("a cell that nothing filled is imputed as 0", empty, [Run(b"P00113\n", {
            "OUT": b"P00110\n", "FREQ": frequencies("ITEM REL 1", "0 1")})]),
        told("not stated without EditMissing", shown, b"P00111999\n", "999 1 0", "%d %d %d", sample(b"AGE", AGES)),
        told("not stated with EditMissing", shown, b"P00111999\n", "MISSING 0 1", "%d %d %d", sample(b"AGE", b"EditMissing=999\r\n" + AGES)),
        Row("a number that does not fit", b"PROC SEX SEX = 12;", [Run(b"P00112 40\n", {"OUT": b"P001*2 40\n"})]),
        Row("ids that are not adjacent", b"", [Run(b"P0011\nP0021\nP0012\n", {"totals": b"cases 3 lines 3 unseen 0\n"})]),
        Row("a file of another layout", b"", [Run(b"1001P\n1002P\n", {"totals": b"cases 0 lines 2 unseen 2\n"})]),
        Row("items over the columns of occurrences", b"PROC SECOND SECOND = FIRST + 1;", [Run(b"P001114 7\n", {"OUT": b"P00111457\n"})], LAID),
        Row("an item over the columns of a decimal", b"PROC TENTHS TENTHS = TENTHS * 2;", [Run(b"P00111 35 75\n", {"OUT": b"P00111 35150\n"})],
            LAID),
    ]


def files():
    """Files of CSPro as they are."""
    first, second = b"refused %d line 1 column 1\n", b"refused 30 line 2 column 1\n"
    return [
        Row("a .ord", b"", order=b"[CSPro Order]\r\nVersion=CSPro 7.7\r\n", refused=first % 40),
        Row("a .mgf of a language", b"", messages=b"Language=EN\r\n1 a\r\n", refused=first % 30),
        Row("a .mgf with a comment of two lines", b"", messages=b"{ one\n  two }\n1 a\n", refused=second),
        Row("a .mgf with a text that goes on", b"", messages=b"1 one\n  two\n", refused=second),
        Row("a .pff for logic", b"[Run Information]\n", refused=first % 30),
        Row("a dictionary in JSON", b"", dictionary=b'{"software": "CSPro", "version": 8.0}\n', refused=b"refused 11\n"),
        Row("a dictionary in UTF-16", b"", dictionary=sample().decode().encode("utf-16"), refused=b"refused 10\n"),
        Row("logic in UTF-16", "PROC AGE".encode("utf-16"), refused=b"refused 30\n"),
    ]


def checks(same):
    """An image that is run with a dictionary of the same shape, in which two items have changed names."""

    def other_names(program):
        program.write("DICT", sample())
        program.write("LOGIC", b"PROC SEX SEX = 9;")
        program.write("OTHER", SWAPPED)
        program.write("DATA", b"P00112 40\n")
        same("compile", program.call("compile", "DICT", "LOGIC", "IMAGE")[0], 0)
        same("run", program.call("run", "OTHER", "IMAGE", "DATA", "OUT", "LIST", "FREQ")[0], 0)
        same("OUT", program.read("OUT"), b"P00192 40\n")

    yield "an image of another dictionary of its shape", other_names


def rows():
    left_out = [(number, f"PROC AGE {source}") for number, source in LEFT_OUT] + LEFT_OUT_ELSEWHERE
    return [*silent(), *files(), *(refused(*it) for it in left_out)]
