"""Small logic, and what it does."""
from row import Row, Run, decks, example, frequencies, listing, sample

# A hot deck by sex and relation: a blank age is imputed from it, another one is put there.
DECK = b"""PROC GLOBAL
array AGE_HD (SEX_VS, REL_VS(+)) save;
PROC AGE
  if AGE = notappl then impute(AGE, getdeck(AGE_HD)); else putdeck(AGE_HD, AGE); endif;
"""
CELLS = ["ARRAY AGE_HD 2 4", "35", *["0"] * 7]


def before_cases(name, globals_of, statements, told, text="%d"):
    """A row in which the application's preproc lists one message."""
    source = f"PROC GLOBAL\n{globals_of}\nPROC SAMPLE_DICT preproc\n{statements}\n".encode()
    body = ["RUN", f"M 0 {told}"]
    return Row(name, source, [Run(b"", {"OUT": b"", "LIST": listing(body, 0, 0, 0, [f"0 1 {text}"])})])


def of_age(name, statements, before, after, dictionary=sample()):
    """A row in which the PROC of AGE makes another line of a line."""
    return Row(name, b"PROC AGE " + statements, [Run(before + b"\n", {"OUT": after + b"\n"})], dictionary)


def without_logic():
    data = b"P00111 35\r\nP00122\nP002"
    unseen = b"P00111 35\nP00121 30\nX001\nP00131  5\n"
    return [
        Row("empty logic, no data", b"", [Run(b"", {
            "totals": b"cases 0 lines 0 unseen 0\n", "OUT": b"", "LIST": listing([], 0, 0), "FREQ": frequencies()})]),
        Row("empty logic, line ends of each kind", b"", [Run(data, {
            "totals": b"cases 2 lines 3 unseen 0\n", "OUT": data, "LIST": listing([], 2, 3), "FREQ": frequencies()})]),
        Row("empty logic, unseen lines", b"", [Run(unseen, {
            "totals": b"cases 1 lines 4 unseen 2\n", "OUT": unseen, "FREQ": frequencies(),
            "LIST": listing(["CASE [001]", "U 3 unknown", "U 4 extra"], 1, 4, 2)})], sample(most=2)),
    ]


def fields():
    line = b"P001111 2"
    shown = Row("a field that is no number", b'PROC AGE errmsg("%d", AGE);', [Run(line + b"\n", {
        "OUT": line + b"\n", "LIST": listing(["CASE [001]", "M 0 DEFAULT"], 1, 1, 0, ["0 1 %d"])})])
    return [
        shown,
        Row("a field that no logic writes", b"", [Run(line + b"\n", {"OUT": line + b"\n"})]),
        of_age("a field assigned to itself", b"AGE = AGE;", line, b"P00111***"),
        of_age("a negative number", b"AGE = -5;", line, b"P00111 -5"),
        of_age("a negative number with zeros", b"AGE = -5;", line, b"P00111-05", sample(b"AGE", b"ZeroFill=Yes")),
        of_age("missing without a code", b"AGE = missing;", line, b"P00111***"),
        of_age("missing with a code", b"AGE = missing;", line, b"P00111999", sample(b"AGE", b"EditMissing=999")),
        of_age("a number in a line that ends before it", b"AGE = 35;", b"P00211", b"P00211 35"),
        of_age("a number that is taken away", b"AGE = notappl;", b"P00111 35", b"P00111   "),
        Row("a number too long, before CR and LF", b"PROC AGE AGE = 1000;", [Run(b"P00111 35\r\n", {"OUT": b"P00111***\r\n"})]),
        Row("a number in a line at the end of the file", b"PROC AGE AGE = -5;", [Run(b"P001", {"OUT": b"P001   -5"})]),
        of_age("a text in place of another, a character a column", 'if AGE = "\u00e9 " then AGE = "\U0001f600"; endif;'.encode(),
               "P00111\u00e9 35".encode(), "P00111\U0001f600 35".encode(), sample(b"AGE", b"DataType=Alpha").replace(b"Len=3\r\nDataType", b"Len=2\r\nDataType")),
    ]


def numbers():
    cells = "array A (10) = 11,12,13,14,15,16,17,18,19,20;"
    return [
        before_cases("arithmetic at its limits", "", 'errmsg("%d %d %d %d", 9223372036854775807 + 1, 7 % 0, int(-7 / 2), -7 % 2);',
                     "DEFAULT DEFAULT -3 -1", "%d %d %d %d"),
        before_cases("cells in and out of range", cells, 'errmsg("%d %d %d %d", A(0), A(1), A(10), A(11));', "DEFAULT 11 20 DEFAULT",
                     "%d %d %d %d"),
        before_cases("a do without a turn", "numeric i;", 'do varying i = 5 until i > 4 enddo; errmsg("%d", i);', "5"),
        before_cases("a do by 4", "numeric i, n;", 'do varying i = 1 until i > 10 by 4 n = n + 1; enddo; errmsg("%d %d", i, n);', "13 3",
                     "%d %d"),
        before_cases("a do of 65,536 turns", "numeric i;", 'do varying i = 1 until i > 65536 enddo; errmsg("%d", i);', "65537"),
    ]


def conditions():
    arms = b"""PROC AGE
if AGE < 15 then errmsg("child"); elseif AGE < 65 then errmsg("adult %d", AGE);
elseif AGE < 200 then errmsg("old %03d", AGE); else errmsg("odd %d", AGE); endif;
"""
    data = b"P00111  7\nP00211 40\nP00311 70\nP00411\n"
    body = ["CASE [001]", "M 0 child", "CASE [002]", "M 0 adult 40", "CASE [003]", "M 0 old 070", "CASE [004]", "M 0 odd NOTAPPL"]
    counts = ["0 1 child", "0 1 adult %d", "0 1 old %03d", "0 1 odd %d"]
    adults = b"""PROC GLOBAL
numeric i, n;
PROC QUEST n = 0; for i in PERSON do if AGE(i) >= 15 then n = n + 1; endif; enddo; errmsg("adults %d of %d", n, totocc(PERSON));
"""
    persons = b"P00111 35\nP00122 30\nP00113  5\n"
    return [
        Row("four arms of an if", arms, [Run(data, {"OUT": data, "LIST": listing(body, 4, 4, 0, counts)})]),
        Row("persons counted", adults, [Run(persons, {
            "OUT": persons, "LIST": listing(["CASE [001]", "M 0 adults 2 of 3"], 1, 3, 0, ["0 1 adults %d of %d"])})]),
    ]


def hot_decks():
    imputed = frequencies("ITEM AGE 1", "35 1")
    first = Run(b"P00111 35\nP00211\n", {"OUT": b"P00111 35\nP00211 35\n", "FREQ": imputed, "DECKS": decks(*CELLS)})
    second = Run(b"P00311\n", {"OUT": b"P00311 35\n", "FREQ": imputed, "DECKS": decks(*CELLS)})
    other = Run(b"P00311\n", refused=b"refused 52 line 2\n", decks=decks("ARRAY AGE_HD 2 3", *["0"] * 6))
    cut = Run(b"P00311\n", refused=b"refused 51 line 4\n", decks=b"CSEB DECKS 1\nARRAY AGE_HD 2 4\n35\n")
    return [Row("a hot deck in two runs", DECK, [first, second]), Row("hot decks of other files", DECK, [other, cut])]


def of_the_readme():
    """The logic and the data that the README shows."""
    told = listing(["CASE [002]", "M 0 household 002, person 1: no age"], 2, 4, 0, ["0 1 household %03d, person %d: no age"])
    wanted = {"totals": b"cases 2 lines 4 unseen 0\n", "OUT": b"P00111 35\nP00122 33\nP00211 35\nP00213  4\n", "LIST": told,
              "FREQ": frequencies("ITEM AGE 1", "35 1")}
    return [Row("the sample of the README", example("AGE.apc"), [Run(example("AGE.dat"), wanted)])]


def files_beside():
    found = {"OUT": b"P00111 35\n", "LIST": listing(["CASE [001]", "M 7 Age 35"], 1, 1, 0, ["7 1 Age %d"])}
    return [
        Row("a message file", b"PROC AGE errmsg(7, AGE);", [Run(b"P00111 35\n", found)], messages=b"{S messages}\n7 Age %d\n"),
        Row("a message file with a faulty line", b"", messages=b"{S messages}\nAge %d\n", refused=b"refused 30 line 2 column 1\n"),
        Row("an order file", b"", [Run(b"", {"OUT": b""})], order=b"person\n"),
        Row("an order file of no record", b"", order=b"HOUSE\n", refused=b"refused 40 line 1 column 1\n"),
        Row("messages before the order, and the order before logic", b"^", order=b"HOUSE\n", messages=b"0 a\n",
            refused=b"refused 35 line 1 column 1\n"),
        Row("the order before logic", b"^", order=b"HOUSE\n", refused=b"refused 40 line 1 column 1\n"),
    ]


# Logic and its fault.
FAULTS = [
    (b"\xff", b"refused 30\n"),
    (b"PROC AGE AGE = 1 ^ 2;", b"refused 30 line 1 column 18\n"),
    (b"PROC AGE errmsg('a);", b"refused 31 line 1 column 17\n"),
    (b"PROC AGE AGE = ;", b"refused 32 line 1 column 16\n"),
    (b"PROC AGE\nwhile AGE = 1 do enddo;", b"refused 33 line 2 column 1\n"),
    (b"PROC AGE AGE = " + b"(" * 65 + b"1" + b")" * 65 + b";", b"refused 34 line 1 column 80\n"),
    (b"PROC AGE AGE = 9223372036854775808;", b"refused 35 line 1 column 16\n"),
    (b"PROC AGE AGE = AGES;", b"refused 40 line 1 column 16\n"),
    (b"PROC AGE AGE = WEIGHT;", b"refused 41 line 1 column 16\n"),
    (b"PROC QUEST HH = 1;", b"refused 43 line 1 column 12\n"),
    (b"PROC AGE AGE = 'a';", b"refused 44 line 1 column 16\n"),
    (b"PROC GLOBAL function f() f = f(); end;", b"refused 45 line 1 column 30\n"),
    (b"PROC AGE AGE = AGE / 2;", b"refused 46 line 1 column 20\n"),
    (b"PROC GLOBAL numeric i; PROC QUEST for i in PERSON do i = 1; enddo;", b"refused 47 line 1 column 54\n"),
    (b"PROC AGE errmsg('%d');", b"refused 48 line 1 column 17\n"),
    (b"PROC AGE break;", b"refused 49 line 1 column 10\n"),
    # The text at fault, the lesser of two faults at one name, and the fault that stands first.
    (b"PROC GLOBAL numeric n; alpha (3) s; PROC AGE s = 5;", b"refused 44 line 1 column 46\n"),
    (b"PROC GLOBAL numeric n; alpha (3) s; PROC AGE n = (s);", b"refused 44 line 1 column 51\n"),
    (b"PROC GLOBAL numeric n; alpha (3) s; PROC AGE if ((s)) > 1 then endif;", b"refused 44 line 1 column 51\n"),
    (b"PROC GLOBAL numeric n; alpha (3) s; PROC AGE errmsg('%d', (s));", b"refused 44 line 1 column 59\n"),
    (b"PROC GLOBAL function f(x) f = f(); end;", b"refused 44 line 1 column 31\n"),
    (b"PROC GLOBAL function f(x) f(1, 2); end;", b"refused 44 line 1 column 27\n"),
    (b"PROC GLOBAL function g() g = f(1, 2); end; function f(x) end;", b"refused 44 line 1 column 30\n"),
    (b"PROC GLOBAL function f(x) end; function g() f(); end; numeric x;", b"refused 44 line 1 column 45\n"),
    (b"PROC GLOBAL function g() g = A(1); end; array A (2, NOBODY);", b"refused 44 line 1 column 30\n"),
    (b"PROC GLOBAL numeric n; PROC SAMPLE_DICT n = curocc(PERSON);", b"refused 49 line 1 column 45\n"),
    (b"PROC GLOBAL numeric n; PROC SAMPLE_DICT n = curocc(NOBODY);", b"refused 49 line 1 column 45\n"),
    (b"PROC GLOBAL numeric n; PROC SAMPLE_DICT n = getdeck(NOBODY);", b"refused 49 line 1 column 45\n"),
    (b"PROC SAMPLE_DICT putdeck(NOBODY, 1);", b"refused 49 line 1 column 18\n"),
]

# The same, where SEX and HH are texts.
TEXT_FAULTS = [
    (b"PROC AGE SEX = 5;", b"refused 44 line 1 column 10\n"),
    (b"PROC QUEST SEX = 1;", b"refused 44 line 1 column 12\n"),
    (b"PROC QUEST SEX(1) = 1;", b"refused 44 line 1 column 12\n"),
    (b"PROC QUEST impute(HH, 1);", b"refused 43 line 1 column 19\n"),
    (b"PROC QUEST HH = 1;", b"refused 43 line 1 column 12\n"),
]


def faults():
    partial = sample().replace(b"Value=2;Female", b"Value=two;Female")
    texts = sample().replace(b"DataType=Numeric\r\nZeroFill=Yes", b"DataType=Alpha")
    texts = texts.replace(b"Start=5\r\nLen=1", b"Start=5\r\nLen=1\r\nDataType=Alpha")
    found = [Row(f"refused: {source.decode(errors='replace')}", source, refused=fault) for source, fault in FAULTS]
    found += [Row(f"refused: {source.decode()}", source, dictionary=texts, refused=fault) for source, fault in TEXT_FAULTS]
    return [*found, Row("refused: a partial value set", b"PROC SEX if invalueset(SEX, SEX_VS) then endif;", dictionary=partial,
                        refused=b"refused 42 line 1 column 29\n")]


def rows():
    return [*without_logic(), *fields(), *numbers(), *conditions(), *hot_decks(), *of_the_readme(), *files_beside(), *faults()]
