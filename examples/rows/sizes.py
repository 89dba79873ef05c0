"""Large logic: at a limit of the image, and one past it."""
from logic import before_cases
from row import Row, Run, listing

TOKENS = 60_000


def sums():
    """60,000 tokens: 9,997 sums of six tokens each, 15 tokens around them, and three semicolons."""
    count = (TOKENS - 15) // 6
    rest = TOKENS - 15 - 6 * count
    return before_cases("60,000 tokens", "numeric n;", "n = n + 1;\n" * count + ";" * rest + 'errmsg("%d", n);', str(count))


def ages():
    """60,000 tokens with as many reads of fields as these have: AGE(1) + AGE(1) .., and 0 in the end."""
    front, end = "PROC GLOBAL numeric n; PROC QUEST n =", ' 0; errmsg("%d", n);'
    count = (TOKENS - 9 - 9) // 5
    rest = TOKENS - 9 - 9 - 5 * count
    source = front + " AGE(1) +" * count + end.replace("0;", "0;" + ";" * rest)
    told = listing(["CASE [001]", f"M 0 {2 * count}"], 1, 1, 0, ["0 1 %d"])
    return Row("60,000 tokens of fields", source.encode(), [Run(b"P00111  2\n", {"LIST": told})])


def functions(count):
    """Functions that each give what the one before them gives, and 1 more."""
    text = "PROC GLOBAL\nfunction f0() f0 = 0; end;\n"
    return text + "".join(f"function f{k}() f{k} = f{k - 1}() + 1; end;\n" for k in range(1, count))


def handlers(count):
    """As many functions as leave room for this handler's routine."""
    body = listing(["RUN", f"M 0 {count - 1}"], 0, 0, 0, ["0 1 %d"])
    source = functions(count) + f'PROC SAMPLE_DICT preproc errmsg("%d", f{count - 1}());\n'
    return source.encode(), [Run(b"", {"LIST": body})]


def rows():
    whole, runs = handlers(4_095)
    cells = "array A (1000, 1000) = 5;"
    return [
        sums(),
        ages(),
        Row("4,095 functions and a handler", whole, runs),
        Row("4,097 functions", functions(4_097).encode(), refused=b"refused 64\n"),
        before_cases("1,000,000 cells", cells, 'A(1000, 1000) = 7; errmsg("%d %d %d", A(1, 1), A(1000, 999), A(1000, 1000));', "5 0 7", "%d %d %d"),
        Row("1,000,001 cells", b"PROC GLOBAL array A (101, 9901);", refused=b"refused 64\n"),
        Row("1,000,000 cells and one", b"PROC GLOBAL array A (1000, 1000); array B (1);", refused=b"refused 64\n"),
    ]
