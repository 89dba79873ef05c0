#!/usr/bin/env python3
"""Times the steps of csbatch's machine: makes images, runs them, and prints nanoseconds of processor time a step.

usage: steps.py CSBATCH     (as crates/csbatch/out/csbatch, once `rt run` was called there)

Each program is run five times, and the least time counts; the first three are run by turns with `machine.rs` beside this,
a machine of plain Rust (needs rustc). `numbers` and `cells` are run by `try`, the others over one household of four persons
by `run`, most of them with something done four times in a turn of a loop over these persons.
"""
import os
import resource
import struct
import subprocess
import sys
import tempfile

HERE = os.path.dirname(os.path.realpath(__file__))
sys.path.insert(0, os.path.join(HERE, "..", "fuzz"))
from images import DICTIONARY, section  # noqa: E402

NUM, LDL, STL, LDG, STG, ADD, REM, NEG, CMP, JMP, JZ, IDX, CUR, ITN, STN, ALD, AST, MSG, CAL, RET, LPC, LPO, END, POP = (
    1, 4, 5, 6, 7, 8, 12, 13, 14, 20, 21, 22, 25, 30, 32, 34, 35, 37, 39, 40, 41, 42, 43, 45)
AGE, HOUSEHOLD = 3, b"P00111 35\nP00122 33\nP00113  4\nP00113  2\n"

# The arrays with their cells, the constants, and the most turns of loops.
ARRAYS = ((b"CELLS", 100), (b"BY_REST", 7))
CONSTANTS, LIMITS = (1000, 1, 7, 3, 100, 20000, 0, 2000000, 100000), (1000, 20000, 100, 2000000, 100000)

# A function of a number: y = x + 1; f = x + y;
FUNCTION = [(LDL, 0, 0, 0), (NUM, 0, 0, 1), (ADD, 0, 0, 0), (STL, 0, 0, 1), (LDL, 0, 0, 0), (LDL, 0, 0, 1), (ADD, 0, 0, 0),
            (RET, 0, 0, 0)]

# Two loops of 1,000 turns, one in the other, and in each turn of the inner one: n = n + 1; r = n % 7; a count where r is
# above 3; a cell read and one set where r isn't 0; a call of the function, and a sum.
NUMBERS = [
    (NUM, 0, 0, 0), (LPC, 0, 0, 38), (NUM, 0, 0, 0), (LPC, 0, 0, 37), (LDG, 0, 0, 0), (NUM, 0, 0, 1), (ADD, 0, 0, 0),
    (STG, 0, 0, 0), (LDG, 0, 0, 0), (NUM, 0, 0, 2), (REM, 0, 0, 0), (STG, 0, 0, 1), (LDG, 0, 0, 1), (NUM, 0, 0, 3),
    (CMP, 4, 0, 0), (JZ, 0, 0, 20), (LDG, 0, 0, 2), (NUM, 0, 0, 1), (ADD, 0, 0, 0), (STG, 0, 0, 2), (LDG, 0, 0, 1),
    (IDX, 0, 7, 37), (ALD, 0, 0, 1), (STG, 0, 0, 3), (LDG, 0, 0, 1), (IDX, 0, 7, 37), (LDG, 0, 0, 0), (AST, 0, 0, 1),
    (LDG, 0, 0, 1), (CAL, 0, 0, 0), (STG, 0, 0, 3), (LDL, 0, 0, 0), (LDG, 0, 0, 3), (ADD, 0, 0, 0), (NEG, 0, 0, 0),
    (NEG, 0, 0, 0), (STL, 0, 0, 0), (END, 0, 0, 3), (END, 0, 0, 1), (RET, 0, 0, 0)]

# 20,000 times, for i from 1 to 100: cells(i) = cells(i) + 1;
CELLS = [
    (NUM, 0, 0, 5), (LPC, 0, 1, 21), (NUM, 0, 0, 6), (STL, 0, 0, 0), (NUM, 0, 0, 4), (LPC, 0, 2, 20), (LDL, 0, 0, 0),
    (NUM, 0, 0, 1), (ADD, 0, 0, 0), (STL, 0, 0, 0), (LDL, 0, 0, 0), (IDX, 0, 100, 20), (LDL, 0, 0, 0), (IDX, 0, 100, 19),
    (ALD, 0, 0, 0), (NUM, 0, 0, 1), (ADD, 0, 0, 0), (AST, 0, 0, 0), (JMP, 0, 0, 20), (POP, 2, 0, 0), (END, 0, 0, 5),
    (END, 0, 0, 1), (RET, 0, 0, 0)]


def in_turns(group, often):
    """A loop over persons, and in it one whose turn does the group four times; 2,000,000 turns, or 100,000."""
    body = [(op, a, b, 3 + (k + 1) * len(group) if op == IDX else c) for k in range(4) for op, a, b, c in group]
    end = 3 + len(body)
    return [(LPO, 0, 0, end + 1), (NUM, 0, 0, 7 if often else 8), (LPC, 0, 3 if often else 4, end), *body,
            (END, 0, 0, 2), (END, 0, 0, 0), (RET, 0, 0, 0)]


# What is done, and whether it is done often.
ITEMS = "an age read, added to and set"
GROUPS = {
    ITEMS: ([(CUR, 0, 0, 0), (CUR, 0, 0, 0), (ITN, 0, 0, AGE), (NUM, 0, 0, 1), (ADD, 0, 0, 0),
                                       (NUM, 0, 0, 4), (REM, 0, 0, 0), (STN, 0, 0, AGE)], True),
    "a number put and taken": ([(NUM, 0, 0, 1), (POP, 0, 0, 0)], True),
    "a global put and taken": ([(LDG, 0, 0, 0), (POP, 0, 0, 0)], True),
    "a field read": ([(CUR, 0, 0, 0), (ITN, 0, 0, AGE), (POP, 0, 0, 0)], True),
    "a field set": ([(CUR, 0, 0, 0), (NUM, 0, 0, 1), (STN, 0, 0, AGE)], True),
    "a cell read": ([(NUM, 0, 0, 1), (IDX, 0, 100, 0), (ALD, 0, 0, 0), (POP, 0, 0, 0)], True),
    "a message counted": ([(MSG, 0, 0, 0)], True),
    "a message listed": ([(MSG, 0, 0, 1)], False),
}


def array(name, cells):
    return struct.pack("<BBBBH", 0, 1, len(name), 0, cells) + name + struct.pack("<I", 0)


def message(text, summary):
    return struct.pack("<IBBH", 0, summary, 0, len(text)) + text


def routine(of_case, gives, parameters, numbers, code):
    return (struct.pack("<BBBB", of_case, gives, parameters, numbers) + struct.pack("<BBH", 1, 0, 0) * numbers
            + struct.pack("<I", len(code)))


def image(of_case, codes):
    """The image of a program: the last code is the first event of the run, or of a case."""
    items = [(255, 1, 3, 2), (0, 1, 1, 5), (0, 1, 1, 6), (0, 1, 3, 7), (0, 0, 3, 10)]
    shape = [[struct.pack("<HHI", 30, 0, 12)], [struct.pack("<BBHI", *item) for item in items],
             [struct.pack("<HHBBH", 1, 2, 0, 0, 0), struct.pack("<HHBBH", 2, 3, 0, 0, 0)], [struct.pack("<I", 0)]]
    heads = [routine(0, 1, 1, 2, code) for code in codes[:-1]]
    heads.append(routine(of_case, 0, 0, 0 if of_case else 1, codes[-1]))
    sections = (shape if of_case else [[]] * 4) + [
        [struct.pack("<q", n) for n in CONSTANTS], [struct.pack("<I", n) for n in LIMITS], [],
        [struct.pack("<BBH", 1, 0, 0)] * 4, [array(*it) for it in ARRAYS],
        [message(b"counted", 1), message(b"listed", 0)], heads,
        [struct.pack("<BBHI", 2 if of_case else 0, 0, 0, len(codes) - 1)]]
    lines = b"".join(struct.pack("<BBHI", *line) for code in codes for line in code)
    return b"CSEB" + struct.pack("<HH", 2, 0) + b"".join(map(section, sections)) + lines


def listed(codes, data=b""):
    """The text of a program over the lines of a household, as `machine.rs` reads it."""
    rows = [("constants", *CONSTANTS), ("limits", *LIMITS), ("arrays", *(cells for _, cells in ARRAYS))]
    rows += [("line", line) for line in data.decode().splitlines()]
    for code in codes:
        rows += [("routine",), *code]
    return "".join(" ".join(map(str, row)) + "\n" for row in rows).encode()


def timed(commands, room, rounds=5):
    """The least processor time of each of some commands, which are run by turns, and what it printed."""
    least, said = [float("inf")] * len(commands), [""] * len(commands)
    for _ in range(rounds):
        for k, words in enumerate(commands):
            before = resource.getrusage(resource.RUSAGE_CHILDREN).ru_utime
            said[k] = subprocess.run(words, cwd=room, check=True, stdout=subprocess.PIPE).stdout.decode()
            least[k] = min(least[k], resource.getrusage(resource.RUSAGE_CHILDREN).ru_utime - before)
    return list(zip(least, said))


def put(room, name, data):
    with open(os.path.join(room, name), "wb") as file:
        file.write(data)


def measured(csbatch):
    """What is measured: its name, the nanoseconds a step, those of the plain machine, if it has this program, the nanoseconds
    of each thing that is done, if it is done four times in a turn, and the steps, if they were told."""
    with tempfile.TemporaryDirectory() as room:
        put(room, "d", DICTIONARY)
        put(room, "data", HOUSEHOLD)
        plain = os.path.join(room, "machine")
        subprocess.run(["rustc", "--edition", "2021", "-O", os.path.join(HERE, "machine.rs"), "-o", plain], check=True)
        for name, codes in (("numbers", [FUNCTION, NUMBERS]), ("cells", [CELLS])):
            put(room, "i", image(0, codes))
            put(room, "l", listed(codes))
            (spent, said), (theirs, told) = timed([[csbatch, "try", "i"], [plain, "l"]], room, rounds=12)
            steps = int(said.split()[0])
            if steps != int(told.split()[0]):
                sys.exit(f"{name}: {steps} steps, and {told}")
            yield name, spent / steps * 1e9, theirs / steps * 1e9, None, steps
        for name, (group, often) in GROUPS.items():
            put(room, "i", image(1, [in_turns(group, often)]))
            run = [csbatch, "run", "d", "i", "data", "out", "list", "freq"]
            turns = 4 * (2000000 if often else 100000)
            if name == ITEMS:
                put(room, "l", listed([in_turns(group, often)], HOUSEHOLD))
                (spent, _), (theirs, told) = timed([run, [plain, "l"]], room)
                steps = int(told.split()[0])
                wrote = [line.rstrip() for line in told.splitlines()[1:]]
                with open(os.path.join(room, "out"), "rb") as out:
                    if [line.rstrip() for line in out.read().decode().splitlines()] != wrote:
                        sys.exit(f"{name}: the lines differ, and {told}")
                yield name, spent / steps * 1e9, theirs / steps * 1e9, None, None
                continue
            [(spent, _)] = timed([run], room)
            yield name, spent / turns / (4 * len(group) + 1) * 1e9, None, spent / turns / 4 * 1e9, None


def main(csbatch):
    for name, step, theirs, each, steps in measured(csbatch):
        if each is not None:
            print(f"{name}: {each:.1f} ns, {step:.1f} ns a step")
        else:
            count = f"{steps} steps, " if steps else ""
            print(f"{name}: {count}{step:.2f} ns a step; in plain Rust {theirs:.2f}")


if __name__ == "__main__":
    if len(sys.argv) != 2:
        sys.exit(__doc__.split("\n\n")[1])
    main(os.path.realpath(sys.argv[1]))
