#!/usr/bin/env python3
"""Writes the rows of crates/cse_test_files that tell what `csbatch check` and `csbatch explain` print.

usage: examples/rows/telling.py [--check]

What a row of checks.txt has to print is put together from the tables of docs/FAULTS.md and the form of docs/FORMATS.md, with and
without `--json`. Where a number has several rows in these tables, the row's `??` line tells which is meant, and else the token: a
word or a sign of CSPro has the help of its table, and the first row of the number is meant where nothing says more.

--check writes nothing, and prints a line where the rows that are there are others.
"""
import json
import os
import re
import sys

from checking import FILES, ROOT, count_text, rows, tables, unmarked
from texts import text_of

TO = os.path.join(ROOT, "crates/cse_test_files/data/rows/checks.txt")
HERE = os.path.dirname(os.path.realpath(__file__))
AFTER = "habits.after.apc"
# What is said of a whole line, and of no token.
OF_LINES = re.compile(r"the line |the number of a message|no logic has the number")
NUMBERS = {*range(10, 19), *range(30, 36), *range(40, 50), *range(101, 112)}

HEAD = """# `check` and `explain`: what they print is put together from docs/FAULTS.md and docs/FORMATS.md. examples/rows/telling.py writes
# this file from examples/rows/checks.txt.
stored: D.dcf=household/HOUSEHOLD.dcf
status: 1

# Rows of examples/rows/checks.txt, each without and with `--json`.
files: D.dcf L.apc
"""

# Words, files, what is opened, printed and told, and the status.
CALLS = """
# Words that are no `check` and no `explain`, and files that can't be read.
files: D.dcf L.apc=sample/AGE.apc
opened:
told: usage
status: 2

check without its words
words: check

check without logic
words: check D.dcf

check with a word too many
words: check D.dcf L.apc X

check with an option that is none
words: check D.dcf L.apc --jason

check with an option twice
words: check --json D.dcf L.apc --json

check with an option without its file
words: check D.dcf L.apc --messages

check with decks
words: check D.dcf L.apc --decks L.apc

explain without a number
words: explain

explain of a word
words: explain many

explain of two numbers
words: explain 40 41

explain of a number above 255
words: explain 256

check without a dictionary
words: check NONE L.apc
opened: NONE
told: error[72]: can't open NONE
status: 3

check without logic that is there
words: check D.dcf NONE
opened: D.dcf NONE
told: error[72]: can't open NONE
status: 3

check with closed logic
words: check D.dcf L.apc
amiss: closed L.apc
opened: D.dcf L.apc
told: error[72]: can't open L.apc
status: 3

check without its messages
words: check D.dcf L.apc --messages=NONE
opened: D.dcf L.apc NONE
told: error[72]: can't open NONE
status: 3

check without its order
words: check --order NONE D.dcf L.apc
opened: D.dcf L.apc NONE
told: error[72]: can't open NONE
status: 3

check with a folder as dictionary
words: check D.dcf L.apc
amiss: folder D.dcf
opened: D.dcf
told: error[70]: can't read D.dcf
status: 3

check with a folder as logic
words: check D.dcf L.apc
amiss: folder L.apc
opened: D.dcf L.apc
told: error[70]: can't read L.apc
status: 3

check with messages that never end
words: check D.dcf L.apc --messages /dev/zero
opened: D.dcf L.apc /dev/zero
told: error[64]: more than 268435456 bytes in /dev/zero
status: 1

check without a place to print
words: check D.dcf L.apc
amiss: mute
opened: D.dcf L.apc
told: error[71]: standard output takes no more
status: 3

explain without a place to print
words: explain 40
amiss: mute
told: error[71]: standard output takes no more
status: 3
"""

EXPLAIN = """
# `explain`: a number that no fault has.
files:
opened:
printed: no fault has this number

explain of a number that no fault has
words: explain 5

explain of 0
words: explain 0

explain of a number of the last kind
words: explain 255

# A number that has a meaning.
files:
opened:
status: 0
"""


def plain(cell):
    cell = cell.replace("<code>&#124;</code>", "`|`")
    return re.sub(r"\[([^\]]*)\]\([^)]*\)", r"\1", cell).strip()


def all_numbers():
    """Each number of docs/FAULTS.md."""
    with open(os.path.join(ROOT, "docs/FAULTS.md"), encoding="utf-8") as file:
        return sorted({int(number) for number in re.findall(r"(?m)^\| (\d+) \|", file.read())})


def explained(number):
    """What docs/FAULTS.md says of a number."""
    with open(os.path.join(ROOT, "docs/FAULTS.md"), encoding="utf-8") as file:
        front = file.read().split("<!-- docs/hints writes these tables -->")[0]
    if number > 100:
        (headline, label, help_text), *_ = tables()[0][number]
        return f"{number}  Warnings\n- it {headline}: {label}\n  what to do: {help_text}\n"
    heading, said = "", ""
    for line in front.split("\n"):
        if line.startswith("## "):
            heading = plain(line[3:]).split(":")[0]
        found = re.match(r"\| (\d+) \| (.*) \| (.*) \| (?:(.*) )?\|$", line)
        if found and int(found[1]) == number:
            cause, place, remedy = (plain(cell or "") for cell in found.groups()[1:])
            said = said or f"{number}  {heading}\n"
            said += f"- {cause}\n  told at: {place}\n" + (f"  what to do: {remedy}\n" if remedy else "")
    return said


def words_and_signs():
    """The help of each word and sign of CSPro."""
    with open(os.path.join(ROOT, "docs/FAULTS.md"), encoding="utf-8") as file:
        said = file.read().split("<!-- docs/hints writes these tables -->")[1].replace("<code>&#124;</code>", "`\x00`")
    found = {}
    for line in said.splitlines():
        cells = [cell.strip() for cell in line.strip("|").split(" | ")]
        if len(cells) == 2 and cells[0].startswith("`"):
            for word in re.findall(r"`([^`]+)`", cells[0]):
                found[word.replace("\x00", "|")] = cells[1].replace("\x00", "|")
    return found


def said_of(number, file, is_latin, token, hint):
    """What is said of a fault: behind the token, below it, and as help."""
    numbers, others = tables()[0], words_and_signs()
    own = others.get(token.lower()) if file == "logic" else None
    found = []
    for headline, label, help_row in numbers[number]:
        if bool(OF_LINES.match(headline)) != (file in ("messages", "order") or is_latin and number == 30):
            continue
        if headline.endswith("UTF-8") != is_latin and number == 30:
            continue
        pattern = re.escape(help_row).replace("NAME", ".+")
        if hint and hint in help_row and "NAME" not in help_row:
            found.append((headline, label, help_row))
        elif hint and re.fullmatch(pattern, hint):
            found.append((headline, label, hint))
        elif not hint and "NAME" not in help_row:
            found.append((headline, label, help_row))
    if own and (number == 33 or not found or not hint):
        # (a name that is left out has a row of its own)
        row = [it for it in numbers[number] if "left out" in it[0]] or [it for it in numbers[number] if not OF_LINES.match(it[0])]
        if not hint or hint in own:
            return row[0][0], row[0][1], own
    if found:
        return found[0]
    for help_text in others.values():
        if hint in help_text:
            row = [it for it in numbers[number] if not OF_LINES.match(it[0])][0]
            return row[0], row[1], help_text
    raise ValueError(f"nothing is said of {number}, {token}, {hint}")


def blocks(path, fault, text, said, is_of_logic, is_latin):
    """A fault as text, and as an object."""
    number, line, column, width, token = fault
    shown = text.split("\n")[line - 1]
    if is_latin:
        # (a byte that is no UTF-8)
        shown = re.sub(r"[^\t -~]", " ", shown)
    headline, label, help_text = said
    if is_of_logic and not OF_LINES.match(headline):
        headline = (f"`{token}`" if token else "the end of the text") + " " + headline
    kind, room = "error" if number < 100 else "warning", " " * len(str(line))
    below = re.sub(r"[^\t]", " ", shown[: column - 1]) + "^" * max(1, width)
    lines = [f"{kind}[{number}]: {headline}", f"{room}--> {path}:{line}:{column}", f"{room} |", f"{line} | {shown}",
             f"{room} | {below}{' ' + label if label else ''}", f"{room} = help: {help_text}", "", ""]
    thing = {"file": path, "line": line, "column": column, "end_column": column + width, "number": number, "severity": kind,
             "message": headline + (f": {label}" if label else ""), "help": help_text}
    return "\n".join(lines), json.dumps(thing, ensure_ascii=False, separators=(",", ":")).replace("\\t", " ") + "\n"


def faults_of(texts, latin, helps):
    """The faults of the files of a row, in the order in which they are told, with the text of each file."""
    found = []
    for file in ("dictionary", "messages", "order", "logic"):
        if file not in texts:
            continue
        text, marks = unmarked(texts[file])
        lines = text.split("\n")
        for number, line, column, length in sorted(marks, key=lambda mark: (mark[1], mark[2])):
            width = length or (len(lines[line - 1]) if file != "logic" else 0)
            token = lines[line - 1][column - 1 : column - 1 + length] if file == "logic" else ""
            found.append((file, text, (number, line, column, width, token)))
    found.sort(key=lambda it: it[0] == "messages" and it[2][0] > 100)
    helps = helps + [""] * (len(found) - len(helps))
    return [(file, text, fault, hint) for (file, text, fault), hint in zip(found, helps)]


def row_text(name, words, texts, helps, latin):
    """A row, and the numbers that it tells."""
    call = ["check D.dcf L.apc", *words]
    names = [FILES[file] for file in ("dictionary", "logic", "messages", "order") if file in texts or file == "dictionary"]
    call += [f"--{file} {FILES[file]}" for file in ("messages", "order") if file in texts]
    told = faults_of(texts, latin, helps)
    both = [blocks(FILES[file], fault, text, said_of(fault[0], file, file in latin, fault[4], hint), file == "logic", file in latin) for file, text, fault, hint in told]
    errors = sum(fault[0] < 100 for _, _, fault, _ in told)
    printed = "".join(it[0] for it in both) + count_text(errors, len(told) - errors) + "\n" + "".join(it[1] for it in both)
    lines = [name, f"words: {' '.join(call)}", f"    {' '.join(call)} --json"]
    if len(names) > 2:
        lines.append(f"files: {' '.join(names)}")
    lines.append(f"opened: {' '.join(names)} {' '.join(names)}")
    if not errors:
        lines.append("status: 0")
    for file in ("dictionary", "logic", "messages", "order"):
        if file in texts:
            text, _ = unmarked(texts[file])
            lines.append(text_of(FILES[file], text.encode("latin-1" if file in latin else "utf-8")))
    lines.append(text_of("printed", printed.encode()))
    return "\n".join(lines) + "\n", {fault[0] for _, _, fault, _ in told}


def table():
    """The file of rows."""
    made, numbers = [HEAD], set()
    for row in rows():
        text, told = row_text(*row)
        made.append(text)
        numbers |= told
    with open(os.path.join(HERE, AFTER), encoding="utf-8") as file:
        made.append(row_text("a page of CSPro's habits, after one round of doing what was said", [], {"logic": file.read()}, [], set())[0])
    if numbers != NUMBERS:
        raise ValueError(f"no row of {sorted(NUMBERS - numbers)}")
    made.append(CALLS[1:])
    made.append(EXPLAIN[1:])
    for number in all_numbers():
        made.append("\n".join([f"explain {number}", f"words: explain {number}", text_of("printed", explained(number).encode())]) + "\n")
    return "\n".join(made)


def main():
    made = table()
    if sys.argv[1:] == ["--check"]:
        with open(TO, encoding="utf-8") as file:
            if file.read() != made:
                print(f"{os.path.relpath(TO, ROOT)}: not what examples/rows/telling.py writes")
                return 1
        return 0
    with open(TO, "w", encoding="utf-8") as file:
        file.write(made)
    return 0


if __name__ == "__main__":
    sys.exit(main())
