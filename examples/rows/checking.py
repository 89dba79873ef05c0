#!/usr/bin/env python3
"""Has csbatch check the logic of checks.txt, and compares all that it prints with what docs/FORMATS.md and docs/FAULTS.md say.

usage: examples/rows/checking.py PROGRAM [--only WORD]

PROGRAM is a built csbatch. The words of each fault have to be those of the tables of docs/FAULTS.md.
"""
import argparse
import json
import os
import re
import subprocess
import sys
import tempfile

HERE = os.path.dirname(os.path.realpath(__file__))
ROOT = os.path.dirname(os.path.dirname(HERE))
MARK = re.compile(r"«(\d+)(?: ([^»]*))?»")
FILES = {"dictionary": "D.dcf", "messages": "M.mgf", "order": "O.ord", "logic": "L.apc"}

# The lines of habits.apc that have to be rewritten. Line 111 is the end of the text, where the last `;` lacks.
HABITS = [3, 5, 6, 7, 9, 13, 16, 18, 21, 22, 26, 27, 28, 29, 30, 31, 32, 33, 37, 40, 43, 44, 45, 46, 47, 48, 50, 51, 54, 55, 56, 59, 63, 64, 65, 66,
          67, 69, 70, 76, 77, 78, 81, 82, 83, 84, 87, 88, 89, 90, 91, 92, 93, 94, 96, 99, 100, 101, 102, 103, 104, 105, 106,
          107, 108, 109, 111]


def rows():
    """The rows of the table: name, words, texts by file, what is in the help of each fault, and the files in latin-1."""
    row, file = None, "logic"
    for line in open(os.path.join(HERE, "checks.txt"), encoding="utf-8"):
        if line.startswith("## "):
            if row:
                yield row
            row, file = (line[3:].strip(), [], {"logic": ""}, [], set()), "logic"
        elif row is None:
            continue
        elif line.startswith("!! "):
            row[1].extend(line[3:].split())
        elif line.startswith("?? "):
            row[3].append(line[3:].strip())
        elif line.startswith("-- "):
            file, *other = line[3:].split()
            row[2].setdefault(file, "")
            row[4].update([file] if other else [])
        else:
            row[2][file] += line
    yield row


def tables():
    """What docs/FAULTS.md says of each number: behind the token, below it, and as help; and what it says of words and signs."""
    with open(os.path.join(ROOT, "docs/FAULTS.md"), encoding="utf-8") as file:
        said = file.read().split("<!-- docs/hints writes these tables -->")[1].replace("<code>&#124;</code>", "`|`")
    numbers, others = {}, []
    for line in said.splitlines():
        cells = [cell.strip() for cell in re.split(r" \| |^\| | \|$", line)[1:-1]]
        if len(cells) == 4 and cells[0].isdigit():
            numbers.setdefault(int(cells[0]), []).append(cells[1:])
        elif len(cells) == 2:
            others.append(cells[1])
    return numbers, others


def is_said(block, fault, token):
    """Whether a fault is told in the words of docs/FAULTS.md alone. The token is none where the line is told."""
    path, number, line, column, carets, help_text, shown = fault
    numbers, others = tables()
    room, below = " " * len(str(line)), re.sub(r"[^\t]", " ", shown[: column - 1]) + "^" * carets
    for headline, label, help_row in numbers[number]:
        head = f"{'error' if number < 100 else 'warning'}[{number}]: {token + ' ' if token else ''}{headline}"
        lines = [head, f"{room}--> {path}:{line}:{column}", f"{room} |", f"{line} | {shown}", f"{room} | {below}{' ' + label if label else ''}",
                 f"{room} = help: {help_text}"]
        pattern = ".+".join(map(re.escape, help_row.split("NAME")))
        if block == "\n".join(lines) and (help_text in others or re.fullmatch(pattern, help_text)):
            return True
    return False


def unmarked(text):
    """A text without its marks, and the faults that they stand for: number, line, column, length."""
    text = text.rstrip("\n") if text.strip() else ""
    text += "" if text.endswith("»") or not text else "\n"
    found, clean, at = [], "", 0
    for mark in MARK.finditer(text):
        clean += text[at : mark.start()]
        token = mark[2] or ""
        line, column = clean.count("\n") + 1, len(clean) - (clean.rfind("\n") + 1) + 1
        found.append((int(mark[1]), line, column, len(token)))
        clean += token
        at = mark.end()
    return clean + text[at:], found


def told(printed):
    """The faults that were printed: file, number, line, column, carets and help."""
    found = []
    for block in printed.split("\n\n")[:-1]:
        lines = block.split("\n")
        number = int(re.match(r"(?:error|warning)\[(\d+)\]: ", lines[0])[1])
        place = re.match(r" +--> (.*):(\d+):(\d+)$", lines[1])
        width = len(place[2])
        if lines[2] != " " * width + " |" or not lines[3].startswith(place[2] + " | ") or not lines[4].startswith(" " * width + " | "):
            raise ValueError(f"another form: {block}")
        below = lines[4][width + 3 :]
        indent = len(below) - len(below.lstrip(" \t"))
        carets = len(re.match(r"\^+", below[indent:])[0])
        if indent != int(place[3]) - 1:
            raise ValueError(f"carets at another place: {block}")
        help_text = lines[5].split(" = help: ", 1)[1]
        found.append((place[1], number, int(place[2]), int(place[3]), carets, help_text, lines[3][width + 3 :], block))
    return found, printed.split("\n\n")[-1].strip()


def count_text(faults, warnings):
    text = {0: "no fault", 1: "1 fault"}.get(faults, f"{faults} faults")
    return text + {0: "", 1: ", 1 warning"}.get(warnings, f", {warnings} warnings")


def wrong(program, folder, name, words, texts, helps, latin):
    """What isn't as it should be, or nothing."""
    wanted, sources = [], {}
    texts = dict(texts)
    if "dictionary" not in texts:
        with open(os.path.join(ROOT, "examples/household/HOUSEHOLD.dcf"), encoding="utf-8") as file:
            texts["dictionary"] = file.read()
    for file in ("dictionary", "messages", "order", "logic"):
        if file not in texts:
            continue
        text, found = unmarked(texts[file])
        found.sort(key=lambda fault: (fault[1], fault[2]))
        sources[file] = text
        with open(os.path.join(folder, FILES[file]), "w", encoding="latin-1" if file in latin else "utf-8") as out:
            out.write(text)
        lines = text.split("\n")
        for number, line, column, length in found:
            width = length or (len(lines[line - 1]) if file != "logic" else 0)
            wanted.append((FILES[file], number, line, column, max(1, width)))
    if "messages" in sources:
        words = [*words, "--messages", "M.mgf"]
    if "order" in sources:
        words = [*words, "--order", "O.ord"]
    # warnings of messages are told last
    wanted.sort(key=lambda fault: fault[0] == "M.mgf" and fault[1] > 100)
    call = [program, "check", "D.dcf", "L.apc", *words]
    ran = subprocess.run(call, cwd=folder, capture_output=True, encoding="utf-8", errors="replace", timeout=60)
    faults = [fault for fault in wanted if fault[1] < 100]
    if ran.returncode != (1 if faults else 0) or ran.stderr:
        return f"status {ran.returncode}, {ran.stderr}\n{ran.stdout}"
    found, last = told(ran.stdout)
    if [fault[:5] for fault in found] != wanted:
        return f"told\n{[fault[:5] for fault in found]}\nwhere\n{wanted}\nis wanted:\n{ran.stdout}"
    for fault in found:
        file = next(key for key in FILES if FILES[key] == fault[0])
        if file in latin:
            continue
        line = (sources[file].split("\n") + [""])[fault[2] - 1]
        if fault[6] != line:
            return f"another line: {fault}"
        token = f"`{line[fault[3] - 1 : fault[3] - 1 + fault[4]]}`" if line[fault[3] - 1 :] else "the end of the text"
        if not is_said(fault[7], fault[:7], token if file == "logic" else ""):
            return f"not what docs/FAULTS.md says:\n{fault[7]}"
    for fault, text in zip(found, helps):
        if text not in fault[5]:
            return f"no {text!r} in the help of {fault}"
    if last != count_text(len(faults), len(wanted) - len(faults)):
        return f"another count: {last}"
    ran = subprocess.run([*call, "--json"], cwd=folder, capture_output=True, text=True, timeout=60)
    objects = [json.loads(line) for line in ran.stdout.splitlines()]
    found = [(o["file"], o["number"], o["line"], o["column"], max(1, o["end_column"] - o["column"])) for o in objects]
    if found != wanted or any(o["severity"] != ("error" if o["number"] < 100 else "warning") for o in objects):
        return f"JSON: {ran.stdout}"
    return None


def wrong_page(program):
    """What isn't as it should be of the page of habits: one call tells each line that has one, and one round leaves no fault."""
    dictionary = os.path.join(ROOT, "examples/household/HOUSEHOLD.dcf")
    calls = [subprocess.run([program, "check", dictionary, os.path.join(HERE, name)], capture_output=True, text=True, timeout=60)
             for name in ("habits.apc", "habits.after.apc")]
    if calls[1].returncode != 0 or calls[1].stdout != "no fault\n":
        return f"after one round: {calls[1].stdout}"
    with tempfile.TemporaryDirectory() as folder:
        call = [program, "compile", dictionary, os.path.join(HERE, "habits.after.apc"), os.path.join(folder, "AFTER.img")]
        if subprocess.run(call, capture_output=True, timeout=60).returncode != 0:
            return "habits.after.apc is not compiled"
    found, _ = told(calls[0].stdout)
    lines = sorted({fault[2] for fault in found})
    if lines != HABITS:
        return f"told of lines {lines}, where {HABITS} have a habit"
    return None


def wrong_sample(program, folder):
    """Whether the output that docs/FORMATS.md shows is another one."""
    with open(os.path.join(ROOT, "docs/FORMATS.md"), encoding="utf-8") as file:
        wanted = file.read().split("### check\n")[1].split("```\n")[1]
    with open(os.path.join(folder, "AGE.apc"), "w", encoding="utf-8") as out:
        out.write("PROC AGE\n  if AGEE > 120 then exit; endif;\n")
    dictionary = os.path.join(ROOT, "examples/household/HOUSEHOLD.dcf")
    ran = subprocess.run([program, "check", dictionary, "AGE.apc"], cwd=folder, capture_output=True, text=True, timeout=60)
    return None if ran.stdout == wanted else f"docs/FORMATS.md has\n{wanted}where it is\n{ran.stdout}"


# Words, and the status and the front of standard error that they have to give.
CALLS = [
    (["check"], 2, "usage: "),
    (["check", "D.dcf"], 2, "usage: "),
    (["check", "D.dcf", "L.apc", "X"], 2, "usage: "),
    (["check", "D.dcf", "L.apc", "--jason"], 2, "usage: "),
    (["check", "none.dcf", "L.apc"], 3, "error[72]: can't open none.dcf\n"),
    (["check", "L.apc", "none.apc"], 3, "error[72]: can't open none.apc\n"),
    (["check", "L.apc", "L.apc", "--messages", "none.mgf"], 3, "error[72]: can't open none.mgf\n"),
    (["check", "L.apc", "."], 3, "error[70]: can't read .\n"),
    (["explain"], 2, "usage: "),
    (["explain", "many"], 2, "usage: "),
    (["explain", "5"], 1, ""),
    (["explain", "40"], 0, ""),
]


def wrong_call(program, folder):
    """The first call that ends otherwise than it should."""
    with open(os.path.join(folder, "L.apc"), "w", encoding="utf-8") as out:
        out.write("PROC AGE\n")
    for words, status, front in CALLS:
        ran = subprocess.run([program, *words], cwd=folder, capture_output=True, text=True, timeout=60)
        if ran.returncode != status or not ran.stderr.startswith(front) or (not front and ran.stderr):
            return f"{words}: status {ran.returncode}, {ran.stderr}"
    ran = subprocess.run([program, "explain", "34"], capture_output=True, text=True, timeout=60)
    wanted = "34  Logic, as text\n- more than 64 parentheses and `if`, `for`, `do` are open\n" \
        "  told at: the `(`, or the word, that is one too many\n  what to do: nest less, or close what is open\n"
    return None if ran.stdout == wanted else f"explain 34: {ran.stdout}"


def main():
    parser = argparse.ArgumentParser()
    parser.add_argument("program")
    parser.add_argument("--only", default="")
    args = parser.parse_args()
    program, count, bad = os.path.abspath(args.program), 0, 0
    with tempfile.TemporaryDirectory() as folder:
        for row in rows():
            if args.only not in row[0]:
                continue
            count += 1
            why = wrong(program, folder, *row)
            if why:
                bad += 1
                print(f"{row[0]}: {why}")
    with tempfile.TemporaryDirectory() as folder:
        for why in [] if args.only else [wrong_page(program), wrong_sample(program, folder), wrong_call(program, folder)]:
            if why:
                bad += 1
                print(why)
    print(f"{count} rows, {bad} of them wrong")
    return 1 if bad else 0


if __name__ == "__main__":
    sys.exit(main())
