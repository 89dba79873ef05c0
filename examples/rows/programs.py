#!/usr/bin/env python3
"""Writes the rows of crates/cse_test_files that tell what `verify`, `try` and `run` say of programs.

usage: examples/rows/programs.py [--check]

Their images are put together, by docs/IMAGE.md, from the listings of programs.txt. What is said of each stands there too: it follows
from docs/IMAGE.md, and from no run.

--check writes nothing, and prints a line where the rows that are there are others.
"""
import os
import re
import struct
import sys

from checking import ROOT
from texts import text_of

HERE = os.path.dirname(os.path.realpath(__file__))
TO = os.path.join(ROOT, "crates/cse_test_files/data/rows/programs.txt")
NAMES = """Number Special Text LoadLocal StoreLocal LoadGlobal StoreGlobal Add Subtract Multiply Quotient Remainder Negate Compare
    CompareText And Or Not IsSpecial Jump JumpUnless Index Occurrence Row CurrentOccurrence OccurrenceNumber TotalOccurrences IdNumber
    IdText ItemNumber ItemText StoreNumber StoreText LoadCell StoreCell InSet Message Impute Call Return LoopCount LoopOccurrences End
    Break Pop""".split()
EVENTS = """ApplicationPreproc ApplicationPostproc LevelPreproc LevelPostproc RecordPreproc RecordPostproc ItemPreproc
    ItemPostproc""".split()
KINDS = {"number": 1, "text": 2, "occurrence": 3}


def code_of(listing):
    """Instructions with `; ` between them, each its name and its fields a, b and c."""
    code = b""
    for one in listing.split("; "):
        one, _, times = one.partition(" * ")
        name, *fields = one.split()
        a, b, c = ([int(it) for it in fields] + [0, 0, 0])[:3]
        code += struct.pack("<BBHI", NAMES.index(name) + 1, a, b, c) * int(times or 1)
    return code


def local(said):
    """A local: its kind, and its length or its record."""
    kind, *rest = said.split()
    number = int(rest[0]) if rest else 0
    return struct.pack("<BBH", KINDS[kind], number if kind == "occurrence" else 0, number if kind == "text" else 0)


def section(entries):
    return struct.pack("<I", len(entries)) + b"".join(entries)


def bytes_of_text(said):
    text = said.strip("'").encode()
    return struct.pack("<H", len(text)) + text


def array(said):
    """Its name, `saved` or not, its dimensions, and behind `=` its cells."""
    head, _, cells = said.partition("=")
    name, *words = head.split()
    sizes = [int(it) for it in words if it != "saved"]
    cells = [int(it) for it in cells.split()]
    return struct.pack("<BBBB", "saved" in words, len(sizes), len(name), 0) + b"".join(struct.pack("<H", it) for it in sizes) \
        + name.encode() + struct.pack("<I", len(cells)) + b"".join(struct.pack("<q", it) for it in cells)


def message(said):
    number, summary, text = re.match(r"(\d+)( summary)? ?(.*)", said).groups()
    text = text.encode()
    return struct.pack("<IBBH", int(number), bool(summary), 0, len(text)) + text


def routine(said, heads, named):
    """The head of a routine and its code: `HEAD:CODE`. The head is ambient, gift, count of parameters, and the locals."""
    name, code = said.split(":", 1)
    ambient, gift, parameters, *locals_ = heads[name].split(", ")
    code = code_of(named.get(code, code))
    kinds = ("nothing", "number", "text")
    head = struct.pack("<BBBB", ("run", "case").index(ambient), kinds.index(gift), int(parameters), len(locals_))
    return head + b"".join(map(local, locals_)) + struct.pack("<I", len(code) // 8), code


def event(said):
    code, index, number = said.split()
    return struct.pack("<BBHI", EVENTS.index(code), 0, int(index), int(number))


def numbers(form, said):
    return [struct.pack("<" + form, *map(int, it.split())) for it in said.split(", ") if it]


class Group:
    """What programs share: `key = value` lines. A key with a dot adds a name to a family: `head.plain`, `code.loops`, `shape.persons.items`."""

    def __init__(self):
        self.said = {}

    def family(self, name):
        return {key[len(name) + 1:]: value for key, value in self.said.items() if key.startswith(name + ".")}

    def image(self, shape, events, routines):
        def lines(key, make):
            return section([make(it) for it in self.said.get(key, "").split(" | ") if it])

        def numbers_of(key, form):
            return section(numbers(form, self.said.get(key, "")))

        made = [routine(it, self.family("head"), self.family("code")) for it in routines]
        shapes = self.family("shape")
        records, items, sets, order = (shapes.get(f"{shape}.{key}", "") for key in ("records", "items", "sets", "order"))
        parts = [b"CSEB", struct.pack("<HH", 2, 0), section(numbers("HHI", records)), section(numbers("BBHI", items)),
                 section(numbers("HHBBH", sets)), section(numbers("I", order)), numbers_of("constants", "q"), numbers_of("limits", "I"),
                 lines("texts", bytes_of_text), numbers_of("globals", "BBH"), lines("arrays", array), lines("messages", message),
                 section([head for head, _ in made]), section(list(map(event, events))), b"".join(code for _, code in made)]
        return b"".join(parts)


def hexadecimal(name, content):
    """An image as bytes of a row, 32 a line."""
    lines, at = [f"text {name}:"], 0
    # (instructions that stand there many times)
    for found in [*re.finditer(rb"(.{8})\1{99,}", content, re.S), None]:
        end = found.start() if found else len(content)
        lines += [f"    |\\: {content[place:min(place + 32, end)].hex(' ')}" for place in range(at, end, 32)]
        if found:
            lines.append(f"    |\\*{len(found[0]) // 8} {''.join(f'{chr(92)}x{it:02X}' for it in found[1])}\\")
            at = found.end()
    return "\n".join(lines)


def rows():
    """The rows of programs.txt."""
    group, made, name = Group(), [], ""
    with open(os.path.join(HERE, "programs.txt"), encoding="utf-8") as file:
        lines = file.read().split("\n")
    for line in lines:
        if line.startswith("== "):
            group = Group()
            group.said["name"] = line[3:]
        elif line.startswith("# "):
            name = line[2:]
        elif " = " in line and not line.startswith("- "):
            key, value = line.split(" = ", 1)
            group.said[key] = value.strip()
        elif line.startswith("- "):
            made.append((group, name, line[2:]))
    return made


def row(place, group, said, comment):
    """`command | shape | events | what is said | routines`. What is said has `/` for a line end, and is told where it begins with
    `refused`, but of a run that is accepted nothing is said."""
    command, shape, events, wanted, *routines = [it.strip() for it in said.split("|")]
    shape, _, other = shape.partition(":")
    image = group.image(shape, [it for it in events.split(", ") if it], routines)
    lines = [f"{place}: {comment}"[:110]]
    words = {"try": "try IMAGE", "verify": "verify DICT IMAGE", "run": "run DICT IMAGE DATA /dev/null /dev/null /dev/null"}[command]
    dictionary = "" if command == "try" else f"DICT={group.said['name']}.{other or shape}"
    lines.append(f"words: {words}")
    files = [it for it in (dictionary, "IMAGE", "DATA=wanted/empty" if command == "run" else "") if it]
    lines.append(f"files: {' '.join(files)}")
    refused = wanted.startswith("refused")
    opened = {"try": "IMAGE", "verify": "DICT IMAGE", "run": "DICT IMAGE" if refused else "DICT IMAGE DATA >/dev/null >/dev/null >/dev/null"}
    lines.append(f"opened: {opened[command]}")
    if refused:
        lines.append(f"told: {wanted}")
    else:
        wanted = "cases 0 lines 0 unseen 0" if command == "run" else wanted
        lines += [f"{'printed: ' if place == 0 else '    '}{it.strip()}" for place, it in enumerate(wanted.split("/"))]
        lines.append("status: 0")
    lines.append(hexadecimal("IMAGE", image))
    return "\n".join(lines) + "\n"


def without_rows(made):
    """The opcodes of which no program is accepted, or none refused."""
    for name in NAMES:
        of_name = [said for _, comment, said in made if comment.startswith(f"{name}:") and re.search(rf"\b{name}\b", said)]
        if not any("| accepted |" in said for said in of_name) or not any("| refused" in said for said in of_name):
            yield name


def table():
    """The file of rows."""
    head = "# What `verify`, `try` and `run` say of programs. examples/rows/programs.py writes this file from examples/rows/programs.txt.\n"
    made = rows()
    for name in without_rows(made):
        raise ValueError(f"no program of {name} that is accepted, or none that is refused")
    dictionaries = {}
    for group, _, _ in made:
        for shape, value in group.family("dictionary").items():
            dictionaries[f"{group.said['name']}.{shape}"] = value.replace("/", "\n")
    head += "\n".join(text_of(name, text.encode()) for name, text in dictionaries.items()) + "\n"
    parts = [head, "# Programs.\nstatus: 1\n"]
    for place, (group, comment, said) in enumerate(made, 1):
        parts.append(row(place, group, said, comment))
    return "\n".join(parts)


def main():
    made = table()
    if sys.argv[1:] == ["--check"]:
        with open(TO, encoding="utf-8") as file:
            if file.read() != made:
                print(f"{os.path.relpath(TO, ROOT)}: not what examples/rows/programs.py writes")
                return 1
        return 0
    with open(TO, "w", encoding="utf-8") as file:
        file.write(made)
    return 0


if __name__ == "__main__":
    sys.exit(main())
