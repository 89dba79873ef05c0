"""Counts what changed between two files of a census by the dictionary's columns, line by line, and compares `diff --csv` and `diff --cases` with it.

The files are those of the generator of examples/census: the data, and the lines as an edit has to leave them.
"""
import collections
import csv
import os
import re
import subprocess
import sys
import tempfile

CENSUS = os.path.join(os.path.dirname(os.path.realpath(__file__)), "../census")
HOUSEHOLDS, AREA = "2000", "PROVINCE"


def layout():
    """The most occurrences by record type; and each item's name, record type (None of an id item), first place and columns."""
    with open(f"{CENSUS}/CENSUS.dcf", encoding="utf-8-sig") as file:
        sections = re.findall(r"(?ms)^\[(\w+)\]\n(.*?)(?=^\[|\Z)", file.read())
    most, items, owner = {}, [], None
    for name, body in sections:
        keys = dict(line.split("=", 1) for line in reversed(body.split("\n")) if "=" in line)
        if name == "Record":
            owner = keys["RecordTypeValue"].strip("'")
            most[owner] = int(keys.get("MaxRecords", 1))
        elif name == "Item":
            items.append((keys["Name"], owner, int(keys["Start"]) - 1, int(keys["Len"])))
    return most, items


def counted(before, after):
    """By area, and by "" for all: how often each item occurs, and in how many of these it changed. An id item occurs in each line."""
    most, items = layout()
    ids = [it for it in items if it[1] is None]
    occurs, changed = collections.defaultdict(collections.Counter), collections.defaultdict(collections.Counter)
    last, seen = None, collections.Counter()
    for old, new in zip(before, after, strict=True):
        old, new = (line.rstrip("\n").ljust(1000) for line in (old, new))
        case = {name: old[start : start + length] for name, _, start, length in ids}
        if case != last:
            last, seen = case, collections.Counter()
        kind = old[0]
        seen[kind] += 1
        is_seen = seen[kind] <= most.get(kind, 0)
        for name, owner, start, length in items:
            if owner is None or owner == kind and is_seen:
                for area in ("", case[AREA]):
                    occurs[area][name] += 1
                    changed[area][name] += old[start : start + length] != new[start : start + length]
    return occurs, changed


def differences(program):
    with tempfile.TemporaryDirectory() as room:
        subprocess.run([sys.executable, f"{CENSUS}/generate.py", HOUSEHOLDS, room], check=True, stdout=subprocess.DEVNULL)
        words = [program, "diff", f"{CENSUS}/CENSUS.dcf", "CENSUS.dat", "CENSUS.true"]
        words += ["--by", AREA, "--csv", "CSV", "--cases", "CASES"]
        subprocess.run(words, cwd=room, check=True, stdout=subprocess.DEVNULL)
        with open(f"{room}/CENSUS.dat", encoding="utf-8") as before, open(f"{room}/CENSUS.true", encoding="utf-8") as after:
            occurs, changed = counted(before, after)
        with open(f"{room}/CSV", encoding="utf-8", newline="") as file:
            # (behind an area's value stands its label)
            found = {(row["area"].split(" ")[0], row["item"]): (int(row["occurrences"]), int(row["changed"])) for row in csv.DictReader(file)}
        with open(f"{room}/CASES", encoding="utf-8", newline="") as file:
            told = collections.Counter(row["item"] for row in csv.DictReader(file))
    # (the table has each item of the whole, and of an area those that were changed there)
    wanted = {(area, name): (occurs[area][name], changed[area][name]) for area in occurs for name in occurs[area] if not area or changed[area][name]}
    for key in sorted(found.keys() | wanted.keys()):
        if found.get(key) != wanted.get(key):
            yield f"census: {key}: {found.get(key)}, and not {wanted.get(key)}"
    if told != +changed[""]:
        yield "census: the rows of --cases are not as many as the changes of each item"
