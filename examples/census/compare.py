#!/usr/bin/env python3
"""Compares what csbatch gave for a census of generate.py with the errors that were put in.

usage: compare.py FOLDER [TOTALS]

FOLDER has CENSUS.dat, CENSUS.true and CENSUS.errors, and of the run CENSUS.out, CENSUS.lst and CENSUS.frq. TOTALS is a file
of the totals that the errors of this census are to have. Compared are

- the cases and lines, how often each message was given, how often each item was imputed, and what message 901 counts;
- in which household each listed message was given;
- each line of CENSUS.out: with CENSUS.true, but for lines with imputed values.

Each difference is a line, and then the status is 1.
"""
import collections
import os
import sys

FOLDER = sys.argv[1] if len(sys.argv) in (2, 3) else sys.exit(__doc__)


def lines(end):
    with open(os.path.join(FOLDER, f"CENSUS.{end}"), encoding="utf-8", newline="") as file:
        return file.read().split("\n")[:-1]


ERRORS = [error.split(" ") for error in lines("errors")]
DATA = lines("dat")


def summary():
    """The listed messages by household, and the totals of the listing's end and of message 901."""
    places, totals, ids, ended = collections.Counter(), collections.Counter(), None, False
    for line in lines("lst"):
        words = line.split(" ")
        ended = ended or line == "SUMMARY"
        if ended and words[0] == "message" and words[1] != "901":
            totals["message", words[1]] += int(words[2])
        elif ended and words[0] in ("cases", "lines", "unseen"):
            totals["", words[0]] += int(words[1])
        elif words[0] in ("CASE", "RUN"):
            ids = words[-1].strip("[]")
        elif words[:2] == ["M", "901"]:
            totals.update({("counted", "persons"): int(words[4]), ("counted", "deaths"): int(words[6])})
        elif words[0] == "M":
            places[ids, words[1]] += 1
    return places, totals


def imputed():
    words = [line.split(" ") for line in lines("frq")]
    return collections.Counter({("item", it[1]): int(it[2]) for it in words if it[0] == "ITEM"})


def wanted():
    """The messages by household and the totals that the errors call for."""
    places, totals = collections.Counter(), collections.Counter()
    for _, ids, message, _, *items in ERRORS:
        places[ids, message] += 1
        totals[("", "unseen") if message == "0" else ("message", message)] += 1
        totals.update(("item", item) for item in items)
    totals["", "lines"] = len(DATA)
    totals["", "cases"] = len({line[1:11] for line in DATA})
    totals["counted", "persons"] = sum(line[0] == "P" for line in DATA)
    totals["counted", "deaths"] = sum(line[0] == "D" for line in DATA)
    return places, totals


def written(totals):
    return [" ".join([*name, str(count)]).strip() for name, count in sorted(totals.items()) if count]


def differences():
    wanted_places, wanted_totals = wanted()
    places, totals = summary()
    totals += imputed()
    yield from (f"lacks: {it}" for it in written(wanted_totals) if it not in written(totals))
    yield from (f"too much: {it}" for it in written(totals) if it not in written(wanted_totals))
    listed = {message for _, message in places}
    for place in sorted({*places, *wanted_places}):
        if place[1] in listed and places[place] != wanted_places[place]:
            yield f"household {place[0]}: message {place[1]} {places[place]} times, not {wanted_places[place]}"
    free = {int(error[0]) for error in ERRORS if error[3] == "imputed"}
    for number, (out, true) in enumerate(zip(lines("out"), lines("true"), strict=True), 1):
        if number not in free and out != true:
            yield f"line {number}: {out!r} is not {true!r}"
    if len(sys.argv) == 3:
        with open(sys.argv[2], encoding="utf-8") as file:
            if file.read().splitlines() != written(wanted_totals):
                yield f"the errors that were put in are not those of {sys.argv[2]}"


found = list(differences())
print("\n".join(found[:50]) or f"{len(ERRORS)} errors put in and found again; each other line is as it was")
sys.exit(1 if found else 0)
