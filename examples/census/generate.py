#!/usr/bin/env python3
"""Writes the data of a census of so many households, with errors in fixed proportions.

usage: generate.py HOUSEHOLDS FOLDER [SEED]     (SEED is 1 if it isn't said; the same numbers give the same files)

FOLDER gets CENSUS.dat; CENSUS.true, the same lines as an edit that finds each error has to leave them; and CENSUS.errors,
a line for each error: the number of the data line (0 for a household), the ids, the message that has to find it, what
becomes of the line (`restored` to what CENSUS.true has, `imputed`, or `kept`), and the items that are imputed.
"""
import os
import sys

from errors import DEATHS, HOUSING, KEPT, QUERIES, Kind, spoil, spoil_persons
from households import Dice, household
from layout import line

NO_PERSONS, NO_HOUSING = Kind(101, 0.003, KEPT, (), None, None), Kind(102, 0.002, KEPT, (), None, None)
UNKNOWN, EXTRA = Kind(0, 0.002, KEPT, (), None, None), Kind(0, 0.002, KEPT, (), None, None)


class Files:
    """The three files, written line by line."""

    def __init__(self, folder):
        paths = [os.path.join(folder, f"CENSUS.{end}") for end in ("dat", "true", "errors")]
        self.data, self.true, self.errors = [open(path, "w", encoding="utf-8", newline="") for path in paths]
        self.lines = 0

    def line(self, data, true, *kinds):
        """A data line, the line that an edit has to leave, and the errors in it (None for none)."""
        self.lines += 1
        self.data.write(data + "\n")
        self.true.write(true + "\n")
        for kind in filter(None, kinds):
            self.error(kind, data, self.lines)

    def error(self, kind, data, number=0):
        self.errors.write(" ".join([str(number), data[1:11], str(kind.message), kind.fate, *kind.imputed]) + "\n")


def write_housing(dice, it, files):
    query = spoil(dice, it.housing, QUERIES)
    true = line("HOUSING", it.ids, it.housing)
    kinds = [query, *(spoil(dice, it.housing, group) for group in HOUSING)]
    data = line("HOUSING", it.ids, it.housing)
    files.line(data, true, *kinds)
    if dice.chance(EXTRA.share):
        files.line(data, data, EXTRA)


def write(dice, it, files):
    """Draws the errors of a household, and writes it."""
    ids = line("HOUSING", it.ids, {})
    if dice.chance(NO_PERSONS.share):
        it.persons, it.housing["H14_PERSONS"] = [], 0
        files.error(NO_PERSONS, ids)
    if it.persons and dice.chance(NO_HOUSING.share):
        files.error(NO_HOUSING, ids)
    else:
        write_housing(dice, it, files)
    true = [line("PERSON", it.ids, person) for person in it.persons]
    for person, was, kind in zip(it.persons, true, spoil_persons(dice, it)):
        files.line(line("PERSON", it.ids, person), was, kind)
    for death in it.deaths:
        was = line("DEATH", it.ids, death)
        kind = spoil(dice, death, DEATHS)
        files.line(line("DEATH", it.ids, death), was, kind)
    if dice.chance(UNKNOWN.share):
        files.line("X" + ids[1:11] + "?", "X" + ids[1:11] + "?", UNKNOWN)


def main(count, folder, seed=1):
    dice, files = Dice(seed), Files(folder)
    for k in range(count):
        write(dice, household(dice, k, count), files)


if __name__ == "__main__":
    if len(sys.argv) not in (3, 4):
        sys.exit(__doc__)
    main(int(sys.argv[1]), sys.argv[2], *map(int, sys.argv[3:]))
