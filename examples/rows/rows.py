#!/usr/bin/env python3
"""Compiles and runs worked logic with csbatch, and compares what it gives with what the rules of the language say.

usage: examples/rows/rows.py PROGRAM [--only WORD] [--times] [--timeout N]

PROGRAM is a built csbatch. README.md beside this file says what is looked at.
"""
import argparse
import os
import subprocess
import sys
import tempfile
import time

import endings
import logic
import moving
import sizes


class Wrong(Exception):
    """What is not as it should be."""


class Program:
    """Calls of a csbatch in a folder."""

    def __init__(self, program, folder, seconds):
        self.program, self.folder, self.seconds = os.path.abspath(program), folder, seconds

    def write(self, name, data):
        with open(os.path.join(self.folder, name), "wb") as file:
            file.write(data)

    def read(self, name):
        path = os.path.join(self.folder, name)
        if not os.path.exists(path):
            return None
        with open(path, "rb") as file:
            return file.read()

    def call(self, *words):
        """The status and the two streams of a call."""
        ran = subprocess.run([self.program, *words], cwd=self.folder, env={}, stdin=subprocess.DEVNULL, capture_output=True,
                             timeout=self.seconds)
        return ran.returncode, ran.stdout, ran.stderr


def same(what, found, wanted):
    if found != wanted:
        raise Wrong(f"{what}: {found!r} is not {wanted!r}")


def beside(row):
    """The options of the files beside the logic, in the order in which they are read."""
    given = (("--messages", row.messages), ("--order", row.order))
    return [word for option, data in given if data is not None for word in (option, option[2:].upper())]


def compiled(program, row):
    """Compiles the row's logic. Tells whether there is an image, and how long it took."""
    program.write("DICT", row.dictionary)
    program.write("LOGIC", row.logic)
    for name, data in (("MESSAGES", row.messages), ("ORDER", row.order)):
        if data is not None:
            program.write(name, data)
    start = time.monotonic()
    status, out, err = program.call("compile", "DICT", "LOGIC", "IMAGE", *beside(row))
    took = time.monotonic() - start
    image = program.read("IMAGE")
    if row.refused is not None:
        same("compile", (status, out, err), (1, b"", row.refused))
        same("the image", image, None)
        same("edit", program.call("edit", "DICT", "LOGIC", "DATA", "OUT", "LIST", "FREQ", *beside(row)), (1, b"", row.refused))
        same("OUT", program.read("OUT"), None)
        return False, took
    same("compile", (status, out, err), (0, b"compiled %d bytes\n" % len(image or b""), b""))
    same("the image's version", image[:8], b"CSEB\2\0\0\0")
    return True, took


def accepted(program):
    """Sees that an image which was compiled may run with its dictionary."""
    status, out, err = program.call("verify", "DICT", "IMAGE")
    same("verify", (status, out.endswith(b"\naccepted\n"), err), (0, True, b""))


def edited(program, row, before, has_decks, told):
    """Edits the same data by the logic itself, and compares all that this gives with what the run gave, byte for byte."""
    words = ["edit", "DICT", "LOGIC", "DATA", *[f"{name}-EDITED" for name in ("OUT", "LIST", "FREQ")], *beside(row)]
    if before is not None:
        program.write("DECKS-EDITED", before)
    same("edit", program.call(*words, *(["--decks", "DECKS-EDITED"] if has_decks else [])), told)
    for name in ("OUT", "LIST", "FREQ", *(["DECKS"] if has_decks else [])):
        same(f"{name} of edit", program.read(f"{name}-EDITED"), program.read(name))


def ran(program, row, run):
    """Runs the image over the data of a run, compares its files, and does the same by `edit`."""
    program.write("DATA", run.data)
    words = ["run", "DICT", "IMAGE", "DATA", "OUT", "LIST", "FREQ"]
    if run.decks is not None:
        program.write("DECKS", run.decks)
    has_decks = run.decks is not None or "DECKS" in run.wanted
    before = program.read("DECKS") if has_decks else None
    status, out, err = program.call(*words, *(["--decks", "DECKS"] if has_decks else []))
    edited(program, row, before, has_decks, (status, out, err))
    if run.refused is not None:
        same("run", (status, out, err), (1, b"", run.refused))
        return
    same("run", (status, err), (0, b""))
    for name, wanted in run.wanted.items():
        same(name, out if name == "totals" else program.read(name), wanted)


def look(program, row):
    """Compiles a row, verifies its image and does its runs. Tells how long the compiler took."""
    there, took = compiled(program, row)
    if there:
        accepted(program)
        for run in row.runs:
            ran(program, row, run)
    return took


def main():
    parser = argparse.ArgumentParser(usage=__doc__.split("usage: ")[1].split("\n")[0])
    parser.add_argument("program")
    parser.add_argument("--only", default="")
    parser.add_argument("--times", action="store_true")
    parser.add_argument("--timeout", type=float, default=120)
    args = parser.parse_args()
    wrong = seen = 0
    looks = [(row.name, lambda program, row=row: look(program, row)) for row in [*logic.rows(), *moving.rows(), *sizes.rows()]]
    looks += [(name, lambda program, check=check: check(program)) for name, check in [*endings.checks(same), *moving.checks(same)]]
    for name, check in looks:
        if args.only not in name:
            continue
        seen += 1
        with tempfile.TemporaryDirectory(prefix="rows-") as folder:
            try:
                took = check(Program(args.program, folder, args.timeout))
                if args.times and took is not None:
                    print(f"{name}: compiled in {took:.3f} s")
            except (Wrong, subprocess.TimeoutExpired) as why:
                wrong += 1
                print(f"{name}: {str(why)[:2000]}")
    print(f"{seen} rows, {wrong} of them not as they should be")
    return 1 if wrong or not seen else 0


if __name__ == "__main__":
    sys.exit(main())
