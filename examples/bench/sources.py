#!/usr/bin/env python3
"""Times `csbatch compile` of a large source: read, checked, compiled, verified and written.

usage: sources.py CSBATCH     (as crates/csbatch/out/csbatch, once `rt run` was called there)

The source has some 60,000 tokens: 4,995 globals, each declared, read and assigned. It is compiled ten times, as is the
household sample, and the least processor time of each is printed.
"""
import os
import resource
import subprocess
import sys
import tempfile

HERE = os.path.dirname(os.path.realpath(__file__))
SAMPLE = os.path.join(HERE, "..", "household", "HOUSEHOLD")
DICTIONARY = os.path.join(HERE, "..", "sample", "SAMPLE.dcf")
GLOBALS, ROUNDS = 4995, 10


def logic():
    names = [f"NAME{k}" for k in range(GLOBALS)]
    lines = ["PROC GLOBAL", *(f"numeric {name};" for name in names)]
    return "\n".join([*lines, "PROC QUEST", *(f"{name} = {name} + AGE(1);" for name in names), ""])


def timed(words):
    """The least processor time of a command."""
    least = float("inf")
    for _ in range(ROUNDS):
        before = resource.getrusage(resource.RUSAGE_CHILDREN)
        subprocess.run(words, check=True, stdout=subprocess.DEVNULL)
        after = resource.getrusage(resource.RUSAGE_CHILDREN)
        least = min(least, after.ru_utime + after.ru_stime - before.ru_utime - before.ru_stime)
    return least


def main(csbatch):
    with tempfile.TemporaryDirectory() as room:
        source, image = os.path.join(room, "large.apc"), os.path.join(room, "image")
        with open(source, "w", encoding="utf-8") as file:
            file.write(logic())
        large = timed([csbatch, "compile", DICTIONARY, source, image])
        beside = ["--messages", f"{SAMPLE}.mgf", "--order", f"{SAMPLE}.order"]
        sample = timed([csbatch, "compile", f"{SAMPLE}.dcf", f"{SAMPLE}.apc", image, *beside])
    print(f"{GLOBALS} globals: {large:.3f} s; the household sample: {sample:.4f} s")


if __name__ == "__main__":
    if len(sys.argv) != 2:
        sys.exit(__doc__.split("\n\n")[1])
    main(os.path.realpath(sys.argv[1]))
