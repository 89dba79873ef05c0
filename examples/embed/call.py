#!/usr/bin/env python3
"""Runs csbatch from Python, and prints what it counted, or the number of its fault.

usage: call.py CSBATCH DICT IMAGE DATA OUT LIST FREQ
"""
import subprocess
import sys


def edited(csbatch, dictionary, image, data, out, listing, frequencies):
    """What was counted, or nothing; and the number of the fault, or nothing."""
    counted = number = None
    ran = subprocess.run([csbatch, "run", dictionary, image, data, out, listing, frequencies], capture_output=True, text=True)
    if ran.returncode == 0:
        counted = dict(zip(ran.stdout.split()[::2], map(int, ran.stdout.split()[1::2])))
    else:
        number = int(ran.stderr.split()[1]) if ran.stderr.startswith("refused ") else None
    return counted, number


if __name__ == "__main__":
    if len(sys.argv) != 8:
        sys.exit(__doc__)
    print(*edited(*sys.argv[1:]))
