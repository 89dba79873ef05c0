#!/usr/bin/env python3
"""Times parts of the libraries over memory: fields, images, decks, messages, steps, and runs over cases.

usage: times.py FOLDER [WORD]     (all, fields, images, decks, messages, steps, kept or cases; all, if it isn't said)

The crate `cse_bench` that takes the times lies in times/, beside this script. Each of its files has a name that ends in .txt,
since the gate wants every .rt and .antt of the repository in a crate of its own. This script makes a workspace of it in FOLDER:
the crates that it uses, with the libraries that are proved here, and a crates.txt. There `rt run` proves what isn't proved yet,
builds the program and starts it. FOLDER stays; a second run there proves only what changed.
"""
import os
import re
import shutil
import subprocess
import sys

HERE = os.path.dirname(os.path.realpath(__file__))
ROOT = os.path.dirname(os.path.dirname(HERE))
NAME = "cse_bench"
USES = "cse_value cse_image_parts cse_image cse_dict cse_case cse_decks cse_report cse_verify cse_machine cse_batch"


def used():
    """The lines of crates.txt of the crates that the program stands on, by their names."""
    with open(f"{ROOT}/crates.txt", encoding="utf-8") as file:
        lines = dict(re.findall(r"(?m)^(\w+):(.*)$", file.read()))
    found, new = set(), set(USES.split())
    while new:
        found |= new
        new = {it for name in new for it in lines[name].split() if it in lines} - found
    return {name: lines[name] for name in lines if name in found}


def put(file, to):
    """A second name for a file, or a copy where it has to lie on another device."""
    try:
        os.link(file, to)
    except OSError:
        shutil.copy2(file, to)


def place(name, to):
    """Puts a crate's sources and its built library into the workspace, unless that has the same library already."""
    for part in ("src", "specs", "proofs"):
        shutil.rmtree(f"{to}/{part}", ignore_errors=True)
        if os.path.isdir(f"{ROOT}/crates/{name}/{part}"):
            shutil.copytree(f"{ROOT}/crates/{name}/{part}", f"{to}/{part}")
    ours, theirs = f"{ROOT}/crates/{name}/out/rlib", f"{to}/out/rlib"
    if stamp(ours) and stamp(ours) != stamp(theirs):
        shutil.rmtree(theirs, ignore_errors=True)
        shutil.copytree(ours, theirs, copy_function=put)


def stamp(library):
    """What `rt` says that a built library was made from, or nothing where it isn't built."""
    if not os.path.isfile(f"{library}/stamp"):
        return ""
    with open(f"{library}/stamp", encoding="utf-8") as file:
        return file.read()


def place_program(to):
    """Puts the files of times/ into the workspace, under the names that `rt` takes."""
    for part in ("src", "proofs"):
        shutil.rmtree(f"{to}/{part}", ignore_errors=True)
        for folder, _, files in os.walk(f"{HERE}/times/{part}"):
            into = os.path.join(to, os.path.relpath(folder, f"{HERE}/times"))
            os.makedirs(into)
            for file in files:
                shutil.copy2(os.path.join(folder, file), os.path.join(into, file.removesuffix(".txt")))


def main(to, word="all"):
    lines = used()
    for name in lines:
        place(name, f"{to}/crates/{name}")
    place_program(f"{to}/crates/{NAME}")
    with open(f"{to}/crates.txt", "w", encoding="utf-8") as file:
        file.writelines(f"{name}:{line}\n" for name, line in {**lines, NAME: f" {USES}"}.items())
    return subprocess.run(["rt", "run", "--", word], cwd=f"{to}/crates/{NAME}").returncode


if __name__ == "__main__":
    if len(sys.argv) not in (2, 3):
        sys.exit(__doc__)
    sys.exit(main(os.path.abspath(sys.argv[1]), *sys.argv[2:]))
