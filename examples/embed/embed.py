#!/usr/bin/env python3
"""Tries a program in Rattle, and one in C, which build, verify and run an edit.

usage: embed.py FOLDER [rattle | try | c]     (rattle, if it isn't said)

    rattle   `rt run` proves what isn't proved yet, builds rattle/main.rt.txt and runs it
    try      `rt try` runs it without proof
    c        `rt lib` proves what isn't proved yet and makes the static library of crates/cse_ffi; gcc links c/program.c with it

The gate wants every .rt of the repository in a crate, so that of rattle ends in .txt here. FOLDER becomes its workspace: the
libraries of this clone, what is built of them, the crate, and a crates.txt. For c it gets the program alone. It stays. What the
program prints is compared with `printed` beside it, and the lines of docs/EMBEDDING.md with the program.
"""
import glob
import os
import re
import shutil
import subprocess
import sys

HERE = os.path.dirname(os.path.realpath(__file__))
ROOT = os.path.dirname(os.path.dirname(HERE))
KIT = os.path.dirname(os.path.dirname(os.path.realpath(shutil.which("rt") or "rt")))
USES = "cse_value cse_image cse_dict cse_decks cse_verify cse_meaning cse_batch"
CRATE = "embedded"


def read(path):
    with open(path, encoding="utf-8") as file:
        return file.read()


def used(lines):
    """The crates of this clone that a program stands on."""
    found, new = set(), set(USES.split()) & set(lines)
    while new:
        found |= new
        new = {it for name in new for it in lines[name].split() if it in lines} - found
    return [name for name in lines if name in found]


def put(file, to):
    """A second name for a file, or a copy where it has to lie on another device."""
    try:
        os.link(file, to)
    except OSError:
        shutil.copy2(file, to)


def place(name, to):
    """Puts a crate's sources into the workspace, and its built library."""
    for part in ("src", "specs", "proofs", "out/rlib"):
        source = f"{ROOT}/crates/{name}/{part}"
        shutil.rmtree(f"{to}/{part}", ignore_errors=True)
        if os.path.isdir(source):
            shutil.copytree(source, f"{to}/{part}", copy_function=put if part == "out/rlib" else shutil.copy2)


def workspace(to):
    """Makes the workspace; gives the folder of the crate."""
    lines = dict(re.findall(r"(?m)^(\w+):(.*)$", read(f"{ROOT}/crates.txt")))
    for name in used(lines):
        place(name, f"{to}/crates/{name}")
    os.makedirs(f"{to}/crates/{CRATE}/src", exist_ok=True)
    for file in glob.glob(f"{HERE}/rattle/*.rt.txt"):
        shutil.copy2(file, f"{to}/crates/{CRATE}/src/{os.path.basename(file).removesuffix('.txt')}")
    with open(f"{to}/crates.txt", "w", encoding="utf-8") as file:
        file.writelines(f"{name}:{lines[name]}\n" for name in used(lines))
        file.write(f"{CRATE}: {USES} thiserror\n")
    return f"{to}/crates/{CRATE}"


def linked(to):
    """Makes the static library, and links the program in C with it; gives its path."""
    crate = f"{ROOT}/crates/cse_ffi"
    subprocess.run(["rt", "lib"], cwd=crate, check=True)
    os.makedirs(to, exist_ok=True)
    libraries = [f"{crate}/out/libcse_ffi.a", f"{KIT}/c/liblibc_c.a"]
    subprocess.run(["gcc", "-Wall", "-I", f"{HERE}/c", "-o", f"{to}/program", f"{HERE}/c/program.c", *libraries], check=True)
    return f"{to}/program"


def differences(printed, kind):
    if printed != read(f"{HERE}/{kind}/printed"):
        yield f"it printed {printed!r}"
    page, program = read(f"{ROOT}/docs/EMBEDDING.md"), read(f"{HERE}/rattle/main.rt.txt")
    for block in re.findall(r"(?s)```rust\n(.*?)```", page):
        if block not in program:
            yield f"docs/EMBEDDING.md shows lines that the program hasn't: {block}"


def main(to, word="rattle"):
    kind = "c" if word == "c" else "rattle"
    folder = to if kind == "c" else workspace(to)
    command = [linked(to)] if kind == "c" else ["rt", "try" if word == "try" else "run", "--"]
    ran = subprocess.run(command, cwd=folder, stdout=subprocess.PIPE, text=True)
    found = [*differences(ran.stdout, kind)]
    print("\n".join(found) or "the program prints what it should")
    return 1 if found or ran.returncode else 0


if __name__ == "__main__":
    if len(sys.argv) not in (2, 3) or sys.argv[2:] not in ([], ["rattle"], ["try"], ["c"]):
        sys.exit(__doc__)
    sys.exit(main(os.path.abspath(sys.argv[1]), *sys.argv[2:]))
