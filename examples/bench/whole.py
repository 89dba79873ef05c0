#!/usr/bin/env python3
"""Times whole runs over large files, by turns with plain Rust programs of the same work, and compares what they write.

usage: whole.py CSBATCH [CASES [ROUNDS]]     (1,000,000 cases and 5 rounds, if it isn't said; needs rustc)

It builds `copy.rs`, `households.rs` and `household/main.rs` beside it, and writes three files: short lines, three to a
case; the same with a column beyond ASCII in each; and households as the sample has them. In each round it runs a copy
by hand and `csbatch run` with empty logic over each of the first two; over the third `cat`, the sample's edit by hand, a
plain machine that runs the sample's image and one without events (`household/machine.rs`; its lines are read and written
as those of the edit by hand are), `csbatch run` with empty logic, with the sample's logic, the same in 4 parts side by
side, and over the first 10,000 cases. It prints seconds of processor time (user and system, least of the rounds) with
the ratio to the plain program that does the same, the sample's to the edit by hand and to the machine, seconds of the
clock, and the most memory that was resident; then whether all wrote the same.
"""
import filecmp
import os
import shutil
import subprocess
import sys
import tempfile
import time

HERE = os.path.dirname(os.path.realpath(__file__))
SAMPLE = os.path.join(HERE, "..", "household")
SHORT = os.path.join(HERE, "..", "sample", "SAMPLE.dcf")
PARTS, FEW = 4, 10_000
ENDS = ("out", "lst", "frq", "decks")

# Which plain programs do the work of a run.
HAND, MACHINE, NO_EVENTS = "edit by hand", "sample's image by a plain machine", "no events by a plain machine"
PLAIN = {"short lines": ["copy of short lines"], "beyond ASCII": ["copy beyond ASCII"], "empty logic": [NO_EVENTS],
         "sample": [HAND, MACHINE]}


def sample(name):
    return os.path.join(SAMPLE, f"HOUSEHOLD.{name}")


def built(source, to):
    subprocess.run(["rustc", "--edition", "2021", "-O", os.path.join(HERE, source), "-o", to], check=True)
    return os.path.abspath(to)


def started(words, out):
    """Starts a command whose standard output goes to this file."""
    pid = os.fork()
    if pid == 0:
        os.dup2(os.open(out, os.O_WRONLY | os.O_CREAT | os.O_TRUNC, 0o644), 1)
        os.execvp(words[0], words)
    return pid


def resident(pid):
    """The most memory of a started command so far, in kilobytes."""
    try:
        if os.path.samefile(f"/proc/{pid}/exe", sys.executable):
            return 0
        with open(f"/proc/{pid}/status") as it:
            return next((int(line.split()[1]) for line in it if line.startswith("VmHWM:")), 0)
    except OSError:
        return 0


def timed(*commands):
    """Runs commands side by side: processor time, time of the clock, and kilobytes of the largest."""
    began, spent, most = time.time(), 0.0, 0
    running = [started(words, out) for words, out in commands]
    while running:
        time.sleep(0.01)
        for pid in list(running):
            held = resident(pid)
            ended, status, used = os.wait4(pid, os.WNOHANG)
            if not ended:
                most = max(most, held)
                continue
            if status:
                sys.exit(f"failed: {commands}")
            running.remove(pid)
            spent += used.ru_utime + used.ru_stime
    return spent, time.time() - began, most


def first_cases(data, to, most):
    """Writes the first cases of a file, and says how many lines the file has."""
    last, cases, lines = None, 0, 0
    with open(data, "rb") as whole, open(to, "wb") as part:
        for line in whole:
            lines += 1
            cases, last = cases + (line[1:8] != last), line[1:8]
            if cases <= most:
                part.write(line)
    return lines


def in_parts(data, lines):
    """Cuts the file into parts of whole cases, in its order."""
    names, last, k, at = [f"part{k}.dat" for k in range(PARTS)], None, 0, 0
    files = [open(name, "wb") for name in names]
    with open(data, "rb") as whole:
        for line in whole:
            if line[1:8] != last and at >= (k + 1) * lines // PARTS:
                k += 1
            last, at = line[1:8], at + 1
            files[k].write(line)
    for file in files:
        file.close()
    return names


def short_lines(to, cases, mark):
    """Writes cases of three short lines, each with this mark in its last column."""
    with open(to, "w", encoding="utf-8") as data:
        for k in range(cases):
            household = f"P{k % 1000:03}"
            data.write(f"{household}11 35{mark}\n{household}22 33{mark}\n{household}13   {mark}\n")


def run_of(program, image, data, to, decks=True, dictionary=sample("dcf")):
    words = [program, "run", dictionary, image, data, f"{to}.out", f"{to}.lst", f"{to}.frq"]
    return words + ["--decks", f"{to}.decks"] * decks, f"{to}.said"


def plain_run(plain, to, *image):
    return [([plain, "data", f"{to}.out", f"{to}.lst", f"{to}.frq", f"{to}.decks", *image], f"{to}.said")]


def prepared(program, cases):
    with open("data", "wb") as data:
        subprocess.run([built("households.rs", "households"), str(cases)], stdout=data, check=True)
    open("empty.apc", "w").close()
    beside = ["--messages", sample("mgf"), "--order", sample("order")]
    for words in ([sample("dcf"), sample("apc"), "logic.img", *beside], [sample("dcf"), "empty.apc", "empty.img"],
                  [SHORT, "empty.apc", "short.img"]):
        subprocess.run([program, "compile", *words], check=True, stdout=subprocess.DEVNULL)
    short_lines("short", cases, "E")
    short_lines("beyond", cases, "\u00c9")
    copy, plain = built("copy.rs", "copy"), built("household/main.rs", "plain")
    lines = first_cases("data", "few", FEW)
    parts = in_parts("data", lines)
    rows = {
        "copy of short lines": [([copy, "short", "cs.out"], "cs.said")],
        "short lines": [run_of(program, "short.img", "short", "s", decks=False, dictionary=SHORT)],
        "copy beyond ASCII": [([copy, "beyond", "cb.out"], "cb.said")],
        "beyond ASCII": [run_of(program, "short.img", "beyond", "b", decks=False, dictionary=SHORT)],
        "cat": [(["cat", "data"], "cat.out")],
        HAND: plain_run(plain, "p"),
        MACHINE: plain_run(plain, "m", sample("dcf"), "logic.img"),
        NO_EVENTS: plain_run(plain, "n", sample("dcf"), "empty.img"),
        "empty logic": [run_of(program, "empty.img", "data", "e", decks=False)],
        "sample": [run_of(program, "logic.img", "data", "h")],
        f"in {PARTS} parts": [run_of(program, "logic.img", part, part) for part in parts],
        f"{FEW} cases": [run_of(program, "logic.img", "few", "f")],
    }
    return lines, rows, ["p.decks", "m.decks", "n.decks", "h.decks", "f.decks", *(f"{part}.decks" for part in parts)]


def main(program, cases=1_000_000, rounds=5):
    lines, rows, decks = prepared(program, cases)
    print(f"{cases} cases, {lines} lines, {os.path.getsize('data')} bytes; {rounds} rounds")
    seen = {}
    for _ in range(rounds):
        for to in decks:
            shutil.copy(sample("decks"), to)
        for name, commands in rows.items():
            seen.setdefault(name, []).append(timed(*commands))
    least = {name: min(it[0] for it in used) for name, used in seen.items()}
    print(f"{'':35}{'processor s':>12}{'ratio':>11}{'clock s':>9}{'KB':>9}")
    for name, used in seen.items():
        ratio = " ".join(f"{least[name] / least[plain]:.2f}" for plain in PLAIN.get(name, []))
        print(f"{name:35}{least[name]:12.2f}{ratio:>11}{min(it[1] for it in used):9.2f}{max(it[2] for it in used):9}")
    for ours, theirs in (("s.out", "cs.out"), ("s.out", "short"), ("b.out", "cb.out"), ("b.out", "beyond"), ("e.out", "data"),
                         ("n.out", "data"), *((f"h.{end}", f"{plain}.{end}") for plain in "pm" for end in ENDS)):
        print(f"{ours} and {theirs}: {'the same' if filecmp.cmp(ours, theirs, shallow=False) else 'DIFFERENT'}")


if __name__ == "__main__":
    if len(sys.argv) not in (2, 3, 4):
        sys.exit(__doc__)
    given = os.path.abspath(sys.argv[1])
    with tempfile.TemporaryDirectory(prefix="csbatch-whole-") as room:
        os.chdir(room)
        main(given, *map(int, sys.argv[2:]))
