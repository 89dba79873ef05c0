#!/usr/bin/env python3
"""Prints what a crate's proof costs by function, the dearest first, in processor seconds.

usage: docs/function-cost.py CRATE [--test] [--only PATH ..] [--shown N] [--to FILE] [--against FILE] [--modules]
       docs/function-cost.py --of FOLDER [--shown N] [--to FILE] [--against FILE] [--modules]

It checks the crate from nothing, with one job, over the libraries in out/rlib of the crates below (`rt lib` builds them). The check
writes a file for each module as it ends with it, so what the processor took between two files is of the second. A function has several modules:
`paths` are the ways through it (its module Lts), `tie` what joins its loops and branches, `proof` its goals, `rest` its code and its
statement. A file of specs/ or proofs/ is one module. The check's stages, by the clock, and its processor seconds stand below.
--test checks the crate with its tests.
--only PATH checks these functions and those that they call: less time for a trial, but not the same sums.
--of FOLDER prints what an earlier check from nothing left in such a folder, as crates/NAME/out/incremental after `rt check --jobs 1`,
by the clock.
--to FILE keeps the sums, a line for each function, and --against FILE prints beside them what such a file has.
--modules prints modules in place of functions. The words of CHECK_WITH, from the environment, stand in front of the check.
"""
import argparse
import collections
import ctypes
import glob
import os
import re
import select
import shlex
import shutil
import struct
import subprocess
import sys
import tempfile
import time

ROOT = os.path.dirname(os.path.dirname(os.path.realpath(__file__)))
KIT = os.path.dirname(os.path.dirname(os.path.realpath(shutil.which("rt") or "rt")))
KINDS = {"Lts": "paths", "Tie": "tie", "Proof": "proof"}
COLUMNS = *KINDS.values(), "rest"
# The other modules that the compiler makes of one function. (A type of such a name has the name of a method behind it.)
PARTS = re.compile(
    r"\.((?:Lts|Tie|Proof|Code|Met|Statement|Symbol|Key|Kinds|Carried|Layout|Reads|View|TheLink|Goals|Given|Invariants|Answers)\b(?!\.[a-z])|TheLinks\b)"
    r"(?:-(?!requires|ensures)([^.]*?)(?:-\d+)*)?(\..*)?$"
)
# Where a check writes nothing for so long it was another check that wrote the file before.
PAUSE = 600
MODULE = ".oantt"
# Words of inotify.
CLOSED, MOVED_IN, CREATED, IS_FOLDER = 0x8, 0x80, 0x100, 0x40000000


def crates_with_theirs():
    """Each crate of crates.txt, and what it names."""
    with open(os.path.join(ROOT, "crates.txt"), encoding="utf-8") as file:
        return {name: uses.split() for name, uses in re.findall(r"(?m)^(\w+)[^:\n]*:(.*)$", file.read())}


def below(crate, all_crates):
    """The crates that a crate stands on, whether it names them or not."""
    found, left = set(), [crate]
    while left:
        new = [it for it in all_crates[left.pop()] if it in all_crates and it not in found]
        found.update(new)
        left += new
    return sorted(found)


def words_of(crate):
    """The check's words, as `rt` writes them."""
    all_crates, folder = crates_with_theirs(), lambda it: os.path.join(ROOT, "crates", it)
    if crate not in all_crates:
        sys.exit(f"no crate {crate}")
    rlib = lambda it: os.path.join(folder(it), "out/rlib", f"{it}.rlib") if it in all_crates else f"{KIT}/rlibs/{it}.rlib"
    lacking = [it for it in below(crate, all_crates) if not os.path.isdir(rlib(it))]
    if lacking:
        sys.exit(f"no library in out/rlib of {' '.join(lacking)}")
    root = next(it for it in ("src/lib.rt", "src/main.rt") if os.path.isfile(os.path.join(folder(crate), it)))
    words = [f"{KIT}/bin/rattle", "check", "--crate-name", crate, root]
    for name in ("std", *all_crates[crate]):
        words += ["--extern", f"{name}={rlib(name)}"]
    for place in (f"{KIT}/rlibs", *(os.path.dirname(rlib(it)) for it in below(crate, all_crates))):
        words += ["-L", f"dependency={place}"]
    return words + ["--antt-project", f"{KIT}/rattle/logic/antt-project.json", "--logic-built", f"{KIT}/logic_built"]


class Written:
    """The files that appear in a folder and in those below it, each with the time by a clock of the caller's."""

    def __init__(self, folder):
        self.system, self.folders, self.first = ctypes.CDLL(None, use_errno=True), {}, {}
        self.queue = self.system.inotify_init()
        self.watch(folder)

    def watch(self, folder):
        self.folders[self.system.inotify_add_watch(self.queue, os.fsencode(folder), CREATED | CLOSED | MOVED_IN)] = folder
        for it in os.scandir(folder):
            if it.is_dir():
                self.watch(it.path)

    def look(self, clock):
        """Waits for a moment, and notes what was written in it."""
        if not select.select([self.queue], [], [], 0.2)[0]:
            return
        events, now, at = os.read(self.queue, 1 << 20), clock(), 0
        while at < len(events):
            watched, mask, _, length = struct.unpack_from("iIII", events, at)
            name = os.fsdecode(events[at + 16 : at + 16 + length].rstrip(b"\0"))
            at += 16 + length
            if mask & IS_FOLDER:
                self.watch(os.path.join(self.folders[watched], name))
            elif name.endswith(MODULE) and not mask & CREATED:
                self.first.setdefault(name[: -len(MODULE)], now)


def checker(pid):
    """The process that checks: one that was started, or one below it, where CHECK_WITH stands in front."""
    while True:
        with open(f"/proc/{pid}/cmdline", encoding="utf-8", errors="replace") as file:
            program = file.read().split("\0")[0]
        with open(f"/proc/{pid}/task/{pid}/children", encoding="utf-8") as file:
            children = file.read().split()
        if program == f"{KIT}/bin/rattle" or not children:
            return pid
        pid = int(children[0])


def processor_seconds(pid):
    # (the clock of a process, as clock_getcpuclockid gives it)
    return time.clock_gettime(~pid << 3 | 2)


def check(crate, paths, tests):
    """Runs the check: its status, its last line with the stages, and each module with the processor's time when it was written."""
    with tempfile.TemporaryDirectory() as room, tempfile.NamedTemporaryFile("r") as stages, tempfile.TemporaryFile("w+") as said:
        words = [*words_of(crate), "--jobs", "1", "--incremental", room, "--stage-times", stages.name]
        words += [it for path in paths for it in ("--only", path)] + ["--test"] * tests
        words = [*shlex.split(os.environ.get("CHECK_WITH", "")), *words]
        written, last = Written(room), 0.0
        with subprocess.Popen(words, cwd=os.path.join(ROOT, "crates", crate), stdout=said, stderr=said, stdin=subprocess.DEVNULL) as ran:

            def clock():
                nonlocal last
                try:
                    last = processor_seconds(checker(ran.pid))
                except OSError:
                    pass
                return last

            while ran.poll() is None:
                written.look(clock)
        written.look(clock)
        said.seek(0)
        lines, used, parts = said.readlines(), os.times(), [line.split()[1:3] for line in stages if line.startswith("stage")]
    if ran.returncode:
        print("".join(lines), end="")
    took = ", ".join(f"{name} {float(seconds):.1f}" for name, seconds in parts if float(seconds) >= 0.5)
    told = f"{used.children_user + used.children_system:.1f} of processor; by the clock {took}\n{lines[-1] if lines else ''}"
    return ran.returncode, told, written.first


def kept_in(folder):
    """Each module that a check left, with the time when it was written."""
    files = glob.glob(os.path.join(folder, "**/*" + MODULE), recursive=True)
    return {os.path.basename(it)[: -len(MODULE)]: os.stat(it).st_mtime_ns / 1e9 for it in files}


def steps(written):
    """Each module with the seconds from the one before it to it."""
    ended = sorted((now, name) for name, now in written.items())
    for (before, _), (now, name) in zip(ended, ended[1:]):
        if now - before < PAUSE:
            yield name, now - before


def function_of(module):
    """The function of a module, and the column that the module counts for."""
    short = re.sub(r"^Rattle-\w+?-(proofs|specs\.contracts|specs)\.", "", module).removesuffix(".decls")
    found = PARTS.search(short)
    if not found:
        return short, "rest"
    # (a cycle's functions have their names behind the part's)
    name = short[: found.start()] + (f" {found[2]}" if found[2] else "")
    return name, "rest" if found[3] else KINDS.get(found[1], "rest")


def read(path):
    with open(path, encoding="utf-8") as file:
        return {name: float(seconds) for seconds, name in (line.rstrip("\n").split(" ", 1) for line in file)}


def main():
    ask = argparse.ArgumentParser(usage=__doc__.split("usage: ")[1].split("\n\n")[0])
    ask.add_argument("crate", nargs="?")
    ask.add_argument("--of")
    ask.add_argument("--test", action="store_true")
    ask.add_argument("--only", action="append", default=[])
    ask.add_argument("--shown", type=int, default=30)
    ask.add_argument("--to")
    ask.add_argument("--against")
    ask.add_argument("--modules", action="store_true")
    told = ask.parse_args()
    if not told.crate and not told.of:
        ask.error("which crate?")
    status, said, written = (0, "", kept_in(told.of)) if told.of else check(told.crate, told.only, told.test)
    costs = collections.defaultdict(lambda: dict.fromkeys(COLUMNS, 0.0))
    for module, seconds in steps(written):
        name, column = function_of(module)
        costs[module if told.modules else name][column] += seconds
    sums = {name: sum(cost.values()) for name, cost in costs.items()}
    other = read(told.against) if told.against else {}
    print("     all   " + "".join(f"{it:>8}" for it in (["before"] if other else []) + list(COLUMNS)))
    for name, seconds in sorted(sums.items(), key=lambda it: -it[1])[: told.shown]:
        cells = ([other.get(name, 0)] if other else []) + list(costs[name].values())
        print(f"{seconds:8.2f}   {''.join(f'{it:8.2f}' for it in cells)}  {name}")
    whole = [sum(cost[it] for cost in costs.values()) for it in COLUMNS]
    print(f"{sum(whole):8.2f}   {''.join(f'{it:8.2f}' for it in ([sum(other.values())] if other else []) + whole)}  all\n{said}")
    if told.to:
        with open(told.to, "w", encoding="utf-8") as file:
            file.writelines(f"{seconds:.2f} {name}\n" for name, seconds in sums.items())
    return status


if __name__ == "__main__":
    sys.exit(main())
