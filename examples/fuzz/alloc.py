#!/usr/bin/env python3
"""Refuses each growth of memory of csbatch in turn, and sees that the answer is 90 or the one without a refusal.

usage: examples/fuzz/alloc.py PROGRAM [--only COMMAND] [--case NAME] [--cc CC] [--timeout N]

PROGRAM is a built csbatch. A small library (refuse.c, made by the C compiler) is loaded before it. README.md beside this
file says what is looked at.
"""
import argparse
import os
import subprocess
import sys
import tempfile

import seeds
from calls import READ, WRITTEN, call, commands_of

HERE = os.path.dirname(os.path.realpath(__file__))
# Nothing that is small grows more often: a program that never stops growing is told.
MOST = 1_000_000


class Stop(Exception):
    """What is wrong, and with which growth."""


class Refusals:
    """Calls of a program in which growths are refused."""

    def __init__(self, args, folder):
        self.program, self.seconds = args.program, args.timeout
        self.folder = os.path.join(folder, "case")
        self.library = os.path.join(folder, "refuse.so")
        made = [args.cc, "-O1", "-shared", "-fPIC", "-o", self.library, os.path.join(HERE, "refuse.c")]
        subprocess.run(made, check=True)

    def answer(self, command, case):
        return call(self.program, command, case, self.folder, self.seconds, None)

    def refused(self, command, case, growth, goes_on):
        """What is answered where this growth is refused, and with `goes_on` all after it; and how many were refused."""
        told, tells = os.pipe()
        env = {"LD_PRELOAD": self.library, "REFUSE": str(growth), "REFUSE_TELL": str(tells)}
        if goes_on:
            env["REFUSE_ON"] = "1"
        try:
            answer = call(self.program, command, case, self.folder, self.seconds, None, env, (tells,))
        finally:
            os.close(tells)
            with os.fdopen(told, "rb") as file:
                count = len(file.read())
        return answer, count


def wrong_answer(own, answer, case):
    """Why an answer after a refused growth is neither 90 nor the one without, or None."""
    if answer.status is None:
        return "it hangs"
    if answer.told() == own.told() and answer.files == own.files:
        return None
    if (answer.status, answer.out, answer.err) != (3, b"", b"refused 90\n"):
        return f"status {answer.status}, {answer.err!r}"
    return wrong_fronts(own, answer, case)


def wrong_fronts(own, answer, case):
    """Why a file after 90 isn't as it was, or a front of what is written without a refusal, or None."""
    for name in READ[answer.command]:
        kept = [case[name]] + ([own.files[name]] if name in own.files else [])
        if answer.files.get(name) not in kept:
            return f"{name} was changed"
    for name in WRITTEN[answer.command]:
        if not own.files.get(name, b"").startswith(answer.files.get(name, b"")):
            return f"{name} is no front of its text"
    return None


def refuse_each(refusals, command, case, goes_on):
    """Refuses one growth after the other until there are no more, and counts which answers came."""
    own = refusals.answer(command, case)
    told = {"90": 0, "the answer without": 0}
    for growth in range(1, MOST):
        answer, count = refusals.refused(command, case, growth, goes_on)
        why = wrong_answer(own, answer, case)
        if count == 0 and (why or answer.told() != own.told()):
            raise Stop(f"{command}: without a refused growth it answers something else: {why}")
        if count == 0:
            return growth - 1, told
        if why:
            raise Stop(f"{command}: growth {growth}{' and all after it' if goes_on else ''} refused: {why}")
        told["90" if answer.number == 90 else "the answer without"] += 1
    raise Stop(f"{command}: it grows without end")


def small_cases(refusals, commands):
    """The cases of which each command's growths are refused: they are small, and some are refused by another number."""
    found = {name: case for name, case in seeds.cases().items() if not name.endswith(("hello-v1.img",))}
    if "compile" in commands:
        found["household"], _ = seeds.compiled(refusals.program, refusals.folder, refusals.seconds)
    deck = found["deck"]
    found["faulty data"] = dict(deck, DATA=deck["DATA"] + b"\xff\n")
    found["faulty decks"] = dict(deck, DECKS=deck["DECKS"][:40])
    found["faulty image"] = dict(deck, IMAGE=deck["IMAGE"][:-1])
    found["faulty dictionary"] = dict(deck, DICT=deck["DICT"] + b"[Level]\nName=B\n")
    return found


def words():
    parser = argparse.ArgumentParser(description="Refuses each growth of memory of csbatch in turn.")
    parser.add_argument("program")
    parser.add_argument("--only", choices=list(WRITTEN), help="one command")
    parser.add_argument("--case", help="one case")
    parser.add_argument("--cc", default="cc", help="the C compiler")
    parser.add_argument("--timeout", type=float, default=20, help="seconds after which a call hangs")
    return parser.parse_args()


def refuse_all(refusals, args):
    """Goes through commands and cases, prints a line for each, and tells how many growths were refused."""
    commands = commands_of(args.program, args.timeout)
    for command in WRITTEN:
        if command not in commands:
            print(f"{command}: passed over, since the program has no such command")
    total, done = 0, set()
    for name, case in small_cases(refusals, commands).items():
        for command in commands:
            read = (command, *(case[file] for file in READ[command]))
            if args.only not in (None, command) or args.case not in (None, name) or read in done:
                continue
            done.add(read)
            for goes_on in (False, True):
                growths, told = refuse_each(refusals, command, case, goes_on)
                total += growths
                how = "with all after it" if goes_on else "alone"
                counts = ", ".join(f"{count} times {answer}" for answer, count in told.items() if count)
                print(f"{command}, {name}: {growths} growths, each refused {how}: {counts}", flush=True)
    print(f"{total} refusals")


def main():
    args = words()
    with tempfile.TemporaryDirectory() as folder:
        try:
            refuse_all(Refusals(args, folder), args)
        except Stop as stop:
            print(f"STOP {stop}")
            return 1
    return 0


if __name__ == "__main__":
    sys.exit(main())
