#!/usr/bin/env python3
"""Feeds random and mutated bytes to the readers of csbatch, and stops at the first answer that is none.

usage: examples/fuzz/fuzz.py PROGRAM [--seconds N] [--seed S] [--first N] [--cases N] [--only READER] [--sweep]
                             [--timeout N] [--keep FOLDER]

PROGRAM is a built csbatch. README.md beside this file says what is looked at, and how a stop is repeated.
"""
import argparse
import contextlib
import itertools
import os
import random
import re
import sys
import tempfile
import time
from collections import Counter

import mutate
import seeds
from calls import ANSWERS, DICTIONARY, IMAGE, READ, WORDS, call, commands_of, wrong_ending, wrong_files, wrong_words

READERS = ["DICT", "IMAGE", "DATA", "DECKS", "LOGIC", "MESSAGES", "ORDER"]
OLD = b"what was there before\n"
# A run that may take more steps than these may also take longer than a call has.
LONG = 10_000_000
BOUNDS = re.compile(rb"(?m)^(?:case|run) (\d+) steps$")


class Stop(Exception):
    """What is wrong, and with which call."""


class Long(Exception):
    """A run that takes its time, as its program may."""


class Fuzz:
    def __init__(self, args, folder):
        self.program, self.seconds, self.folder = args.program, args.timeout, folder
        self.commands = commands_of(args.program, args.timeout)
        self.numbers = {int(n) for n in re.findall(r"(?m)^\| (\d+) \|", seeds.example("docs", "FAULTS.md").decode())}
        self.counts, self.cases = Counter(), 0
        self.seeds = seeds.cases()
        self.donors = seeds.donors()
        self.plain = {case["IMAGE"] for name, case in self.seeds.items() if name.startswith("plain")}

    def readers(self):
        return [name for name in READERS if any(name in READ[command] for command in self.commands)]

    def reading(self, command, case):
        """Calls a command twice, the second time over old outputs, and gives what both answered."""
        first = call(self.program, command, case, os.path.join(self.folder, "first"), self.seconds, None)
        if first.status is None and self.may_be_long(command, case):
            self.counts[command, "long"] += 1
            raise Long
        second = call(self.program, command, case, os.path.join(self.folder, "second"), self.seconds, OLD)
        self.counts[command, first.outcome()] += 2
        for answer, before in ((first, None), (second, OLD)):
            why = wrong_ending(answer, case, self.numbers) or wrong_files(answer, case, before)
            if why:
                raise Stop(f"{command}: {why}")
        if first.told() != second.told():
            raise Stop(f"{command}: a second reading of the same bytes answers something else")
        made = {name: data for name, data in second.files.items() if name in first.files or data != OLD}
        if first.files != made:
            raise Stop(f"{command}: a second reading of the same bytes writes something else")
        return first

    def may_be_long(self, command, case):
        """Whether `verify` tells of so many steps that a run may last."""
        if command not in ("try", "run") or "verify" not in self.commands:
            return False
        told = case if command == "run" else dict(case, DICT=seeds.EMPTY)
        return any(int(steps) > LONG for steps in BOUNDS.findall(self.reading("verify", told).out))

    def look(self, case, reader):
        """Calls each command that reads this file, and holds what they answer against each other."""
        self.cases += 1
        given = {name: self.reading(name, case) for name in self.commands if reader in READ[name]}
        verified, ran, tried, made = (given.get(name) for name in ("verify", "run", "try", "compile"))
        if verified and ran:
            self.agree(verified, ran)
        if ran and case["IMAGE"] in self.plain:
            self.same_data(case, ran)
        if tried:
            self.agree_on_try(tried, case)
        if made and made.status == 0 and "verify" in self.commands:
            again = dict(case, IMAGE=made.files["MADE"])
            if self.reading("verify", again).status != 0:
                raise Stop("verify: an image that compile made is refused")
        if ran and ran.status == 0:
            again = dict(case, DECKS=ran.files["DECKS"])
            if self.reading("run", again).number in range(50, 54):
                raise Stop("run: a deck file that run wrote is refused")

    def agree(self, verified, ran):
        """`run` reads dictionary and image as `verify` does."""
        early = ran.number in DICTIONARY or ran.number in IMAGE
        if (verified.status != 0 or early) and verified.err != ran.err:
            raise Stop("run: it says of dictionary and image what verify doesn't")

    def same_data(self, case, ran):
        """An image that changes nothing: OUT is DATA, or a front of it."""
        out = ran.files.get("OUT")
        if ran.status == 0 and out != case["DATA"] or out is not None and not case["DATA"].startswith(out):
            raise Stop("run: OUT is not DATA, and nothing was edited")

    def agree_on_try(self, tried, case):
        """`try` reads an image as `verify` does with an empty dictionary, and ends within the steps that it tells."""
        if "verify" not in self.commands:
            return
        verified = self.reading("verify", dict(case, DICT=seeds.EMPTY))
        whole = "run" in self.commands
        if (whole or verified.number in range(60, 65) or tried.number in range(60, 65)) and tried.err != verified.err:
            raise Stop("try: it says of the image what verify doesn't")
        if tried.status == 0 and verified.status == 0:
            steps, bound = (int(ANSWERS[a.command].match(a.out).groups()[-1]) for a in (tried, verified))
            if steps > bound:
                raise Stop(f"try: {steps} steps, and the bound is {bound}")

    def begin(self):
        """Sees that words without a command or a file end as they have to, and that each seed is taken as it is, by all
        commands that stand."""
        why = wrong_words(self.program, self.seconds)
        if why:
            raise Stop(why)
        if "compile" in self.commands:
            case, answer = seeds.compiled(self.program, os.path.join(self.folder, "first"), self.seconds)
            if answer.status != 0:
                raise Stop(f"compile: examples/household: {answer.outcome()}")
            self.seeds["household"] = case
        for name, case in self.seeds.items():
            for command in ("verify", "run"):
                if command in self.commands and self.reading(command, case).status != 0:
                    raise Stop(f"{command}: the seed {name} is refused")

    def seed_of(self, random_, reader):
        """A case and what is mutated of it. Without a compiler the household's dictionary is read with no image."""
        names = [name for name in self.seeds if self.seeds[name][reader]]
        case = dict(self.seeds[random_.choice(names)]) if names else seeds.household()
        if random_.random() < 0.2:
            case[reader] = random_.choice(self.donors[reader])
        return case

    def chance(self, seed, number, only):
        """The case of this number: the same for the same seed, whatever came before it."""
        random_ = random.Random(f"{seed}/{number}")
        readers = self.readers()
        reader = only or readers[random_.randrange(len(readers))]
        case = self.seed_of(random_, reader)
        case[reader] = mutate.mutated(random_, case[reader], random_.choice(self.donors[reader]))
        return case, reader

    def sweep(self, only, values):
        """Each seed of each reader, cut at each length and with each byte replaced."""
        for reader in [only] if only else self.readers():
            for data in {case[reader]: None for case in self.seeds.values() if case[reader]}:
                case = next(case for case in self.seeds.values() if case[reader] == data)
                for other in mutate.each(data, values):
                    yield dict(case, **{reader: other}), reader


def numbered(fuzz, args):
    """The cases that are asked for, each with its number."""
    if args.sweep:
        end = None if args.cases is None else args.first + args.cases
        yield from itertools.islice(enumerate(fuzz.sweep(args.only, 128)), args.first, end)
        return
    number = args.first
    while args.cases is None or number < args.first + args.cases:
        yield number, fuzz.chance(args.seed, number, args.only)
        number += 1


def words():
    parser = argparse.ArgumentParser(description="Feeds random and mutated bytes to the readers of csbatch.")
    parser.add_argument("program")
    parser.add_argument("--seconds", type=float, default=60, help="how long, in all")
    parser.add_argument("--seed", default="1")
    parser.add_argument("--first", type=int, default=0, help="the number of the first case")
    parser.add_argument("--cases", type=int, help="how many cases; without it, as long as there is time")
    parser.add_argument("--only", choices=READERS, help="mutate this file alone")
    parser.add_argument("--sweep", action="store_true", help="each cut and each replaced byte, in the place of chance")
    parser.add_argument("--timeout", type=float, default=20, help="seconds after which a call hangs")
    parser.add_argument("--keep", default="fuzz-stop", help="where the files of a stop are put")
    return parser.parse_args()


def keep(folder, case):
    os.makedirs(folder, exist_ok=True)
    for name, data in case.items():
        with open(os.path.join(folder, name), "wb") as file:
            file.write(data)


def tell(fuzz, since):
    calls = sum(fuzz.counts.values())
    print(f"{fuzz.cases} cases, {calls} calls in {time.monotonic() - since:.0f} s")
    for (command, outcome), count in sorted(fuzz.counts.items()):
        print(f"  {command} {outcome}: {count}")


def run(fuzz, args, since):
    """Goes on until time or cases are up; then 0. At a stop 1."""
    number, case = "seeds", {}
    try:
        fuzz.begin()
        for number, (case, reader) in numbered(fuzz, args):
            if time.monotonic() - since > args.seconds:
                break
            with contextlib.suppress(Long):
                fuzz.look(case, reader)
    except Stop as stop:
        print(f"STOP at case {number} of seed {args.seed}: {stop}")
        if case:
            keep(args.keep, case)
            print(f"its files are in {args.keep}")
        return 1
    return 0


def passed_over(fuzz):
    """A line for each command that the program doesn't have, and for each file that nothing reads therefore."""
    for name in WORDS:
        if name not in fuzz.commands:
            yield f"passed over: {name}, since the program has no such command"
    for name in READERS:
        if name not in fuzz.readers():
            yield f"passed over: {name}, since no command reads it"


def main():
    args = words()
    since = time.monotonic()
    with tempfile.TemporaryDirectory() as folder:
        fuzz = Fuzz(args, folder)
        if not fuzz.commands:
            print(f"{args.program} tells no command")
            return 2
        print(f"commands: {' '.join(fuzz.commands)}; readers: {' '.join(fuzz.readers())}; seed {args.seed}")
        for line in passed_over(fuzz):
            print(line)
        if args.only and args.only not in fuzz.readers():
            return 0
        status = run(fuzz, args, since)
    tell(fuzz, since)
    return status


if __name__ == "__main__":
    sys.exit(main())
