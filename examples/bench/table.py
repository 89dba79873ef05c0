#!/usr/bin/env python3
"""Prints what csbatch takes in one table, with the ratios to plain programs that do the same work, and the goals in another.

usage: table.py CSBATCH [CASES [ROUNDS]]     (200,000 cases and 9 rounds, if it isn't said; needs rustc)

What `steps.py` and `whole.py` beside it measure: nanoseconds a step, and of each thing that is done four times in a turn of
a loop; microseconds a case of whole runs over files of so many cases, user and system, the least of the rounds, in which all
programs are run one after the other; the median of the ratios in each round, which changes less than the least does where
the machine's speed changes; and the most memory that was resident. The goals are those of docs/SPEED.md.
"""
import os
import shutil
import statistics
import sys
import tempfile

import steps
import whole

# The steps of a case of the household sample.
STEPS = 660


def row(*cells):
    print("| " + " | ".join(cells) + " |")


def steps_table(program):
    """Prints the rows of steps: the nanoseconds of each."""
    took = {}
    for name, step, theirs, each, _ in steps.measured(program):
        took[name] = step
        if each is not None:
            row(f"{name}, ns", f"{each:.1f}", "", "", "")
        else:
            row(f"{name}, ns a step", f"{step:.2f}", f"{theirs:.2f}", f"{step / theirs:.2f}", "")
    return took


def runs_table(program, cases, rounds):
    """Prints the rows of whole runs: the microseconds a case of each, and the lines of a case of the sample."""
    lines, commands, decks = whole.prepared(program, cases)
    seen = {name: [] for name in commands}
    for _ in range(rounds):
        for to in decks:
            shutil.copy(whole.sample("decks"), to)
        for name, words in commands.items():
            seen[name].append(whole.timed(*words))
    least = {name: min(it[0] for it in used) / cases * 1e6 for name, used in seen.items()}
    memory = {name: f"{max(it[2] for it in used) / 1000:.1f} MB" for name, used in seen.items()}
    for name, used in seen.items():
        for plain in whole.PLAIN.get(name, []):
            ratio = statistics.median(ours[0] / theirs[0] for ours, theirs in zip(used, seen[plain]))
            row(f"{name}, beside: {plain}, us a case", f"{least[name]:.2f}", f"{least[plain]:.2f}", f"{ratio:.2f}", memory[name])
    few = f"{whole.FEW} cases"
    row(f"the sample, the first {few}", "", "", "", memory[few])
    return least, lines / cases


def goals_table(step, case, lines):
    """Prints the goals beside what was measured: nanoseconds a step, microseconds a case, and the lines of a case of the sample."""
    of_sample = (case["sample"] - case["empty logic"]) / STEPS * 1000
    edit = 900 * of_sample / 1000 + 4.5 * case["empty logic"] / lines
    row("", "the goal", "measured")
    row("---", "---", "---")
    row("a step of arithmetic, ns", "1.7", f"{step['numbers']:.2f}")
    row("a step with items; with arrays, ns", "2.4", f"{step[steps.ITEMS]:.2f}; {step['cells']:.2f}")
    row("a step of the household sample, ns", "2.4", f"{of_sample:.2f}")
    row("a household edit of 900 steps and 4.5 lines, cases a second, reckoned", "350,000", f"{1e6 / edit:,.0f}")
    empty = f"{1e6 / (1.5 * case['short lines']):,.0f}; {1e6 / case['empty logic']:,.0f}"
    row("an empty program, cases a second: 4.5 lines of ten columns, reckoned; the sample's lines", "5,000,000", empty)
    row("a copy of 3,000,000 short lines, seconds", "0.13", f"{case['short lines']:.2f}")
    row("the time of a line beyond ASCII, to one of ASCII", "1.5", f"{case['beyond ASCII'] / case['short lines']:.2f}")


def main(program, cases=200_000, rounds=9):
    row("", "csbatch", "plain Rust", "ratio", "memory")
    row("---", "---", "---", "---", "---")
    step = steps_table(program)
    case, lines = runs_table(program, cases, rounds)
    print()
    goals_table(step, case, lines)


if __name__ == "__main__":
    if len(sys.argv) not in (2, 3, 4):
        sys.exit(__doc__)
    given = os.path.abspath(sys.argv[1])
    with tempfile.TemporaryDirectory(prefix="csbatch-table-") as room:
        os.chdir(room)
        main(given, *map(int, sys.argv[2:]))
