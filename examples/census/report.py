#!/usr/bin/env python3
"""Prints what an edit found: each message with its count, and each item with its imputed values.

usage: report.py LIST FREQ

LIST and FREQ are files of `csbatch run`. Counts of a message that stands at several places of the logic are added. Shares
are of the households.
"""
import collections
import sys


def lines(path):
    with open(path, encoding="utf-8") as file:
        return file.read().splitlines()


def messages(path):
    """The cases, and of each message its text and its count."""
    body = lines(path)
    cases, texts, counts = 0, {}, collections.Counter()
    for line in body[len(body) - body[::-1].index("SUMMARY") :]:
        if line.startswith("cases "):
            cases = int(line.split(" ")[1])
        elif line.startswith("message "):
            _, number, count, text = line.split(" ", 3)
            texts.setdefault(int(number), text)
            counts[int(number)] += int(count)
    return cases, texts, counts


def items(path):
    """Of each imputed item its count, and its values with theirs, most first."""
    found = {}
    for line in lines(path)[1:-1]:
        words = line.split(" ")
        if words[0] == "ITEM":
            values = []
            found[words[1]] = int(words[2]), values
        else:
            values.append((int(words[1]), words[0]))
    return found


def main(listing, frequencies):
    cases, texts, counts = messages(listing)
    print(f"{'message':>7} {'times':>7} {'share':>7}")
    for number in sorted(texts):
        print(f"{number:7} {counts[number]:7} {100 * counts[number] / max(cases, 1):6.2f}% {texts[number]}")
    print(f"\n{'item':16} {'imputed':>7}  most often")
    for item, (count, values) in items(frequencies).items():
        most = ", ".join(f"{value} ({times})" for times, value in sorted(values, reverse=True)[:4])
        print(f"{item:16} {count:7}  {most}")


if __name__ == "__main__":
    if len(sys.argv) != 3:
        sys.exit(__doc__)
    main(*sys.argv[1:])
