#!/usr/bin/env python3
"""Compares listings and frequencies of parts with what merge-listing and merge-frequencies made of them.

usage: check.py LISTING FREQUENCIES PART.dat ..     (PART.lst and PART.frq stand beside each; in the order of the merge)

Each difference is a line, and then the status is 1.
"""
import collections
import sys


def lines(path):
    with open(path, encoding="utf-8") as file:
        return file.read().splitlines()


def listing(path):
    """The lines between the first and SUMMARY, and those between SUMMARY and END."""
    text = lines(path)
    at = text.index("SUMMARY")
    return text[1:at], text[at + 1 : -1]


def counted(path):
    """How often each item had each value, and each item at all."""
    found, item = collections.Counter(), None
    for line in lines(path)[1:-1]:
        words = line.split(" ")
        if words[0] == "ITEM":
            item = words[1]
            found[item, None] += int(words[2])
        else:
            found[item, words[0]] += int(words[1])
    return found


def sums(parts):
    """The body, the summary and the frequencies that the parts have together."""
    body, summary, frequencies, before = [], None, collections.Counter(), 0
    for part in parts:
        own, end = listing(f"{part}.lst")
        for line in own:
            words = line.split(" ")
            body.append(f"U {int(words[1]) + before} {words[2]}" if words[0] == "U" else line)
        before += len(lines(f"{part}.dat"))
        at = [2 if line.startswith("message ") else 1 for line in end]
        split = [line.split(" ", k + 1) for line, k in zip(end, at)]
        summary = summary or [[*words[:k], 0, *words[k + 1 :]] for words, k in zip(split, at)]
        for sum_, words, k in zip(summary, split, at, strict=True):
            sum_[k] += int(words[k])
        frequencies += counted(f"{part}.frq")
    return body, [" ".join(map(str, words)) for words in summary], frequencies


def main(merged_listing, merged_frequencies, *parts):
    body, summary, frequencies = sums([part.removesuffix(".dat") for part in parts])
    found = listing(merged_listing)
    wrong = [name for name, own, sum_ in (("body", found[0], body), ("summary", found[1], summary)) if own != sum_]
    wrong += ["frequencies"] if counted(merged_frequencies) != frequencies else []
    for name in wrong:
        print(f"{name}: not the sum of the parts")
    return 1 if wrong else 0


if __name__ == "__main__":
    sys.exit(main(*sys.argv[1:]) if len(sys.argv) > 3 else __doc__)
