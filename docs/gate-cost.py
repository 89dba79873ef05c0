#!/usr/bin/env python3
"""Keeps what the gate costs: processor seconds by crate, for its proof, its tests and its edits, and how long its proof took by the clock.

usage: docs/gate-cost.py ./gate            runs the gate, and puts what it took into docs/gate-cost.csv and the table of docs/GATE.md
       docs/gate-cost.py --to FILE WORD..  runs any command, and puts what its checks took into FILE
       docs/gate-cost.py --table           puts docs/gate-cost.csv into docs/GATE.md as a table
       docs/gate-cost.py --current         sees that this table is the one that --table would put there

A crate that the command took from what an earlier run on this machine proved has no check. Its row stays the one of that run.

Beforehand it times one program that is always the same, and before and behind the command a proof that is always the same
(`rt selftest`), so that the tables of two machines, and of two hours of one, can be compared. While the command runs, it looks at
the checks below it twice a second, so each one is short by half a second at most. The table is printed too, to standard error.
Where `./gate` fails nothing is written, and FILE is written all the same. The status is the command's.
"""
import collections
import csv
import os
import re
import resource
import subprocess
import sys
import tempfile
import time

ROOT = os.path.dirname(os.path.dirname(os.path.realpath(__file__)))
FILE = os.path.join(ROOT, "docs/gate-cost.csv")
PAGE = os.path.join(ROOT, "docs/GATE.md")
MARKS = "<!-- docs/gate-cost.py writes this table -->\n", "<!-- the table ends -->\n"
KINDS = "proof", "tests", "edits", "all"
CLOCK = "clock"
SHOWN = 5
TICK = os.sysconf("SC_CLK_TCK")


def fixed_program():
    """The processor seconds of a program that is always the same: sums, products and a table of 4,096 places."""
    began, table, number = time.process_time(), {}, 1
    for turn in range(4_000_000):
        number = (number * 1_103_515_245 + 12_345) % 2_147_483_648
        table[number >> 19] = turn
    return time.process_time() - began


def fixed_proof():
    """The processor seconds of a proof that is always the same, the kit's own example; nothing where it fails."""
    began = resource.getrusage(resource.RUSAGE_CHILDREN)
    with tempfile.TemporaryDirectory() as room:
        failed = subprocess.run(["rt", "selftest"], cwd=room, stdout=subprocess.DEVNULL, stderr=subprocess.DEVNULL).returncode
    ended = resource.getrusage(resource.RUSAGE_CHILDREN)
    return "" if failed else f"{ended.ru_utime + ended.ru_stime - began.ru_utime - began.ru_stime:.0f}"


def said(*words):
    try:
        return subprocess.run(words, cwd=ROOT, capture_output=True, text=True).stdout.strip()
    except OSError:
        return ""


def machine():
    """What the table is of: the machine with its speed, the kit, the day and the text."""
    with open("/proc/cpuinfo", encoding="utf-8") as file:
        model = re.search(r"(?m)^model name\s*: (.*)$", file.read())
    return {
        "machine": model[1] if model else os.uname().machine,
        "processors": len(os.sched_getaffinity(0)),
        "speed": f"{min(fixed_program() for _ in range(3)):.2f}",
        "kit": said("rt", "version"),
        "date": time.strftime("%Y-%m-%d"),
        "commit": said("git", "describe", "--always", "--dirty"),
    }


def processes():
    """Each process: its id, its parent, when it began, its name and its processor seconds."""
    for pid in filter(str.isdigit, os.listdir("/proc")):
        try:
            with open(f"/proc/{pid}/stat", encoding="utf-8", errors="replace") as file:
                name, _, rest = file.read().partition(" (")[2].rpartition(") ")
        except OSError:
            continue
        words = rest.split()
        yield int(pid), int(words[1]), words[19], name, (int(words[11]) + int(words[12])) / TICK


def check_of(pid):
    """The crate and the kind of the check that a process is, or nothing."""
    try:
        with open(f"/proc/{pid}/cmdline", encoding="utf-8", errors="replace") as file:
            words = file.read().split("\0")
        where = os.readlink(f"/proc/{pid}/cwd")
    except OSError:
        return None
    if not words[0].endswith("/rattle"):
        return None
    crate = words[words.index("--crate-name") + 1] if "--crate-name" in words else os.path.basename(where)
    return crate, "edits" if "/rt-edit-" in where else "tests" if "--test" in words else "proof"


def look(root, checks, seconds, clock):
    """Notes the processor seconds of each check below a process, and when a proof was there first and last."""
    there = {pid: (parent, began, name, used) for pid, parent, began, name, used in processes()}
    below = {root}
    for pid in there:
        path = []
        while pid in there and pid not in below:
            path.append(pid)
            pid = there[pid][0]
        below.update(path if pid in below else [])
    for pid in below & there.keys():
        _, began, name, used = there[pid]
        # (the name changes where a process becomes another program, and its words are there a moment later)
        key = pid, began, name
        if not checks.get(key):
            checks[key] = check_of(pid) if name == "rattle" else None
        if checks[key]:
            seconds[key] = used
            now = time.monotonic()
            clock[checks[key]] = clock.get(checks[key], (now, now))[0], now


def run(words):
    """Runs a command: its status, and the costs of its checks by crate."""
    checks, seconds, clock = {}, {}, {}
    with subprocess.Popen(words) as it:
        while it.poll() is None:
            look(it.pid, checks, seconds, clock)
            try:
                it.wait(0.5)
            except subprocess.TimeoutExpired:
                pass
    costs = collections.defaultdict(lambda: dict.fromkeys(KINDS, 0))
    for key, used in seconds.items():
        crate, kind = checks[key]
        costs[crate][kind] += used
    for crate, cost in costs.items():
        cost.update({kind: round(used) for kind, used in cost.items()})
        cost["all"] = sum(cost.values())
        first, last = clock.get((crate, "proof"), (0, 0))
        cost[CLOCK] = round(last - first)
    return it.returncode, costs


def with_kept(head, costs, path):
    """The costs of the crates, with the rows of an earlier run on such a machine for those of which nothing was checked."""
    there, rows = crates_with_theirs(), {}
    if os.path.exists(path):
        before, rows = read(path)
        if before["machine"] != head["machine"] or before["kit"].split()[1:] != head["kit"].split()[1:]:
            rows = {}
    return {crate: cost for crate, cost in {**rows, **costs}.items() if crate in there}


def dearest_first(costs):
    return sorted(costs.items(), key=lambda it: (-it[1]["all"], it[0]))


def write(path, head, costs):
    with open(path, "w", encoding="utf-8", newline="") as file:
        rows = csv.writer(file, lineterminator="\n")
        rows.writerows(head.items())
        rows.writerow(["crate", *KINDS, CLOCK])
        rows.writerows([crate, *(cost[it] for it in (*KINDS, CLOCK))] for crate, cost in dearest_first(costs))


def read(path):
    with open(path, encoding="utf-8", newline="") as file:
        rows = list(csv.reader(file))
    start = next(at for at, row in enumerate(rows) if row[0] == "crate")
    costs = {crate: dict(zip((*KINDS, CLOCK), map(int, numbers))) for crate, *numbers in rows[start + 1 :]}
    return dict(rows[:start]), costs


def crates_with_theirs():
    """Each crate of crates.txt, and what it names."""
    with open(os.path.join(ROOT, "crates.txt"), encoding="utf-8") as file:
        return {name: uses.split() for name, uses in re.findall(r"(?m)^(\w+)[^:\n]*:(.*)$", file.read())}


def longest_chain(costs):
    """The crates that wait for one another the longest, by the clock of their proofs."""
    lines, chains = crates_with_theirs(), {}

    def chain(name):
        if name not in chains:
            seconds, path = max([chain(it) for it in lines[name] if it in lines], default=(0, []))
            chains[name] = seconds + costs.get(name, {}).get(CLOCK, 0), [*path, name]
        return chains[name]

    return max(chain(name) for name in lines)[1]


def table(head, costs):
    """The lines of the table: the dearest crates, the others together, and the sums; then what they are of."""
    ordered = dearest_first(costs)
    row = lambda name, cells: f"| {name} | {' | '.join(str(it) for it in cells)} |\n"
    yield row("processor seconds", KINDS)
    yield "|---" * (len(KINDS) + 1) + "|\n"
    for crate, cost in ordered[:SHOWN]:
        yield row(crate, (cost[kind] for kind in KINDS))
    if ordered[SHOWN:]:
        yield row(f"{len(ordered) - SHOWN} others", (sum(cost[kind] for _, cost in ordered[SHOWN:]) for kind in KINDS))
    sums = [sum(cost[kind] for cost in costs.values()) for kind in KINDS]
    yield row("**sum, minutes**", (f"**{it / 60:.0f}**" for it in sums))
    speed = f"{head['speed']} seconds for the fixed program" if head["speed"] else "speed not taken"
    if head.get("proof"):
        speed += f", {' and '.join(head['proof'].split())} for the fixed proof before and behind"
    yield f"\n{head['machine']}, {head['processors']} processors, {speed}; {head['date']}, commit {head['commit']}, {head['kit']}. "
    chain = head["chain"].split()
    minutes = [sum(costs.get(name, {}).get(it, 0) for name in chain) / 60 for it in (CLOCK, "proof")]
    # (rows of a run before the clock was taken have none)
    took = f"{minutes[0]:.0f} minutes of the clock ({minutes[1]:.0f} of processor)" if minutes[0] else f"{minutes[1]:.0f} minutes of processor"
    yield f"The longest chain of proofs takes {took}: {', '.join(chain)}.\n"


def page_with_table():
    with open(PAGE, encoding="utf-8") as file:
        before, _, rest = file.read().partition(MARKS[0])
    return before + MARKS[0] + "".join(table(*read(FILE))) + MARKS[1] + rest.partition(MARKS[1])[2]


def put_table():
    text = page_with_table()
    with open(PAGE, "w", encoding="utf-8") as file:
        file.write(text)


def main(words):
    if words == ["--table"]:
        put_table()
        return 0
    if words == ["--current"]:
        with open(PAGE, encoding="utf-8") as file:
            return int(file.read() != page_with_table())
    to = FILE
    if words[:1] == ["--to"]:
        to, words = (words + [""])[1], words[2:]
    if not words or words[0].startswith("-"):
        sys.exit(__doc__)
    head = machine()
    head["proof"] = fixed_proof()
    status, costs = run(words)
    head["proof"] += f" {fixed_proof()}"
    costs = with_kept(head, costs, to)
    head["chain"] = " ".join(longest_chain(costs))
    print("".join(table(head, costs)), end="", file=sys.stderr)
    if costs and (to != FILE or not status):
        write(to, head, costs)
        if to == FILE:
            put_table()
    return status


if __name__ == "__main__":
    sys.exit(main(sys.argv[1:]))
