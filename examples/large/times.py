#!/usr/bin/env python3
"""Times and memory of a large census in one run, and in four parts side by side.

usage: examples/large/times.py CSBATCH [HOUSEHOLDS [DRAWN]]     (1,000,000, of which 20,000 are drawn, if it isn't said)

The generator of examples/census draws so many households, a fourth of them for each of four provinces; each province is put
down as often as it takes to have all. So equal households come again, in other places of the file. It works in a folder of
its own, on one disk, and prints a row of docs/SPEED.md for each way: seconds of processor time, seconds of the clock, and
the most memory that a process had. The four parts together have to be the sum of the parts.
"""
import os
import subprocess
import sys
import tempfile
import time

HERE = os.path.dirname(os.path.realpath(__file__))
CENSUS = os.path.join(os.path.dirname(HERE), "census")


def spent(process, own):
    """The processor time of a process that has not been waited for, and its most memory in kilobytes, or what it had before."""
    try:
        with open(f"/proc/{process.pid}/status", encoding="utf-8") as it:
            found = next((int(line.split()[1]) for line in it if line.startswith("VmHWM:")), 0)
        # (before it is another program it has the memory of this one)
        return own if os.path.samefile(f"/proc/{process.pid}/exe", sys.executable) else max(own, found)
    except OSError:
        return own


def timed(commands):
    """Runs commands side by side: processor time, time of the clock, and kilobytes of the largest."""
    began, used, most = time.time(), 0.0, 0
    running = [subprocess.Popen(command, stdout=subprocess.DEVNULL) for command in commands]
    while running:
        time.sleep(0.02)
        for process in list(running):
            most = spent(process, most)
            ended, status, resources = os.wait4(process.pid, os.WNOHANG)
            if ended:
                process.returncode = status
                if status:
                    sys.exit(f"failed: {process.args}")
                running.remove(process)
                used += resources.ru_utime + resources.ru_stime
    return used, time.time() - began, most


def drawn(households, count):
    """Writes the four parts, and the whole: each province of the drawn households so often. Gives the lines of the whole."""
    subprocess.run([os.path.join(CENSUS, "generate.py"), str(count), "."], check=True)
    subprocess.run([os.path.join(HERE, "split"), "2", "2", "CENSUS.dat", "drawn"], check=True, stdout=subprocess.DEVNULL)
    os.mkdir("parts")
    lines = 0
    with open("WHOLE.dat", "wb") as whole:
        for name in sorted(os.listdir("drawn")):
            with open(f"drawn/{name}", "rb") as file:
                text = file.read()
            with open(f"parts/{name}", "wb") as part:
                for _ in range(households // count):
                    part.write(text)
                    whole.write(text)
                    lines += text.count(b"\n")
    return lines


def main(program, households=1_000_000, count=20_000):
    census = os.path.join(CENSUS, "CENSUS")
    image = ["--messages", f"{census}.mgf", "--order", f"{census}.order"]
    subprocess.run([program, "compile", f"{census}.dcf", f"{census}.apc", "IMAGE", *image], check=True, stdout=subprocess.DEVNULL)
    lines = drawn(households, count)
    size = os.path.getsize("WHOLE.dat")
    print(f"{households // count * count:,} households, {lines:,} lines, {size / 1e6:.0f} MB; {os.cpu_count()} processors, load {os.getloadavg()[0]:.0f}")

    def run(data, base):
        return [program, "run", f"{census}.dcf", "IMAGE", data, f"{base}.out", f"{base}.lst", f"{base}.frq", "--decks", f"{base}.decks"]

    names = sorted(it.removesuffix(".dat") for it in os.listdir("parts"))
    ways = {"one run": [run("WHOLE.dat", "one")], "four parts side by side": [run(f"parts/{it}.dat", f"parts/{it}") for it in names]}
    print("| | processor, s | clock, s | memory of a process, MB |\n|---|---|---|---|")
    for way, commands in ways.items():
        used, clock, most = timed(commands)
        print(f"| {way} | {used:.1f} | {clock:.1f} | {most / 1000:.1f} |", flush=True)
    parts = [f"parts/{it}" for it in names]
    for word, end in (("listing", "lst"), ("frequencies", "frq")):
        subprocess.run([os.path.join(HERE, f"merge-{word}"), f"ALL.{end}", *(f"{it}.{end}" for it in parts)], check=True)
    subprocess.run([os.path.join(HERE, "check.py"), "ALL.lst", "ALL.frq", *(f"{it}.dat" for it in parts)], check=True)


if __name__ == "__main__":
    if len(sys.argv) not in (2, 3, 4):
        sys.exit(__doc__)
    csbatch = os.path.abspath(sys.argv[1])
    with tempfile.TemporaryDirectory(dir=os.environ.get("TMPDIR", "/tmp")) as folder:
        os.chdir(folder)
        main(csbatch, *map(int, sys.argv[2:]))
