"""What a terminal is told while a run reads its data file: rows that were worked by hand.

DATA is a pipe that gives its bytes in pieces, half a second apart, so that each piece but the first is told; or a file of a known
size, whose lines a pipe takes as slowly. A piece has so many bytes and cases by its own text.
"""
import os
import pty
import re
import subprocess
import tempfile
import threading
import time

HERE = os.path.dirname(os.path.realpath(__file__))
PAUSE = 0.5

# Four households: the second piece ends within a line of the third one, and the third line of the third piece goes back to ids
# that came before. The household of a line stands in the columns 2 to 4.
PIECES = b"P0011 035\nP0012 030\n", b"P0021 040\nP00", b"31 025\nP0032 022\nP0011 035\n"
TOLD = (b"\r33 bytes, 2 cases, N a second\x1b[K", b"\r60 bytes, 4 cases, N a second\x1b[K")
COUNTED = b"cases 4 lines 6 unseen 0\n"

# Each line of the file begins a case.
LINES = [b"P%03d1 035\n" % (number % 1000) for number in range(40_000)]
LEN = len(LINES[0])


def run(program, room, words, feed):
    """Runs csbatch with a terminal as standard error, while `feed` moves what goes through pipes: what it printed, and told."""
    terminal, own = pty.openpty()
    with subprocess.Popen([program, *words], cwd=room, stdout=subprocess.PIPE, stderr=own) as it:
        os.close(own)
        told, mover = [], threading.Thread(target=feed, daemon=True)
        mover.start()
        while True:
            try:
                piece = os.read(terminal, 65536)
            except OSError:
                break
            if not piece:
                break
            told.append(piece)
        printed = it.stdout.read()
    os.close(terminal)
    return printed, b"".join(told)


def rates_gone(told):
    """The text with no rates, which hang on the clock."""
    return re.sub(rb"\d+ a second", b"N a second", told)


def feed_pieces(path):
    with open(path, "wb", buffering=0) as pipe:
        for number, piece in enumerate(PIECES):
            time.sleep(PAUSE if number else 0)
            pipe.write(piece)


def take_slowly(path):
    with open(path, "rb", buffering=0) as pipe:
        time.sleep(PAUSE)
        while pipe.read(65536):
            time.sleep(PAUSE / 8)


def through_a_pipe(program, room, quiet):
    os.mkfifo(f"{room}/DATA")
    words = ["run", "SAMPLE.dcf", "IMAGE", "DATA", "OUT", "LIST", "FREQ", *(["--quiet"] if quiet else [])]
    printed, told = run(program, room, words, lambda: feed_pieces(f"{room}/DATA"))
    os.unlink(f"{room}/DATA")
    wanted = b"" if quiet else b"".join(TOLD) + b"\r\x1b[K"
    if printed != COUNTED:
        yield f"progress: it printed {printed!r}"
    if rates_gone(told) != wanted:
        yield f"progress: it told {told!r}, and not {wanted!r}"


def of_a_file(program, room):
    os.mkfifo(f"{room}/OUT2")
    with open(f"{room}/FILE", "wb") as file:
        file.write(b"".join(LINES))
    size = LEN * len(LINES)
    words = ["run", "SAMPLE.dcf", "IMAGE", "FILE", "OUT2", "LIST", "FREQ"]
    _, told = run(program, room, words, lambda: take_slowly(f"{room}/OUT2"))
    lines = re.findall(rb"\r(\d+) of (\d+) bytes, (\d+) %, (\d+) cases, \d+ a second\x1b\[K", told)
    if not lines:
        yield f"progress: of a file it told {told!r}"
    for numbers in lines:
        read, *others = map(int, numbers)
        if others != [size, read * 100 // size, read // LEN]:
            yield f"progress: of a file of {size} bytes it told {numbers!r}"


def differences(program):
    """What is not told as it should be."""
    with tempfile.TemporaryDirectory() as room:
        with open(f"{HERE}/../sample/SAMPLE.dcf", "rb") as there, open(f"{room}/SAMPLE.dcf", "wb") as here:
            here.write(there.read())
        open(f"{room}/EMPTY", "wb").close()
        subprocess.run([program, "compile", "SAMPLE.dcf", "EMPTY", "IMAGE"], cwd=room, stdout=subprocess.PIPE, check=True)
        yield from through_a_pipe(program, room, False)
        yield from through_a_pipe(program, room, True)
        yield from of_a_file(program, room)
