"""A call of the program in a folder of its own, and what its answer has to keep to."""
import os
import re
import shutil
import subprocess

# The files of a case and the words of a command. OUT, LIST, FREQ and MADE are written.
WORDS = {
    "verify": ["DICT", "IMAGE"],
    "try": ["IMAGE"],
    "run": ["DICT", "IMAGE", "DATA", "OUT", "LIST", "FREQ", "--decks", "DECKS"],
    "compile": ["DICT", "LOGIC", "MADE", "--messages", "MESSAGES", "--order", "ORDER"],
    "diff": ["DICT", "DATA", "DATA"],
    "look": ["DICT", "DATA"],
    "dict": ["DICT"],
    "show": ["IMAGE", "DICT"],
}
WRITTEN = {"verify": [], "try": [], "run": ["OUT", "LIST", "FREQ"], "compile": ["MADE"], "diff": [], "look": [], "dict": [], "show": []}
# The files that are read, and so the readers that a command reaches.
READ = {name: [word for word in words if word not in WRITTEN[name] and word[0] != "-"] for name, words in WORDS.items()}

FORM = re.compile(rb"refused (\d+)(?: line (\d+)(?: column (\d+))?| byte (\d+)| routine (\d+) place (\d+))?(?: in (?:DICT|DATA|IMAGE))?\n")
TRAP = re.compile(rb"trap routine \d+ place \d+\n\Z")
ANSWERS = {
    "verify": re.compile(rb"(routine \d+ \d+ steps\n)*case \d+ steps\nrun (\d+) steps\ndepth \d+ \d+ \d+ \d+\naccepted\n\Z"),
    "try": re.compile(rb"(?:.*\n)*?(\d+) steps\n\Z"),
    "run": re.compile(rb"cases \d+ lines \d+ unseen \d+\n\Z"),
    "compile": re.compile(rb"compiled (\d+) bytes\n\Z"),
    "diff": re.compile(rb"cases \d+ changed 0\nlines \d+ changed 0\n\Z"),
    "look": re.compile(rb"cases \d+\nlines \d+\nunknown \d+.*\nextra \d+.*\nids that come back \d+.*\n(?:.*\n)*\Z"),
    "dict": re.compile(rb"dictionary .*\n(?:.*\n)*\Z"),
    "show": re.compile(rb"(?:.*\n)+\Z"),
}
DICTIONARY, DATA, LOGIC, DECKS, IMAGE = range(10, 19), range(20, 23), range(30, 50), range(50, 54), range(60, 70)
DEVICES = (70, 71, 72, 90)
NUMBERS = {
    "verify": {*DICTIONARY, *IMAGE},
    "try": set(IMAGE),
    "run": {*DICTIONARY, *DATA, *DECKS, *IMAGE},
    "compile": {*DICTIONARY, *LOGIC, 64, 67},
    "diff": {*DICTIONARY, *DATA},
    "look": {*DICTIONARY, *DATA},
    "dict": set(DICTIONARY),
    "show": {*DICTIONARY, *range(60, 65)},
}


class Answer:
    """What a call came to: its status (negative: the signal that ended it; None: it hung), its two streams, and the
    files of its folder afterwards."""

    def __init__(self, command, status, out, err, files):
        self.command, self.status, self.out, self.err, self.files = command, status, out, err, files
        line = FORM.fullmatch(err)
        self.number = int(line.group(1)) if line else 0

    def told(self):
        return self.status, self.out, self.err

    def outcome(self):
        """Its name in the counts."""
        if self.number:
            return f"refused {self.number}"
        return "done" if self.status == 0 else f"status {self.status}"


def commands_of(program, seconds):
    """The commands that the program's usage text names."""
    usage = subprocess.run([program], stdin=subprocess.DEVNULL, capture_output=True, timeout=seconds).stderr
    named = set(re.findall(rb"csbatch (\w+)", usage))
    return [name for name in WORDS if name.encode() in named]


# Words, and the status and the line of a fault that they end with. No file of these names is there.
ENDINGS = [
    ([], 2, None), (["--help"], 2, None), (["no-command"], 2, None), (["verify", "DICT"], 2, None),
    (["try", "no-file"], 3, b"refused 72\n"), (["try", "."], 3, b"refused 70\n"), (["try", ""], 3, b"refused 72\n"),
    (["verify", "no-file", "."], 3, b"refused 72\n"), (["verify", ".", "no-file"], 3, b"refused 70\n"),
]


def wrong_words(program, seconds):
    """Why words that are no command, or name no file, end otherwise than they have to, or None."""
    for words, status, line in ENDINGS:
        ran = subprocess.run([program, *words], env={}, stdin=subprocess.DEVNULL, capture_output=True, timeout=seconds)
        told = ran.stderr == line if line else b"usage" in ran.stderr
        if ran.returncode != status or ran.stdout or not told:
            return f"{words}: status {ran.returncode}, {ran.stderr!r}"
    return None


def call(program, command, case, folder, seconds, before, env=None, fds=()):
    """Calls the program in a new folder with the files of the case. `before` is what the written files hold already,
    or None where they aren't there. It gets an environment of its own, and the open files that are named."""
    shutil.rmtree(folder, ignore_errors=True)
    os.makedirs(folder)
    held = {name: case[name] for name in READ[command]}
    if before is not None:
        held.update((name, before) for name in WRITTEN[command])
    for name, data in held.items():
        with open(os.path.join(folder, name), "wb") as file:
            file.write(data)
    try:
        ran = subprocess.run([os.path.abspath(program), command, *WORDS[command]], cwd=folder, env=env or {},
                             pass_fds=fds, stdin=subprocess.DEVNULL, capture_output=True, timeout=seconds)
        status, out, err = ran.returncode, ran.stdout, ran.stderr
    except subprocess.TimeoutExpired:
        status, out, err = None, b"", b""
    files = {}
    for name in os.listdir(folder):
        with open(os.path.join(folder, name), "rb") as file:
            files[name] = file.read()
    return Answer(command, status, out, err, files)


def wrong_ending(answer, case, numbers):
    """Why the status and the two streams are no answer of the command, or None."""
    if answer.status is None:
        return "it hangs"
    if answer.status not in (0, 1, 2, 3):
        return f"status {answer.status}"
    if answer.status == 2:
        return "the words of a command are told to be none"
    if answer.status == 0:
        if answer.err:
            return "standard error has something beside an answer"
        return None if ANSWERS[answer.command].match(answer.out) else "standard output is no answer of this command"
    if answer.command == "try" and answer.status == 1 and not answer.err:
        return None if TRAP.search(answer.out) else "no fault is told"
    if answer.command == "look" and answer.status == 1 and not answer.err:
        return None if ANSWERS["look"].match(answer.out) else "no fault is told"
    if not answer.number:
        return "standard error is no line of a fault"
    if answer.out:
        return "standard output has something beside a fault"
    return wrong_fault(answer, case, numbers)


def wrong_fault(answer, case, numbers):
    """Why the line of a fault isn't one of this command's, or None."""
    number = answer.number
    if number not in numbers:
        return f"docs/FAULTS.md has no {number}"
    if number in DEVICES:
        return "a device, a file or memory failed" if answer.status == 3 else f"{number} with status {answer.status}"
    if answer.status != 1:
        return f"{number} with status {answer.status}"
    if number not in NUMBERS[answer.command]:
        return f"{number} is no fault of {answer.command}"
    return wrong_place(answer, case)


def wrong_place(answer, case):
    """Why the place of a fault can't be one of this number, or None."""
    number = answer.number
    line, column, byte, routine = (FORM.fullmatch(answer.err).group(n) for n in (2, 3, 4, 5))
    if number in IMAGE and number < 65:
        if answer.command == "compile":
            return "a place of a fault that has none" if line or byte or routine else None
        inside = byte is not None and int(byte) <= len(case["IMAGE"])
        return None if inside else "no byte of the image"
    if number in IMAGE:
        wanted = {65: (True,), 66: (True,), 68: (False,)}.get(number, (True, False))
        return None if not line and not byte and (routine is not None) in wanted else "no place of a program"
    if byte or routine:
        return "a place in an image"
    if (column is not None) != (number in LOGIC and line is not None):
        return "a column where none is due, or none where one is"
    lines = 1 + max(data.count(b"\n") for data in case.values())
    if line is None:
        return "no line" if number in DATA or number in DECKS else None
    return None if 1 <= int(line) <= lines else f"line {line.decode()} of {lines}"


def wrong_files(answer, case, before):
    """Why the files that are there afterwards can't be, or None."""
    for name in READ[answer.command]:
        kept = answer.status == 0 and name == "DECKS" and answer.command == "run"
        if not kept and answer.files.get(name) != case[name]:
            return f"{name} was changed"
    more = set(answer.files) - set(READ[answer.command]) - set(WRITTEN[answer.command])
    if more:
        return f"{sorted(more)} was made"
    opened = answer.status == 0 or answer.number in DATA
    for name in WRITTEN[answer.command]:
        if not opened and answer.files.get(name) != before:
            return f"{name} was opened before a fault of what is read before it"
        if opened and name not in answer.files:
            return f"{name} isn't there"
    return wrong_outputs(answer) if opened else None


def wrong_outputs(answer):
    """Why the text of an output can't be one, or None."""
    files, whole = answer.files, answer.status == 0
    if answer.command == "compile":
        size = int(ANSWERS["compile"].match(answer.out).group(1))
        right = files["MADE"].startswith(b"CSEB\2\0\0\0") and len(files["MADE"]) == size
        return None if right else "no image was made"
    if answer.command != "run":
        return None
    if not files["LIST"].startswith(b"CSEB LISTING 1\n") or files["LIST"].endswith(b"\nEND\n") != whole:
        return "LIST is no listing, or has an end where the run had none"
    if not whole:
        return "FREQ has something after a fault of the data" if files["FREQ"] else None
    if not files["FREQ"].startswith(b"CSEB FREQUENCIES 1\n") or not files["FREQ"].endswith(b"\nEND\n"):
        return "FREQ is no text of frequencies"
    if not files["DECKS"].startswith(b"CSEB DECKS 1\n") or not files["DECKS"].endswith(b"\nEND\n"):
        return "DECKS is no text of decks"
    return None
