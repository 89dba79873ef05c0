"""Tries edits: each on a copy of what its crate's check needs, over the work that earlier checks of the crate kept."""
import contextlib
import importlib.util
import os
import re
import shlex
import shutil
import signal
import subprocess
import threading

PARTS = ("src", "specs", "proofs")
LIMIT = re.compile(r"gave up at one of its limits|no-proof-within-its-bounds|was given up after|was broken off")
NOTE = re.compile(r"note: \S+?:\d+:\d+: (.*?) ?\(`([^`]+)`\)(.*)")
ERROR = re.compile(r"(?:\./)?(\S+?):(\d+):\d+: error: (.*)")
NAME_GONE = re.compile(r"has no field|is not in scope|has no `|was not admitted")
ENDED = ("logic=", "only=", "rattle: no verdict")
UNREAD = re.compile(r"is not in scope|has no field|is no name|operand is missing|expected the end|cannot continue")


def pairs(text):
    """The file, the old text and the new one of each pair of an edit."""
    path = old = None
    for line in text.split("\n"):
        word, _, rest = line.partition(": ")
        if word == "file":
            path = rest.strip()
        elif word == "old":
            old = rest
        elif line.startswith("new:") and path and old:
            yield path, old, rest
            old = None


def applied(text, folder):
    """The edited texts by their paths below the crate, or why the edit cannot be applied."""
    texts = {}
    for path, old, new in pairs(text):
        if not path.startswith(tuple(f"{it}/" for it in PARTS)) or not os.path.isfile(os.path.join(folder, path)):
            return None, f"there is no file {path}"
        if path not in texts:
            with open(os.path.join(folder, path), encoding="utf-8") as it:
                texts[path] = it.read()
        if texts[path].count(old) != 1:
            return None, f"{old.strip()!r} stands in {path} {texts[path].count(old)} times"
        texts[path] = texts[path].replace(old, new)
    return (texts, None) if texts else (None, "it has no pair of old and new")


def linked(source, to):
    """Copies a folder as links to its files, which no check writes into; as a copy where the disk is another one."""
    def link(a, b):
        try:
            os.link(a, b)
        except FileExistsError:
            pass
        except OSError:
            shutil.copy2(a, b)
    if os.path.isdir(source):
        shutil.copytree(source, to, copy_function=link, dirs_exist_ok=True)


class Runs:
    """The checks that run, so that they end with this program."""

    def __init__(self):
        self.started, self.guard, self.stopped = set(), threading.Lock(), False
        self.front = shlex.split(os.environ.get("CHECK_WITH", ""))

    def run(self, words, folder):
        with self.guard:
            if self.stopped:
                raise KeyboardInterrupt
            how = {"stdin": subprocess.DEVNULL, "stdout": subprocess.PIPE, "stderr": subprocess.STDOUT}
            ran = subprocess.Popen([*self.front, *words], cwd=folder, text=True, errors="replace", start_new_session=True, **how)
            self.started.add(ran)
        try:
            return ran.communicate()[0], ran.returncode
        finally:
            with self.guard:
                self.started.discard(ran)

    def stop(self):
        with self.guard:
            self.stopped = True
            for it in self.started:
                os.killpg(it.pid, signal.SIGKILL)


def kit():
    """The part of `rt` that knows crates and their libraries, for one look at the texts as they are."""
    path = os.path.join(os.path.dirname(os.path.realpath(shutil.which("rt"))), "rtlib.py")
    spec = importlib.util.spec_from_file_location("rtlib", path)
    made = importlib.util.module_from_spec(spec)
    spec.loader.exec_module(made)
    stamps, stamp = {}, made.Crate.stamp

    def stamp_once(crate):
        # (it asks for those of the libraries below, each time)
        if crate.folder not in stamps:
            stamps[crate.folder] = stamp(crate)
        return stamps[crate.folder]
    made.Crate.stamp = stamp_once
    return made


def built(root, crates):
    """Those of the crates whose library and the libraries below it stand in out/rlib, of the texts as they are. So they are proved."""
    rtlib, crates_of, known, found = kit(), {}, {}, set()
    for name in crates:
        folder = os.path.join(root, "crates", name)
        with contextlib.suppress(OSError, AttributeError, SystemExit):
            crate = crates_of[folder] = crates_of.get(folder) or rtlib.Crate(folder, root, crates_of)
            for it in [crate, *crate.below()]:
                if it.name not in known:
                    known[it.name] = it.makes_rlib() and it.is_built()
            if all(known[it.name] for it in [crate, *crate.below()]):
                found.add(name)
    return found


class Lane:
    """A copy of a crate and of the libraries below it. What its checks prove it keeps for those that follow."""

    def __init__(self, root, room, runs):
        self.root, self.room, self.runs, self.crate = root, room, runs, None
        os.makedirs(room)

    def prepare(self, crate, below, beside=()):
        """Makes room for a crate, with what checks kept of it, also in the lanes beside this one."""
        shutil.rmtree(self.room)
        os.makedirs(os.path.join(self.room, "crates"))
        with open(os.path.join(self.root, "crates.txt"), encoding="utf-8") as it:
            lines = [line for line in it if re.split(r"[ :]", line)[0] in {crate, *below}]
        with open(os.path.join(self.room, "crates.txt"), "w", encoding="utf-8") as it:
            it.writelines(lines)
        for name in below:
            for part in (*PARTS, "out/rlib"):
                linked(os.path.join(self.root, "crates", name, part), os.path.join(self.room, "crates", name, part))
        kept = os.path.join("crates", crate, "out/incremental")
        for it in (self.root, *(it.room for it in beside)):
            # (a lane may leave the crate meanwhile)
            with contextlib.suppress(OSError):
                linked(os.path.join(it, kept), os.path.join(self.room, kept))
        self.crate = crate

    def check(self, texts, only=()):
        """What the check of the crate says with these texts in place of its own, or that of these functions alone, and its status."""
        source, folder = (os.path.join(it, "crates", self.crate) for it in (self.root, self.room))
        for part in PARTS:
            shutil.rmtree(os.path.join(folder, part), ignore_errors=True)
            linked(os.path.join(source, part), os.path.join(folder, part))
        for path, text in texts.items():
            os.remove(os.path.join(folder, path))
            with open(os.path.join(folder, path), "w", encoding="utf-8") as it:
                it.write(text)
        return self.runs.run(["rt", "check", "--jobs", "1", *(word for it in only for word in ("--only", it))], folder)


def unread(line, changed):
    """Whether antt could not read a text of src/ or specs/ or an edited one; where a statement is only false it reads well."""
    found = re.match(r"(?:\./)?(\S+?):\d+:\d+: error: (?:(`[^`]*`): )?(.*)", line)
    if not found or found[1] not in changed and not found[1].startswith(("src/", "specs/")):
        return False
    return not found[2] or bool(UNREAD.search(re.sub(r"`[^`]*`", "", found[3])))


def places(lines):
    """Each goal that stayed open: the function, the clause or condition, and whether the search gave up at a limit."""
    goals = []
    for line in lines:
        note, error = NOTE.match(line), ERROR.match(line)
        if note:
            goals.append((note[2], bool(LIMIT.search(note[3]))))
        elif line.startswith("fn ") and goals:
            name = re.match(r"fn (\S+?):? ", line)[1].split("::", 1)[-1].rstrip(":")
            yield from ((name, goal, is_limit) for goal, is_limit in goals)
            goals = []
        elif error and not NAME_GONE.search(error[3]):
            named = re.match(r"`([^`]*)`", error[3])
            yield error[1], named[1] if named else error[2], bool(LIMIT.search(line))
    yield from (("a-type", goal, is_limit) for goal, is_limit in goals)


def last_of(lines):
    """The line by which a check ended."""
    return next((it for it in reversed(lines) if it.startswith(ENDED)), "")


def is_told(lines, status):
    """Whether a check came to its end, and some function is not proved."""
    return status == 1 and last_of(lines).startswith(("logic=not-proved", "only="))


def outcome(said, status, changed):
    """How a check with an edit ended, in words for the record, or why it does not count."""
    lines = said.split("\n")
    if status == 0 and last_of(lines).startswith(("logic=proved", "only=")):
        return None, "NOT REFUSED: the crate is proved with this edit"
    bad = next((it for it in lines if unread(it, changed)), "")
    if bad:
        return None, f"the prover cannot read the edited text: {bad[:200]}"
    if not is_told(lines, status):
        told = [it for it in lines if it.strip() and not it.startswith(("slot:", "rt: chose"))]
        return None, f"it did not reach the prover (status {status}): {' / '.join(told[:3])[:400]}"
    open_goals = list(places(lines))
    for name, goal, is_limit in open_goals:
        if not is_limit:
            return ["refused", name, goal], ""
    if open_goals:
        return ["limit", *open_goals[0][:2]], ""
    if any(ERROR.match(it) for it in lines):
        return ["name", next(ERROR.match(it)[1] for it in lines if ERROR.match(it))], ""
    beyond = next((it for it in lines if "does not cover this function" in it), "")
    if beyond:
        return None, f"the prover does not cover the edited text: {beyond[:300]}"
    first = next((it for it in lines if re.match(r"fn .*: n(o|ot) ", it)), "")
    return ["refused", *(re.findall(r"fn (\S+):", first) or ["somewhere"])], ""
