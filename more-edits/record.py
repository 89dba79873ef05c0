"""The record of the edits: a line for each, sorted, as `CRATE/NAME HASH DATE HOW ..`."""
import contextlib
import fcntl
import os
import tempfile

HERE = os.path.dirname(os.path.realpath(__file__))
PATH = os.path.join(HERE, "record.txt")


def read(path=PATH):
    """Each edit's line, in words: its hash, the date, how it ended, and where."""
    if not os.path.isfile(path):
        return {}
    with open(path, encoding="utf-8") as it:
        lines = [line.split() for line in it if line.strip() and not line.startswith("#")]
    return {words[0]: words[1:] for words in lines}


@contextlib.contextmanager
def held():
    """Keeps other runs from writing."""
    at = os.open(HERE, os.O_RDONLY)
    try:
        fcntl.flock(at, fcntl.LOCK_EX)
        yield
    finally:
        os.close(at)


def write(changes, gone=()):
    """Puts down these lines and takes away those of `gone`; the others stay as they are by then."""
    with held():
        lines = {name: words for name, words in {**read(), **changes}.items() if name not in gone}
        with tempfile.NamedTemporaryFile("w", encoding="utf-8", dir=HERE, prefix=".record-", delete=False) as it:
            it.writelines(" ".join([name, *lines[name]]) + "\n" for name in sorted(lines))
        os.chmod(it.name, 0o644)
        os.replace(it.name, PATH)
