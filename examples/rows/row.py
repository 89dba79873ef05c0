"""What a row is: logic, and what the rules of the language say of it."""
import os
from dataclasses import dataclass, field

ROOT = os.path.dirname(os.path.dirname(os.path.dirname(os.path.realpath(__file__))))


def example(name):
    """A file of examples/sample."""
    with open(os.path.join(ROOT, "examples", "sample", name), "rb") as file:
        return file.read()


# A household with at most 30 persons: type in column 1, HH 2 to 4, SEX 5, REL 6, AGE 7 to 9, WEIGHT 10 to 12.
SAMPLE = example("SAMPLE.dcf")


def sample(item=None, key=None, most=30):
    """The sample dictionary, with a key more behind the length of an item, or another number of persons."""
    text = SAMPLE.replace(b"MaxRecords=30\r\n", b"MaxRecords=%d\r\n" % most)
    if item is None:
        return text
    front, rest = text.split(b"Name=" + item + b"\r\n", 1)
    start, rest = rest.split(b"Len=3\r\n", 1)
    return front + b"Name=" + item + b"\r\n" + start + b"Len=3\r\n" + key + b"\r\n" + rest


def listing(body, cases, lines, unseen=0, messages=()):
    """A listing: what is listed, the counts, and of each message its number, its count and its text."""
    summary = ["SUMMARY", f"cases {cases}", f"lines {lines}", f"unseen {unseen}"]
    return "".join(f"{line}\n" for line in ["CSEB LISTING 1", *body, *summary, *[f"message {m}" for m in messages], "END"]).encode()


def frequencies(*lines):
    return "".join(f"{line}\n" for line in ["CSEB FREQUENCIES 1", *lines, "END"]).encode()


def decks(*lines):
    return "".join(f"{line}\n" for line in ["CSEB DECKS 1", *lines, "END"]).encode()


@dataclass
class Run:
    """A run over data: the deck file before it, the fault that stops it, or its files."""

    data: bytes = b""
    wanted: dict = field(default_factory=dict)
    decks: bytes = None
    refused: bytes = None


@dataclass
class Row:
    """Logic with the files beside it, the fault that refuses it, or the runs of its image."""

    name: str
    logic: bytes
    runs: list = field(default_factory=list)
    dictionary: bytes = SAMPLE
    messages: bytes = None
    order: bytes = None
    refused: bytes = None
