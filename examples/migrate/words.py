"""The words of CSPro's logic, with the blanks and comments before each, so that a rewritten text keeps its lines."""
import dataclasses
import re

SYMBOLS = ("<=>", "=>", "->", "<=", ">=", "<>", ":=")
WORD = re.compile(r"[A-Za-z]\w*")
NUMBER = re.compile(r"\d+(\.\d+)?")


@dataclasses.dataclass
class Word:
    """A word of a text. `text` is what is written for it now, between `before` and `after`."""

    kind: str  # word, number, text, symbol, end
    was: str
    space: str
    line: int
    column: int
    text: str = ""
    before: str = ""
    after: str = ""

    def __post_init__(self):
        self.text = self.was

    @property
    def low(self):
        return self.was.lower() if self.kind == "word" else self.was

    def now(self):
        return self.before + self.text + self.after


def end_of_comment(text, at):
    """Where a comment that begins here ends, or `at` where none does. Braces nest."""
    if text.startswith("//", at):
        end = text.find("\n", at)
        return len(text) if end < 0 else end
    if text.startswith("/*", at):
        end = text.find("*/", at)
        return len(text) if end < 0 else end + 2
    if text[at : at + 1] != "{":
        return at
    depth = 0
    for end in range(at, len(text)):
        depth += {"{": 1, "}": -1}.get(text[end], 0)
        if depth == 0:
            return end + 1
    return len(text)


def comment_here(comment):
    """A comment as csbatch reads it: `/* .. */` becomes `{ .. }`."""
    if not comment.startswith("/*"):
        return comment
    return "{" + re.sub(r"[{}]", " ", comment[2:].removesuffix("*/")) + "}"


def end_of_word(text, at):
    """The kind of the word that begins here, and where it ends."""
    for kind, shape in (("word", WORD), ("number", NUMBER)):
        found = shape.match(text, at)
        if found:
            return kind, found.end()
    if text[at] in "'\"":
        end = text.find(text[at], at + 1)
        line_end = text.find("\n", at)
        if end >= 0 and (line_end < 0 or end < line_end):
            return "text", end + 1
    return "symbol", at + next((len(it) for it in SYMBOLS if text.startswith(it, at)), 1)


def words_of(text):
    """The words of a text; the last is its end, with what stands before it."""
    found, at, space = [], 0, ""
    line, line_at = 1, 0
    while at < len(text):
        end = end_of_comment(text, at)
        if end > at or text[at].isspace() or text[at] == "\ufeff":
            end = max(end, at + 1)
            space += comment_here(text[at:end])
        else:
            kind, end = end_of_word(text, at)
            found.append(Word(kind, text[at:end], space, line, at - line_at + 1))
            space = ""
        if "\n" in text[at:end]:
            line += text.count("\n", at, end)
            line_at = text.rindex("\n", at, end) + 1
        at = end
    return [*found, Word("end", "", space, line, at - line_at + 1)]


def text_of(words):
    """The text that is written now; blanks before what was taken out go with it."""
    made, lost = [], ""
    for word in words:
        now = word.now()
        if not now and not word.space.strip(" \t"):
            lost = lost or word.space
            continue
        made.append(word.space or (lost if now[:1].isalnum() else ""))
        made.append(now)
        lost = ""
    return "".join(made)


def inline(words):
    """What is written for some words now, on one line and without comments."""
    return "".join((" " if word.space and at else "") + word.now() for at, word in enumerate(words)).strip()
