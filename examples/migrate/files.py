"""Message files, order files and dictionaries of CSPro, as they are here."""
import re

from statements import format_here


def decoded(data):
    """The text of a file, and the name of its code page where that is not UTF-8."""
    if data[:2] in (b"\xff\xfe", b"\xfe\xff"):
        return data.decode("utf-16"), "UTF-16"
    try:
        return data.decode("utf-8-sig"), None
    except UnicodeDecodeError:
        return data.decode("cp1252", errors="replace"), "WINDOWS-1252"


class Messages:
    """A message file: lines stay lines. `notes` as those of logic."""

    def __init__(self, text):
        self.notes, self.made, self.depth, self.last = [], [], 0, None
        self.languages = []
        for number, line in enumerate(text.splitlines(), 1):
            self.made.append(self.line(number, line.rstrip()))

    def line(self, number, line):
        bare = line.strip()
        if self.depth or bare.startswith("{"):
            return self.comment(number, bare)
        if not bare or bare.startswith("//"):
            self.last = None if not bare else self.last
            return bare
        found = re.match(r"(?i)language\s*=\s*(\w+)", bare)
        if found:
            self.languages.append(found[1])
            self.last = None
            return f"// {bare}"
        if len(self.languages) > 1:
            return f"// {bare}"
        if re.match(r"\d+(\s|$)", bare):
            self.last = len(self.made)
            return self.formatted(number, bare)
        if self.last is None:
            self.notes.append((number, 1, "left", "no message, comment or empty line"))
            return line
        self.made[self.last] += " " + self.formatted(number, bare)
        return ""

    def comment(self, number, bare):
        self.depth += bare.count("{") - bare.count("}")
        behind = bare.rpartition("}")[2].strip()
        if self.depth <= 0 and behind and "}" in bare:
            self.notes.append((number, 1, "left", "a text behind a comment: put it on a line of its own"))
        self.depth = max(self.depth, 0)
        return f"// {re.sub('[{}]', '', bare).strip()}".rstrip()

    def formatted(self, number, text):
        made, done = format_here(text)
        self.notes += [(number, 1, "look", it) for it in done]
        return made

    def text(self):
        return "".join(line + "\n" for line in self.made)


def dictionary_here(dictionary, used):
    """The lines of the dictionary with EditMissing where a set has a code for missing, and notes of it."""
    lines, notes = list(dictionary.lines), []
    for item in sorted(dictionary.items.values(), key=lambda it: -it.line):
        codes = {it.specials["missing"] for it in item.sets if "missing" in it.specials}
        if len(codes) != 1 or item.is_alpha() or item.why_opaque() or "editmissing" in item.keys:
            continue
        code = codes.pop()
        if re.fullmatch(r"-?\d+", code):
            lines.insert(item.line + 1, f"EditMissing={code}")
            notes.append((item.line + 1, 1, "look", f"EditMissing={code} of {item.name}: {code} reads as missing, and no set has it"))
    if dictionary.zero_filled:
        of_records = [it for name, it in dictionary.items.items() if it.record and name in used and not it.is_alpha()]
        plain = [it.name for it in of_records if "zerofill" not in it.keys and int(it.keys.get("len", 1)) > 1]
        if plain:
            why = f"ZeroFill=Yes of the dictionary: is it to hold for {', '.join(plain)}, these say so themselves"
            notes.append((1, 1, "look", why))
    return "".join(line + "\n" for line in lines), notes[::-1]
