"""What a dictionary and an order file of CSPro name."""
import dataclasses
import re


@dataclasses.dataclass
class Item:
    name: str
    record: str | None  # None: an id item
    keys: dict
    sets: list = dataclasses.field(default_factory=list)
    line: int = 0  # the last line of its own section, from 0

    def why_opaque(self):
        """Why logic cannot name it, or nothing."""
        if int(self.keys.get("occurrences", 1)) > 1:
            return f"{self.name} has {self.keys['occurrences']} occurrences: give the dictionary an item over the columns of each"
        if int(self.keys.get("decimal", 0)) > 0:
            return f"{self.name} has decimals: give the dictionary items over its columns"
        alpha = self.is_alpha()
        if int(self.keys.get("len", 1)) > (255 if alpha else 15):
            return f"{self.name} is too long: give the dictionary items over its columns"
        return None

    def is_alpha(self):
        return self.keys.get("datatype", "numeric").lower() == "alpha"


@dataclasses.dataclass
class Set:
    name: str
    item: Item
    specials: dict = dataclasses.field(default_factory=dict)  # notappl, missing, default: the text of its row


class Dictionary:
    """The names of a dictionary, in lower case, and the lines of its file."""

    def __init__(self, text):
        self.lines = text.lstrip("\ufeff").splitlines()
        self.name, self.level, self.records, self.items, self.sets = "", "", [], {}, {}
        self.zero_filled = False
        sections = []
        for at, line in enumerate(self.lines):
            line = line.strip()
            if line.startswith("["):
                sections.append((line.strip("[]").lower(), [], at))
            elif "=" in line and sections:
                sections[-1][1].append((*(it.strip() for it in line.split("=", 1)), at))
        self.record = None
        self.item = None
        for kind, pairs, at in sections:
            self.take(kind, pairs, at)

    def take(self, kind, pairs, at):
        keys = {key.lower(): value for key, value, _ in reversed(pairs)}
        name = keys.get("name", "")
        if kind == "dictionary":
            self.name, self.zero_filled = name, keys.get("zerofill", "").lower() == "yes"
        elif kind == "level":
            self.level = name
        elif kind == "iditems":
            self.record = None
        elif kind == "record":
            self.record = name
            self.records.append(name)
        elif kind == "item":
            self.item = Item(name, self.record, keys, [], pairs[-1][2] if pairs else at)
            self.items[name.lower()] = self.item
        elif kind == "valueset" and self.item:
            made = Set(name, self.item, specials_of(pairs))
            self.item.sets.append(made)
            self.sets[name.lower()] = made

    def names(self):
        return {it.lower() for it in (self.name, self.level, *self.records, *self.items, *self.sets)}


def specials_of(pairs):
    """The rows of a value set that stand for special values."""
    found, last = {}, ""
    for key, value, _ in pairs:
        if key.lower() == "value":
            last = value.split(";")[0].strip()
            if re.fullmatch(r"(' *'|\" *\")", last):
                found["notappl"] = last
        elif key.lower() == "special" and value.lower() in ("notappl", "missing", "default"):
            found[value.lower()] = last
    return found


class Order:
    """What an order file of CSPro names, in terms of the dictionary. A group without a record's name is that of its items."""

    def __init__(self, text, dictionary):
        self.names, self.records, self.group = {}, [], ""
        self.dictionary, self.known = dictionary, {it.lower(): it for it in dictionary.records}
        section = ""
        for line in text.lstrip("\ufeff").splitlines():
            line = line.strip()
            if line.startswith("["):
                section = line.strip("[]").lower()
                self.group = "" if section == "group" else self.group
            elif "=" in line:
                self.take(section, *(it.strip() for it in line.split("=", 1)))

    def take(self, section, key, value):
        key = key.lower()
        if key == "name" and section == "group":
            self.group = value
        elif key == "name" and section not in ("item", "form", "field"):
            self.names.setdefault(value.lower(), self.dictionary.level if section == "level" else self.dictionary.name)
        elif key in ("typename", "recordname") and value.lower() in self.known:
            self.add(self.known[value.lower()])
        elif key == "item":
            item = self.dictionary.items.get(value.split(",")[0].strip().lower())
            if item and item.record:
                self.add(item.record)

    def add(self, record):
        """A record of the group that is read."""
        self.names.setdefault(self.group.lower(), record)
        if record not in self.records:
            self.records.append(record)
