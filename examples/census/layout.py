"""Where the items of CENSUS.dcf stand, and the line of a record."""
import os
import re
from dataclasses import dataclass, field

HERE = os.path.dirname(os.path.realpath(__file__))


@dataclass
class Item:
    start: int
    length: int
    alpha: bool
    zero: bool

    def written(self, value):
        """The columns of a value: a number, a text, or None for blanks."""
        if value is None:
            return " " * self.length
        if isinstance(value, str):
            return f"{value:{self.length}}"
        return f"{value:0{self.length}}" if self.zero else f"{value:{self.length}}"


@dataclass
class Record:
    kind: str
    length: int
    items: dict = field(default_factory=dict)


def layout():
    """The id items, and the records by name."""
    with open(os.path.join(HERE, "CENSUS.dcf"), encoding="utf-8-sig") as file:
        sections = re.findall(r"(?ms)^\[(\w+)\]\n(.*?)(?=^\[|\Z)", file.read())
    ids, records = {}, {}
    items = ids
    for name, body in sections:
        keys = dict(line.split("=", 1) for line in reversed(body.split("\n")) if "=" in line)
        if name == "Record":
            items = {}
            records[keys["Name"]] = Record(keys["RecordTypeValue"].strip("'"), int(keys["RecordLen"]), items)
        elif name == "Item":
            alpha, zero = keys.get("DataType") == "Alpha", keys.get("ZeroFill") == "Yes"
            items[keys["Name"]] = Item(int(keys["Start"]), int(keys["Len"]), alpha, zero)
    return ids, records


IDS, RECORDS = layout()


def line(record, ids, values):
    """A record's line, of the full length, from its values by item name."""
    kind = RECORDS[record]
    columns = list(kind.kind.ljust(kind.length))
    for items, given in ((IDS, ids), (kind.items, values)):
        for name, value in given.items():
            item = items[name]
            text = item.written(value)
            if len(text) != item.length:
                raise ValueError(f"{name} has no room for {value!r}")
            columns[item.start - 1 : item.start - 1 + item.length] = text
    return "".join(columns)
