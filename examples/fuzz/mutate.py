"""Other bytes from bytes: what a file may become on its way, and what a stranger may hand in."""
import struct

NUMBERS = [b"0", b"1", b"2", b"9", b"10", b"16", b"17", b"63", b"64", b"65", b"99", b"100", b"199", b"200", b"201",
           b"254", b"255", b"256", b"999", b"1000", b"9999", b"10000", b"10001", b"65534", b"65535", b"65536",
           b"999999999", b"1000000000", b"2147483647", b"4294967295", b"4294967296", b"9223372036854775807",
           b"9223372036854775808", b"18446744073709551615", b"-1", b"-0", b"007", b"-9223372036854775808",
           b"-9223372036854775809", b"1" * 40]
FIELDS = [(form, n) for form, limit in (("<B", 8), ("<H", 16), ("<I", 32), ("<Q", 64))
          for n in (0, 1, 2, 3, 45, 46, 64, 65, 255, 256, 4096, 4097, 65535, 65536, 1000000, 1000001, 2**31, 2**32 - 1, 2**63, 2**64 - 1)
          if n < 2**limit]
WORDS = [b"\xef\xbb\xbf", b"\r\n", b"\n", b"\r", b"\t", b" ", b"\0", b"\x1a", b"\xff", b"\xc3", b"\xc3\xa9", b"\xf0\x9f\x98\x80",
         b"\xed\xa0\x80", b"{", b"}", b"//", b'"', b"'", b"(", b")", b"[", b"]", b";", b":", b"=", b"%", b"%d", b"%099d", b"%s",
         b"[Dictionary]", b"[Level]", b"[Record]", b"[Item]", b"[IdItems]", b"[ValueSet]", b"Name=", b"Start=", b"Len=",
         b"Value=", b"MaxRecords=", b"RecordTypeValue='P'", b"Decimal=1", b"EditMissing=9", b"ZeroFill=Yes", b"DataType=Alpha",
         b"PROC GLOBAL", b"numeric ", b"array ", b"function ", b"end;", b"if ", b"then ", b"endif;", b"do ", b"enddo;",
         b"for i in PERSON do ", b"getdeck(", b"putdeck(", b"impute(", b"errmsg(", b"missing", b"notappl", b"default", b"exit;",
         b"ARRAY ", b"END\n", b"NOTAPPL\n", b"MISSING\n", b"CSEB DECKS 1\n", b"CSEB"]


def spot(random, data):
    return random.randint(0, len(data))


def span(random, data, longest=64):
    start = spot(random, data)
    return start, min(len(data), start + random.randint(0, longest))


def cut(random, data, other):
    return data[:spot(random, data)]


def replace(random, data, other):
    at = spot(random, data)
    return data[:at] + bytes([random.randrange(256)]) + data[at + 1:]


def flip(random, data, other):
    at = spot(random, data)
    return data[:at] + bytes(b ^ (1 << random.randrange(8)) for b in data[at:at + 1]) + data[at + 1:]


def insert(random, data, other):
    at = spot(random, data)
    return data[:at] + random.choice(WORDS) + data[at:]


def remove(random, data, other):
    start, end = span(random, data)
    return data[:start] + data[end:]


def repeat(random, data, other):
    """A short span many times over: deep nests, long lines, many entries."""
    start, end = span(random, data, 24)
    return data[:start] + data[start:end] * random.choice((2, 3, 17, 64, 65, 66, 200, 201, 300)) + data[end:]


def number(random, data, other):
    """A number of the text becomes one at a limit."""
    at = spot(random, data)
    while at < len(data) and not data[at:at + 1].isdigit():
        at += 1
    end = at
    while end < len(data) and data[end:end + 1].isdigit():
        end += 1
    return data[:at] + random.choice(NUMBERS) + data[end:]


def field(random, data, other):
    """Bytes become a number at a limit, in the order of an image."""
    form, value = random.choice(FIELDS)
    made = struct.pack(form, value)
    at = spot(random, data)
    if random.random() < 0.5:
        at -= at % len(made)
    return data[:at] + made + data[at + len(made):]


def double_line(random, data, other):
    lines = data.splitlines(keepends=True) or [b""]
    at = random.randrange(len(lines))
    return b"".join(lines[:at + 1] + lines[at:])


def drop_line(random, data, other):
    lines = data.splitlines(keepends=True) or [b""]
    at = random.randrange(len(lines))
    return b"".join(lines[:at] + lines[at + 1:])


def swap_lines(random, data, other):
    lines = data.splitlines(keepends=True) or [b""]
    a, b = random.randrange(len(lines)), random.randrange(len(lines))
    lines[a], lines[b] = lines[b], lines[a]
    return b"".join(lines)


def swap_parts(random, data, other):
    """Two parts that lie one behind the other change places: the sections of a dictionary or of an image."""
    a, b, c = sorted(spot(random, data) for _ in range(3))
    if random.random() < 0.5:
        starts = [at for at in range(len(data)) if data[at:at + 1] == b"["] or [a, b, c]
        a, b, c = sorted(random.choice(starts) for _ in range(3))
    return data[:a] + data[b:c] + data[a:b] + data[c:]


def splice(random, data, other):
    """The front of one, and the end of another."""
    return data[:spot(random, data)] + other[spot(random, other):]


def noise(random, data, other):
    return bytes(random.randrange(256) for _ in range(random.choice((0, 1, 7, 8, 40, 200, 5000))))


SMALL = [cut, replace, flip, insert, remove, number, field, double_line, drop_line, swap_lines, swap_parts]
ALL = SMALL * 3 + [repeat, repeat, splice, splice, noise]


def mutated(random, data, other):
    """Between one and four changes, most often one; other bytes, but for a rare chance."""
    for _ in range(4):
        made = data
        for _ in range(random.choice((1, 1, 1, 2, 3, 4))):
            made = random.choice(ALL)(random, made, other)
        if made != data:
            break
    return made


def each(data, values):
    """Every front of the bytes, and every byte replaced by others: by each other value up to so many bytes, and in
    longer files by eight."""
    for length in range(len(data)):
        yield data[:length]
    for at, byte in enumerate(data):
        others = range(256) if len(data) <= values else {byte ^ (1 << bit) for bit in range(8)}
        for other in others:
            if other != byte:
                yield data[:at] + bytes([other]) + data[at + 1:]
