"""Texts as rows of crates/cse_test_files have them."""


def text_of(name, content):
    """A text of a row: `text NAME:` and its lines."""
    lines = [f"text {name}:"]
    parts = content.split(b"\n")
    for place, part in enumerate(parts):
        is_last = place == len(parts) - 1
        if is_last and not part:
            break
        lines.append("    |" + escaped(part) + ("\\" if is_last else ""))
    return "\n".join(lines)


def escaped(part):
    """A line, with what no line has as it is: `\\`, CR, tabs at its end, blanks at its end, other control characters, and bytes
    that are no UTF-8."""
    made = ""
    for sign in part.decode("utf-8", errors="surrogateescape"):
        code = ord(sign)
        if 0xDC80 <= code <= 0xDCFF:
            made += f"\\x{code - 0xDC00:02X}"
        elif sign == "\r":
            made += "\\r"
        elif sign == "\t":
            made += "\\t"
        elif sign == "\\" or code < 32 or code in (0xFEFF, 0x2028, 0x85):
            made += "".join(f"\\x{byte:02X}" for byte in sign.encode())
        else:
            made += sign
    bare = made.rstrip(" ")
    return bare + "\\x20" * (len(made) - len(bare))
