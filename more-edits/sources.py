"""What a text of the repository says, without comments and layout: the items of .rt files, the blocks of .antt files."""
import functools
import itertools
import os
import re

RUST = re.compile(r'''//[^\n]*|/\*.*?\*/|b?r(\#*)".*?"\1|[bc]?"(?:[^"\\]|\\.)*"|b?'(?:[^'\\\n]|\\[^\n][^'\n]*)'|\s+|\w+|.''', re.S)
ANTT = re.compile(r'("(?:[^"\\\n]|\\.)*")|\{-.*?-\}|(?<!\S)--[^\n]*', re.S)
WORD = re.compile(r"[^\W\d][\w']*")
CLAUSE = ("requires", "ensures", "ghost")
USE = re.compile(r"(?m)^(pub(?:\([\w ]+\))? )?(ghost )?use\s+([^;]*);")
PAIRS = "([{"
MARKS = {"pub", "abbrev", "unfoldable", "record", "data", "opaque", "ruleset"}
SIGNATURE = re.compile(r"\S+(?: \{[^{}]*\})*\s:\s")
DECLARED = ("struct", "enum", "union", "trait", "type", "const", "static", "macro_rules")


def read(path):
    with open(path, encoding="utf-8") as it:
        return it.read()


@functools.lru_cache(maxsize=None)
def rust_tokens_at(text):
    """The tokens of a .rt text and where each stands; a blank between two words stays as one."""
    found, places = [], []
    for it in RUST.finditer(text):
        word = it[0]
        if word.isspace() or word.startswith(("//", "/*")):
            word = " "
        if word == " " and (not found or found[-1] in " (){}[],;"):
            continue
        if word in "(){}[],;" and found and found[-1] == " ":
            found.pop()
            places.pop()
        found.append(word)
        places.append(it.start())
    return found, places


def rust_tokens(text):
    return rust_tokens_at(text)[0]


def rust_text(text):
    return "".join(rust_tokens(text))


def antt_text(text):
    kept = ANTT.sub(lambda it: it[1] or "", text)
    return "\n".join(line.rstrip() for line in kept.split("\n") if line.strip())


def words(text):
    return set(WORD.findall(text))


def end_of_group(tokens, at):
    """Where the bracket that opens at `at` closes."""
    depth = 0
    for k in range(at, len(tokens)):
        depth += (tokens[k] in "([{") - (tokens[k] in ")]}")
        if not depth:
            return k
    return len(tokens) - 1


def end_of_head(tokens, at):
    """Where the head of a function ends, its clauses included: at the `{` of its body, or at its `;`."""
    in_clause = False
    while at < len(tokens):
        token = tokens[at]
        if token in CLAUSE:
            in_clause = True
        elif token == ";" or token == "{" and not in_clause:
            return at
        elif token in PAIRS:
            in_clause = in_clause and token != "{"
            at = end_of_group(tokens, at)
        at += 1
    return at


class Item:
    """An item of a .rt file: its kind, its name, whose it is where it stands in an impl, and its tokens: where it starts, where its head ends, where it ends."""

    def __init__(self, kind, name, owner, places, attributes=""):
        self.kind, self.name, self.owner, self.attributes = kind, name, owner, attributes
        self.tokens, self.start, self.head, self.end = places
        self.front, self.trait, self.is_const, self.is_public = "", "", False, False

    def whole(self):
        """The item with its attributes and its body."""
        return without_unread(self.attributes) + "".join(self.tokens[self.start:self.end + 1])

    def seen(self):
        """What another function of the crate reads of this one: its head with its clauses. Where it has none, or hides its type, the body counts too."""
        return "".join(self.tokens[self.start:(self.end if self.is_read() else self.head) + 1])

    def is_read(self):
        """Whether others read the body of this function."""
        head = self.tokens[self.start:self.head]
        return self.is_const or "impl" in head or not any(it in CLAUSE for it in head)

    def is_plain_drop(self):
        """Whether this is the drop of a type, written out, of which no clause tells, or its impl."""
        clauses = any(it in CLAUSE for it in self.tokens[self.start:self.head])
        return self.trait == "Drop" and (self.kind == "impl" or self.kind == "member" and not clauses)

    def is_own(self):
        """Whether this is `pub(crate)`, so that its crate keeps it for itself."""
        return [it for it in self.tokens[self.start:self.head] if it.strip()][:3] == ["pub", "(", "crate"]

    def ghost_of(self, trait):
        """The name of the ghost member that this is, of an impl of a trait; nothing where it is none."""
        words = [it for it in self.tokens[self.start:self.end] if it.strip()]
        return words[1] if self.kind == "part" and self.trait == trait and words[:1] == ["ghost"] else ""

    def shown(self):
        """A struct without the fields that its own crate alone reads."""
        tokens = self.tokens[self.start:self.end + 1]
        at = next((k for k, it in enumerate(tokens) if it in ("{", "(") and "struct" in tokens[:k]), None)
        if "struct" not in tokens or at is None:
            return self.text
        last, fields, begin, k = end_of_group(tokens, at), [], at + 1, at + 1
        while k <= last:
            if tokens[k] == "," or k == last:
                fields.append([it for it in tokens[begin:k] if it.strip()])
                begin = k + 1
            elif tokens[k] in PAIRS:
                k = end_of_group(tokens, k)
            elif tokens[k] == "<":
                depth = 0
                while k < last and (depth := depth + (tokens[k] == "<") - (tokens[k] == ">")):
                    k += 1
            k += 1
        seen = [" ".join(it) for it in fields if it[:1] == ["pub"] and it[1:2] != ["("]]
        return derived(self.attributes) + "".join(tokens[:at + 1]) + ", ".join(seen) + "".join(tokens[last:])

    @property
    def text(self):
        """What the crates above read of the item."""
        if self.kind == "impl":
            return derived(self.attributes) + self.front
        if self.kind in ("fn", "method", "member"):
            return "".join(self.tokens[self.start:(self.end if self.is_const else self.head) + 1])
        return derived(self.attributes) + "".join(self.tokens[self.start:self.end + 1])


def derived(attributes):
    return "".join(re.findall(r"#\[derive[^\]]*\]", without_unread(attributes)))


def without_unread(attributes):
    """Attributes without the derives that compare or drop: what text compares has them, or it would not compile, and no clause tells of a drop."""
    def rest(it):
        words = [word for word in re.findall(r"\w+", it[1]) if word not in ("PartialEq", "Eq", "Drop")]
        return f"#[derive({','.join(words)})]" if words else ""
    return re.sub(r"#\[derive\(([^)]*)\)\]", rest, attributes)


def end_of_item(tokens, at):
    """Where an item ends that is no function and no impl."""
    is_value = tokens[at] in ("const", "static", "type", "ghost", "use")
    while at < len(tokens) and tokens[at] != ";":
        if tokens[at] in PAIRS:
            is_last = tokens[at] == "{" and not is_value
            at = end_of_group(tokens, at)
            if is_last:
                break
        at += 1
    return min(at, len(tokens) - 1)


def owner_of(head):
    """The type that an impl's head names, and the trait where it is the impl of one."""
    head = re.sub(r"\bwhere\b.*", "", head).replace("impl", " ", 1)
    while re.search(r"<[^<>]*>", head):
        head = re.sub(r"<[^<>]*>", "", head)
    trait, _, rest = head.partition(" for ")
    found = re.findall(r"\w+", re.sub(r"&(?:'\w+)?|\bmut\b", " ", rest or trait))
    return (found[-1] if found else ""), (re.findall(r"\w+", trait) or [""])[-1] if rest else ""


def function(tokens, start, at, holder, attributes):
    """The function whose words `const` or `fn` stand at `at`."""
    name_at = tokens.index("fn", at) + 2
    head = end_of_head(tokens, name_at)
    end = end_of_group(tokens, head) if head < len(tokens) and tokens[head] == "{" else head
    kind = "fn" if not holder else "member" if holder.trait else "method"
    found = Item(kind, tokens[name_at], holder.name if holder else None, (tokens, start, head, end), attributes)
    found.is_const = tokens[at] == "const"
    found.is_public = bool(holder and holder.trait) or found.is_const or "pub" in tokens[start:at]
    found.front, found.trait = (holder.front, holder.trait) if holder else ("", "")
    return found


def impl_of(tokens, at, attributes):
    """An impl, without what it has."""
    brace = tokens.index("{", at)
    front = "".join(tokens[at:brace])
    owner, trait = owner_of(front)
    found = Item("impl", owner, owner, (tokens, at, brace, end_of_group(tokens, brace)), attributes)
    found.front, found.trait = front, trait
    return found


def declaration(tokens, start, at, holder, attributes):
    """A type, a trait, a constant, a ghost member of an impl, or whatever else stands there but an import."""
    end = end_of_item(tokens, at)
    kind, name = "other", ""
    if tokens[at] in DECLARED:
        name = next((it for it in tokens[at + 1:end] if re.match(r"[^\W\d]\w*$", it) and it != "mut"), "")
        kind = "part" if holder else "type"
    elif tokens[at] == "use" or tokens[at] == "ghost" and "use" in tokens[at:at + 3]:
        kind = "import"
    elif tokens[at] == "mod" and "tactic" not in attributes:
        kind = "import"
    elif tokens[at] == "ghost" and holder:
        kind = "part"
    found = Item(kind, holder.name if holder else name, holder.name if holder else None, (tokens, start, end, end), attributes)
    found.trait = holder.trait if holder else ""
    return found


def items_of(tokens, at=0, stop=None, holder=None):
    """Yields each item of a file, of an inline module or of an impl."""
    start, attributes, stop = at, "", len(tokens) if stop is None else stop
    while at < stop:
        token = tokens[at]
        if token == "#":
            is_inner = tokens[at + 1] == "!"
            end = end_of_group(tokens, at + 1 + is_inner)
            attributes += "" if is_inner else "".join(tokens[at:end + 1])
            at = start = end + 1
        elif token in " ;}":
            at += 1
            start = at if tokens[start] != "pub" else start
        elif token in ("pub", "unsafe", "extern") or token[0] == '"':
            at += 1
        elif token == "(":
            at = end_of_group(tokens, at) + 1
        else:
            if token == "fn" or token == "const" and "fn" in tokens[at + 1:at + 5]:
                found = function(tokens, start, at, holder, attributes)
            elif token == "impl":
                found = impl_of(tokens, at, attributes)
            else:
                found = declaration(tokens, start, at, holder, attributes)
            if found.kind == "impl" or token == "mod" and tokens[found.end] == "}":
                brace = found.head if found.kind == "impl" else tokens.index("{", at)
                yield from [found] if found.kind == "impl" else []
                yield from items_of(tokens, brace + 1, found.end, found if found.kind == "impl" else None)
            elif found.kind != "import":
                yield found
            at = start = found.end + 1
            attributes = ""


def shown_by(texts):
    """The modules whose functions other crates can name, and the names that a crate hands on; of a program all its modules."""
    root = next((text for path, text in texts.items() if path.endswith("/lib.rt")), None)
    modules = {os.path.basename(path)[: -len(".rt")] for path in texts}
    shown = modules if root is None else {"lib"} | modules & set(re.findall(r"(?m)^pub mod (\w+)", root))
    for text in texts.values():
        for used in re.findall(r"(?m)^pub use ([^;]*);", text):
            shown.update(path.removesuffix("::*").split("::")[-1] for path, _ in unfolded(re.sub(r"\s+", " ", used).strip(), "::"))
    return shown



def rust_imports(text):
    """The names that the use lines of a .rt file bind, each with the whole path that it stands for."""
    found = {}
    for ghost, item in re.findall(r"(?m)^[ \t]*(?:pub(?:\([\w ]+\))? )?(ghost )?use\s+([^;]*);", text):
        for path, bound in unfolded(re.sub(r"\s+", " ", item).strip(), "." if ghost else "::"):
            found.setdefault(bound, set()).add(path)
    return found


def with_uses_in_order(text):
    """A .rt text whose imports stand in front, by the names that they bind."""
    uses = []
    for front, ghost, item in USE.findall(text):
        paths = unfolded(re.sub(r"\s+", " ", item).strip(), "." if ghost else "::")
        uses += [f"{front}{ghost}{bound}={path}" for path, bound in paths]
    return "\n".join([*sorted(uses), rust_text(USE.sub("", text))])


def unfolded(item, mark):
    """The whole paths of a use item, each with the name that it binds."""
    front, brace, rest = item.partition("{")
    if not brace:
        path, _, alias = item.partition(" as ")
        return [(path.strip(), (alias or path.split(mark)[-1]).strip())]
    found, depth, part = [], 0, ""
    for letter in rest.rsplit("}", 1)[0] + ",":
        depth += (letter == "{") - (letter == "}")
        if letter == "," and not depth:
            if part.strip():
                found += [(front.strip() + path, bound) for path, bound in unfolded(part.strip(), mark)]
            part = ""
        else:
            part += letter
    return found


def antt_imports(text):
    """The names that the use lines of an .antt file bind, each with the whole path that it stands for."""
    found = {}
    for item in re.findall(r"(?m)^(?:(?:pub|unfoldable) )*use\s([^\n]*(?:\n[ \t}][^\n]*)*)", text):
        for path, bound in unfolded(re.sub(r"\s+", " ", item).strip(), "."):
            found.setdefault(bound, set()).add(path)
    return found


@functools.lru_cache(maxsize=None)
def parts_of(path):
    """The parts of a path of a use line."""
    return [it.strip("«»") for it in re.split(r"::|\.", path.removeprefix("Rattle."))]


@functools.lru_cache(maxsize=None)
def inner_attributes(text):
    """The attributes of a whole file."""
    return "".join(re.findall(r"(?m)^#!\[.*\]", rust_text(text).replace("#!", "\n#!")))


def with_imports_in_order(text):
    """A text of antt whose imports stand by the names that they bind."""
    blocks = re.split(r"\n(?=\S)", text)
    uses = [f"{bound}={path}" for bound, paths in antt_imports(text).items() for path in paths]
    return "\n".join([*sorted(uses), *(it for it in blocks if not it.startswith("use "))])


class Declaration:
    """What a text of antt declares: its names, the parameters of the sections around it, whether its body counts, and its blocks."""

    def __init__(self, names, front, marks, block):
        self.names, self.is_public, self.blocks = names, "pub" in marks or names[0] == "mutual", [front + block]
        self.is_whole = bool(marks - {"pub"}) or names[0] == "mutual"
        self.text = ""


def declarations(text, front=""):
    """Yields what a text of antt declares."""
    for block in re.split(r"\n(?=\S)", text):
        words = block.split()
        marks = set(itertools.takewhile(MARKS.__contains__, words))
        rest = [it for it in words if it not in MARKS] or [""]
        if not words or rest[0] in ("use", "mod"):
            continue
        if rest[0] == "module":
            head, _, body = block.partition(" where\n")
            yield from declarations(re.sub(r"(?m)^  ", "", body), f"{front}{head}\n")
        elif rest[0] == "mutual" and not marks and not re.search(r"(?m)^ +(?:pub )?(?:data|record|abbrev|unfoldable)\b", block):
            yield from declarations(re.sub(r"(?m)^  ", "", block.partition("\n")[2]), front)
        elif rest[0] == "mutual" or "data" in marks:
            inner = re.findall(r"(?m)^ +(?:(?:pub|abbrev|unfoldable|record|data) )*(\S+)", block)
            yield Declaration(list(dict.fromkeys([rest[0], *inner])), front, marks, block)
        elif words[0].startswith("infix"):
            yield Declaration([words[-1]], front, marks, block)
        elif marks or SIGNATURE.match(block):
            yield Declaration([rest[0]], front, marks, block)
        else:
            yield block


def declared(text, is_whole=False):
    """What a text of antt declares, each with its equations where these count."""
    found, last = [], None
    for it in declarations(text):
        if isinstance(it, Declaration):
            found.append(it)
            last = it
        elif last and (is_whole or last.is_whole):
            last.blocks.append(it)
    for it in found:
        it.text = "\n".join(it.blocks)
    return found


def statements(text):
    """The public statements of a file of proofs and the definitions that other files can unfold, without the proofs."""
    return "\n".join(it.text for it in declared(text) if it.is_public or it.is_whole)


def files(folder, ending):
    return sorted(os.path.join(at, name) for at, _, names in os.walk(folder) for name in names if name.endswith(ending))
