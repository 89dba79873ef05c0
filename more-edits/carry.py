"""Carries the record over a renaming or a move: a copy of the tree before gets the new words and places, and has to have the hashes of the tree now."""
import os
import re
import tempfile

import closure
import record
import sources

COUNTED = re.compile(r"crates\.txt|crates/\w+/(?:src|specs|proofs)/.*|more-edits/\w+/\w+\.edit")
ROOTS = "src/lib.rt", "specs/Lib.antt", "proofs/Lib.antt"


def files_of(root):
    """The files of a tree that hashes read, each with its text."""
    found = ["crates.txt"]
    for top in ("crates", "more-edits"):
        for at, folders, names in os.walk(os.path.join(root, top)):
            folders[:] = [it for it in folders if it != "out"]
            found += [os.path.relpath(os.path.join(at, name), root) for name in names]
    return {path: sources.read(os.path.join(root, path)) for path in found if COUNTED.fullmatch(path)}


def plain(path, text):
    return sources.rust_text(text) if path.endswith(".rt") else sources.antt_text(text) if path.endswith(".antt") else text


def crates_of(files):
    return set(re.findall(r"(?m)^(\w+)(?: staticlib)?:", files["crates.txt"]))


def unfit(names, before, now):
    """Why these words are no renaming of the one tree into the other: each has to be of the repository, and to stand in one tree alone."""
    for k, (files, others) in enumerate(((before, now), (now, before))):
        said = sources.words(" ".join([*others, *map(plain, others, others.values())]))
        own = {os.path.splitext(os.path.basename(it))[0] for it in files}
        crates = crates_of(files)
        foreign = set()
        for path, text in files.items():
            is_rust = path.endswith(".rt")
            own |= {it.name for it in sources.items_of(sources.rust_tokens(text))} if is_rust else set()
            own |= {name for it in sources.declared(sources.antt_text(text)) for name in it.names} if path.endswith(".antt") else set()
            for paths in (sources.rust_imports(text) if is_rust else sources.antt_imports(text)).values():
                foreign |= {part for it in paths if sources.parts_of(it)[0] not in crates | {"crate", "super", "self"} for part in sources.parts_of(it)}
        for word in (pair[k] for pair in names.items()):
            if word in said or word in foreign or word not in own | crates:
                yield f"{word} {'stands in both trees' if word in said else 'is not of the repository alone'}"


class Moves:
    """Modules that go from one crate to another, or get another name, each as `crate::module`, `crate::specs::Module` or `crate::proofs::Module`."""

    def __init__(self, pairs):
        self.pairs, self.to, self.gone = pairs, {}, {}
        for old, new in pairs.items():
            crate, _, module = old.partition("::")
            home, _, name = new.partition("::")
            self.to[crate, module] = home, name.split("::")[-1]

    def over(self, now):
        """The same moves, to a tree: what the root of a crate that is gone there gave comes from the root to which all its modules went."""
        homes = {crate: {to for (it, _), (to, _) in self.to.items() if it == crate} for crate, _ in self.to}
        self.gone = {crate: min(to) for crate, to in homes.items() if len(to) == 1 and crate not in crates_of(now)}
        return self

    def home(self, crate, module):
        """The crate of a module and its name there."""
        return self.to.get((crate, module), (self.gone.get(crate, crate), module.split("::")[-1]))

    @staticmethod
    def file(module):
        """The file of a module, as `crate::module` names it."""
        crate, *rest = module.split("::")
        return f"crates/{crate}/" + (f"src/{rest[0]}.rt" if len(rest) == 1 else f"{rest[0]}/{rest[1]}.antt")

    def roots(self):
        """The files that tie the modules of a crate together, of each crate that gives or takes one."""
        crates = {crate for crate, _ in self.to} | {crate for crate, _ in self.to.values()}
        return {f"crates/{crate}/{part}" for crate in crates for part in ROOTS}

    def unfit(self, before, now):
        """Why these are no moves of the one tree into the other: each file stands in one tree alone, and roots have nothing but modules and imports."""
        for old, new in self.pairs.items():
            kinds = {re.sub(r"\w+$", "", it.partition("::")[2]) for it in (old, new)}
            if len(kinds) > 1 or not re.fullmatch(r"\w+::(?:(?:specs|proofs)::)?\w+", old):
                yield f"{old} is not the module that {new} is"
            elif self.file(old) not in before or self.file(old) in now or self.file(new) not in now or self.file(new) in before:
                yield f"{old} did not become {new}"
        fronts = {sources.inner_attributes(files[it]) for files in (before, now) for it in self.roots() if it in files and it.endswith(".rt")}
        for path in sorted(self.roots()):
            for text in (files[path] for files in (before, now) if path in files):
                rest = list(sources.items_of(sources.rust_tokens(text))) if path.endswith(".rt") else re.sub(r"(?m)^(?:pub )?mod \w+$", "", sources.antt_text(text)).strip()
                if rest:
                    yield f"{path} has more than modules and imports"
        if len(fronts) > 1:
            yield "the roots have different attributes"

    def place(self, path, text=""):
        """Where a file goes; an edit goes with the files that it turns, if these stay in one crate."""
        top, _, rest = path.partition("/")
        crate, _, rest = rest.partition("/")
        if top == "more-edits":
            homes = {self.place(f"crates/{crate}/{it}").split("/")[1] for it in re.findall(r"(?m)^file: (.*)$", text)}
            return f"{top}/{homes.pop()}/{rest}" if len(homes) == 1 else path
        part, _, name = rest.partition("/")
        word = re.match(r"[^/.]*", name)[0]
        module = word if part == "src" or part == "proofs" and (crate, word) in self.to else f"{part}::{word}"
        home, other = self.home(crate, module)
        return f"{top}/{home}/{part}/{other}{name[len(word):]}" if name else f"{top}/{home}/{rest}"

    def told(self, word, crate):
        """A word of a record's line: where it begins with a module, its name now."""
        module, sign, rest = word.partition("::")
        return f"{self.home(crate, module)[1]}::{rest}" if sign else word

    def turn(self, text, crate, now):
        """The text of a file that stood in a crate and stands in another now, with the modules' new paths."""
        def antt(it):
            part, declared, name = it[2], it[3] or "", it[4]
            module = name if declared or part == "proofs" and (it[1], name) in self.to else f"{part}::{name}"
            home, name = self.home(it[1], module)
            return f"Rattle.{home}.{part}.{declared}{name}"

        def rust(it):
            whose = it[1] if it[1] != "crate" else crate
            home, name = self.home(whose, (it[2] or "") + (it[3] or ""))
            return f"{'crate' if home == now else home}::{it[2] or ''}{name}"
        text = re.sub(r"(?m)^file: (.*)$", lambda it: "file: " + self.place(f"crates/{crate}/{it[1]}").split("/", 2)[2], text)
        text = re.sub(r"\bRattle\.(\w+)\.(specs|proofs)\.(declared\.)?(\w+)", antt, text)
        return re.sub(r"\b(crate|cse_\w+)::(?:((?:specs|proofs)::)?(\w+)|(?=\{))", rust, text)


def moved(before, now, moves):
    """The tree before with its files moved. What ties them together is that of the tree now: roots, and the lines of crates.txt."""
    if not moves.to:
        return before
    moves.over(now)
    found = {path: now[path] for path in ("crates.txt", *moves.roots()) if path in now}
    for path, text in before.items():
        place = moves.place(path, text)
        if path not in found and path not in moves.roots():
            found[place] = moves.turn(text, path.split("/")[1], place.split("/")[1]) if "/" in path else text
    return found


def carry(root, folder, names):
    """Takes over the lines that held in the folder and mean the same here, and says how many; or why none can be."""
    before, now = files_of(folder), files_of(root)
    moves = Moves({old: new for old, new in names.items() if "::" in old})
    names = {old: new for old, new in names.items() if "::" not in old}
    between = moved(before, now, moves)
    whys = [*moves.unfit(before, now), *unfit(names, between, now)]
    if whys:
        return "; ".join(whys)
    pattern = re.compile(r"(?<![\w'])(?:" + "|".join(map(re.escape, names)) + r")(?![\w'])") if names else None
    turn = lambda text: pattern.sub(lambda it: names[it[0]], text) if pattern else text
    changes, gone, lines = {}, [], record.read(os.path.join(folder, "more-edits/record.txt"))
    with tempfile.TemporaryDirectory(prefix="more-edits-") as room:
        for path, text in between.items():
            os.makedirs(os.path.dirname(os.path.join(room, turn(path))), exist_ok=True)
            with open(os.path.join(room, turn(path)), "w", encoding="utf-8") as it:
                it.write(turn(text))
        old, copy, new = (closure.Closure(it) for it in (folder, room, root))
        for edit, (found, day, *how) in lines.items():
            path, crate, text = f"more-edits/{edit}.edit", edit.split("/")[0], before.get(f"more-edits/{edit}.edit")
            place = turn(moves.place(path, text)) if text else path
            home, how = place.split("/")[1], [turn(moves.told(it, crate)) for it in how]
            held = text and place in now and old.hash(crate, text, lines[edit][2:]) == found
            after = held and new.hash(home, now[place], how)
            if held and after == copy.hash(home, sources.read(os.path.join(room, place)), how):
                changes[place[len("more-edits/"):-len(".edit")]] = [after, day, *how]
            gone += [edit] if path not in now else []
    record.write(changes, gone)
    return f"{len(changes)} of {len(lines)} lines carried over"
