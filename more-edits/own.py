"""What the proof of one function rests on within its crate, piece by piece, gathered from the names that stand in its text."""
import functools
import itertools
import os
import re

import sources

NAME = re.compile(r"[^\W\d][\w']*(?:-[\w']+)*")
PATH = re.compile(r"(?:\bcrate|\bcse_\w+|Rattle\.\w+)(?:(?:::|\.)[\w'«»-]+)+")
OUTSIDE = ("declared", "contracts")


def names_in(text):
    """The names of a text: those of Rust, and those of antt, which may have dashes."""
    found = set(NAME.findall(text))
    return found | {it for name in found if "-" in name for it in name.split("-")}


def is_used(name, text):
    """Whether the parts of an operator stand in a text."""
    return all(it in text for it in name.split("◌"))


class Piece:
    """A part of a crate's text that counts or does not count as a whole."""

    def __init__(self, file, label, text, owner=None):
        self.file, self.label, self.text, self.owner = file, label, text, owner
        self.imports, self.paths, self.names, self.leads = "", set(), frozenset(), []


class Own:
    """A crate as its own functions see it."""

    def __init__(self, folder):
        self.crate = os.path.basename(folder)
        self.texts, self.imports, self.functions, self.all = {}, {}, [], []
        self.items, self.declared, self.always, self.homes = {}, {}, [], {}
        for path in sources.files(os.path.join(folder, "src"), ".rt"):
            self.rust(os.path.relpath(path, folder), sources.read(path))
        for part in ("specs", "proofs"):
            for path in sources.files(os.path.join(folder, part), ".antt"):
                self.antt(os.path.relpath(path, folder), sources.read(path))
        self.bearers = {}
        for piece in self.all:
            self.bearers.setdefault(piece.label, set()).add(piece.file)
        for file, names in self.declared.items():
            for name in names:
                self.bearers.setdefault(name, set()).add(file)
        for name, pieces in self.items.items():
            self.bearers.setdefault(name, set()).update(it.file for it in pieces)
        for piece in self.all:
            self.bind(piece)

    def add(self, piece, keys):
        self.all.append(piece)
        for key in keys:
            self.items.setdefault(key, []).append(piece)

    def rust(self, file, text):
        """Puts down the items of a .rt file by their names."""
        self.imports[file], self.texts[file] = sources.rust_imports(text), text
        tokens, offsets = sources.rust_tokens_at(text)
        found = list(sources.items_of(tokens))
        types = {it.name for it in found if it.kind == "type"}
        for name in types:
            self.homes.setdefault(name, set()).add(file)
        for item in found:
            item.file, label = file, f"{item.owner or ''}::{item.name}"
            # (what is implemented for a type of another crate goes by the trait too)
            more = [item.trait] if item.owner not in types and item.trait else []
            if item.kind in ("fn", "method", "member"):
                item.body = offsets[item.head], offsets[item.end]
                self.functions.append(item)
                self.add(Piece(file, label, item.front + item.seen(), item.owner if item.kind == "method" else None),
                         [item.owner, *more] if item.kind == "member" else [item.name])
            elif item.kind == "impl":
                self.add(Piece(file, item.front, item.attributes + item.front), [item.owner, *more])
            else:
                self.add(Piece(file, label, item.whole()), [item.name])
                self.always += [self.all[-1]] if item.kind == "other" else []

    def antt(self, file, text):
        """Puts down what an .antt file declares; of a function's proof the whole file."""
        text = sources.antt_text(text)
        self.imports[file] = sources.antt_imports(text)
        names = self.declared.setdefault(file, {})
        if file.startswith("proofs/") and file.count("/") > 1:
            kept = "\n".join(it for it in re.split(r"\n(?=\S)", text) if not it.startswith("use "))
            names[""] = [Piece(file, file, kept)]
            self.all += names[""]
            return
        for it in sources.declared(text, is_whole=file.startswith("specs/")):
            piece = Piece(file, " ".join(it.names), it.text)
            self.all.append(piece)
            for name in it.names:
                names.setdefault(name, []).append(piece)

    def bind(self, piece):
        """Finds what the names of a piece lead to."""
        said, counted = names_in(piece.text), []
        imports, declared = self.imports.get(piece.file, {}), self.declared.get(piece.file, {})
        names = set(said) if piece.file.endswith(".rt") else set()
        leads = [it for name, found in declared.items() if name in said or "◌" in name and is_used(name, piece.text) for it in found]
        for bound, paths in imports.items():
            if bound in said or not NAME.fullmatch(bound) and (bound == "*" or is_used(bound, piece.text)):
                for path in sorted(paths):
                    piece.paths.add(path)
                    last = sources.parts_of(path)[-1]
                    is_only = self.is_own(path) and len(self.bearers.get(last, ())) == 1
                    counted += [] if is_only and last == bound else [f"{bound}={last if is_only else path}"]
        piece.paths.update(PATH.findall(piece.text))
        for path in piece.paths:
            names |= names_in(path)
            leads += self.led_to(path, said)
        piece.names, piece.leads, piece.imports = frozenset(names), leads, " ".join(sorted(counted))

    def is_own(self, path):
        return sources.parts_of(path)[0] in (self.crate, "crate", "super", "self")

    def led_to(self, path, said, seen=()):
        """What a path leads to in specs/ and proofs/; of a whole file, what bears one of the names that were said."""
        parts = sources.parts_of(path)
        if parts[0] not in (self.crate, "crate") or len(parts) < 3 or parts[1] not in ("specs", "proofs") or parts[2] in OUTSIDE:
            return []
        for end in range(len(parts), 2, -1):
            file, name = "/".join(parts[1:end]) + ".antt", (parts[end:] or [None])[0]
            if file in self.declared:
                declared = self.declared[file]
                if "" in declared:
                    return declared[""]
                if name is None:
                    return [it for name, found in declared.items() if name in said or "◌" in name for it in found]
                if name in declared:
                    return declared[name]
                if (file, name) not in seen and name in self.imports[file]:
                    return [it for path in self.imports[file][name] for it in self.led_to(path, said, (*seen, (file, name)))]
        # (a name that was not found: all that bear it)
        return [it for names in self.declared.values() for it in names.get(parts[-1], ())]

    def touched(self, pairs):
        """The functions whose bodies an edit turns; nothing where it turns something else."""
        found = {}
        for file, old, _ in pairs:
            text = self.texts.get(file, "")
            at = text.find(old)
            start, end = at + len(old) - len(old.lstrip()), at + len(old.rstrip())
            around = [it for it in self.functions if it.file == file and it.body[0] < start and end <= it.body[1] and it.tokens[it.head] == "{"]
            if text.count(old) != 1 or not around or around[0].is_const:
                return None
            found[id(around[0])] = around[0]
        return list(found.values()) or None

    def attributes_of(self, file):
        """The attributes of a file and of those that it stands in, up to the root."""
        around = [file, "src/lib.rt", "src/main.rt"]
        for folder in itertools.accumulate(file.split("/")[1:-1], "{}/{}".format):
            around += [f"src/{folder}.rt", f"src/{folder}/mod.rt"]
        return " ".join(sources.inner_attributes(self.texts[it]) for it in dict.fromkeys(around) if it in self.texts)

    def modules_of(self, function):
        """The modules by which a function may go: of a method those of its type, and that of its file."""
        files = dict.fromkeys([*sorted(self.homes.get(function.owner, ())), function.file])
        return [re.sub(r"(/mod|/lib|/main)?\.rt$", "", it).split("/")[1:] for it in files]

    def proofs_of(self, function):
        """The files of a function's proof: its folder, or that of its cycle."""
        modules = tuple("/".join(["proofs", *it, ""]) for it in self.modules_of(function))
        cycles = {function.name, *re.findall(r"#\[cycle\((\w+)\)\]", function.attributes)}
        for file, names in self.declared.items():
            if "" in names and file.startswith(modules):
                folders = file.split("/")[1:-1]
                if any(it == function.name or it[0] == "+" and cycles & set(re.findall(r"\w+", it)) for it in folders):
                    yield from names[""]

    @functools.cached_property
    def calls(self):
        """The functions that each function may call, by name."""
        known = {}
        for it in self.functions:
            known.setdefault(it.name, []).append(it)
        bodies = {id(it): names_in("".join(it.tokens[it.head:it.end + 1])) for it in self.functions}
        return known, {key: [it for name in names & known.keys() for it in known[name]] for key, names in bodies.items()}

    def cycle(self, function, new):
        """Those of the function's cycle; and where the edit brings in the name of a function, those through which that one may call the edited one."""
        known, calls = self.calls
        cycles = set(re.findall(r"#\[cycle\(\w+\)\]", function.attributes))
        found = {id(it): it for it in self.functions if cycles & set(re.findall(r"#\[cycle\(\w+\)\]", it.attributes))}
        old = names_in("".join(function.tokens[function.head:function.end + 1]))
        ahead, todo = {}, [it for name in (new & known.keys()) - old for it in known[name]]
        while todo:
            it = todo.pop()
            if id(it) not in ahead:
                ahead[id(it)] = it
                todo += calls[id(it)]
        behind, grown = {id(function)}, True
        while grown and id(function) in ahead:
            more = {key for key in ahead if any(id(it) in behind for it in calls[key])} - behind
            behind, grown = behind | more, bool(more)
        found.update((key, ahead[key]) for key in behind if key in ahead)
        return sorted(f"{it.owner or ''}::{it.name}" for it in found.values())

    def reached(self, functions, text):
        """What the proof of these functions rests on, where the edit turns them: pieces of text, and all names and paths in them."""
        new = " ".join(re.findall(r"(?m)^new: (.*)$", text))
        todo = list(self.always)
        for it in functions:
            todo.append(Piece(it.file, "edited", f"{self.attributes_of(it.file)} {it.front} {it.whole()} {new}"))
            todo.append(Piece("", "cycle", " ".join(self.cycle(it, names_in(new)))))
            todo += self.proofs_of(it)
        for it in todo:
            if it.label == "edited":
                self.bind(it)
        seen, names, waiting = {id(it): it for it in todo}, set(), {}
        while todo:
            piece = todo.pop()
            found = list(piece.leads)
            for name in piece.names - names:
                names.add(name)
                found += waiting.pop(name, [])
                for it in self.items.get(name, ()):
                    if it.owner and it.owner not in names:
                        waiting.setdefault(it.owner, []).append(it)
                    else:
                        found.append(it)
            for it in found:
                if id(it) not in seen:
                    seen[id(it)] = it
                    todo.append(it)
        pieces = sorted(f"{it.file if len(self.bearers.get(it.label, ())) > 1 else ''} {it.label}\n{it.imports}\n{it.text}" for it in seen.values())
        return pieces, frozenset(names), frozenset(path for it in seen.values() for path in it.paths)
