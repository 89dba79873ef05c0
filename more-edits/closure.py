"""What the outcome of an edit hangs on, as one hash: the edit, what counts of its crate and of the crates below, and the kit."""
import functools
import hashlib
import os
import re
import subprocess

import own
import sources
import trying

HERE = os.path.dirname(os.path.realpath(__file__))


class Library:
    """A crate as the crates above it see it: the items of its .rt files that they can name, the files of specs/, the statements of proofs/."""

    def __init__(self, root, name):
        self.name, self.folder = name, os.path.join(root, "crates", name)
        self.items, self.imports, self.handed_on = {}, {}, {}
        found = []
        texts = {path: sources.read(path) for path in sources.files(os.path.join(self.folder, "src"), ".rt")}
        shown = sources.shown_by(texts)
        for path, text in texts.items():
            imports = sources.rust_imports(text)
            for bound, paths in imports.items():
                for it in paths:
                    if it.startswith("cse_"):
                        self.handed_on.setdefault(bound, set()).add(it)
            module = os.path.basename(path)[: -len(".rt")]
            found += [(it, imports) for it in sources.items_of(sources.rust_tokens(text)) if it.kind != "fn" or module in shown or it.name in shown]
        # (of a type with a value the crates above know the value)
        valued = {it.owner for it, _ in found if it.ghost_of("Model") == "Value"}
        own_traits = {it.name for it, _ in found if it.is_own() and it.kind == "type" and "trait" in it.tokens[it.start:it.head]}
        for item, imports in found:
            if item.is_own() or item.trait in own_traits:
                continue
            if item.kind == "other" or item.kind in ("fn", "method", "member") and not item.is_public:
                continue
            if item.owner in valued and item.ghost_of("Model") in ("view", "invariant") or item.is_plain_drop():
                continue
            item.said = item.shown() if item.kind == "type" and item.name in valued else item.text
            item.words = sources.words(item.said)
            item.paths = {path for bound, paths in imports.items() for path in paths
                          if bound in item.words or not bound.isidentifier() and bound.strip("◌") in item.said}
            self.items.setdefault(item.owner or item.name, []).append(item)
        self.types = {name for name, items in self.items.items() if any(it.kind not in ("fn", "method") for it in items)}

    @functools.lru_cache(maxsize=None)
    def antt(self, path):
        """A file of specs/ or proofs/, and its imports; nothing where there is none."""
        whole = os.path.join(self.folder, path)
        if not os.path.isfile(whole):
            return None
        text = sources.antt_text(sources.read(whole))
        imports = sources.antt_imports(text)
        if path.startswith("specs/"):
            text = sources.with_imports_in_order(text)
        else:
            text = sources.statements(text)
            said = sources.words(text)
            imports = {bound: paths for bound, paths in imports.items() if bound in said or not bound.isidentifier()}
        return text, imports


class Reached:
    """What a crate or a part of it reads of the crates below, gathered from names: a set of pieces of text."""

    def __init__(self, closure, crate, said, paths):
        self.closure, self.said, self.below = closure, said, closure.below(crate)
        self.seen, self.pieces = set(), []
        for path in paths:
            self.path(path)
        # (the items of the crates directly below that bear a name which was said)
        for name in self.below & set(closure.uses[crate]):
            library = closure.library(name)
            for word in said & library.items.keys():
                self.named(library, word)

    def is_new(self, *key):
        size = len(self.seen)
        self.seen.add(key)
        return len(self.seen) > size

    def path(self, path):
        """What a path of a use line leads to: a file of definitions, statements, or items of a .rt file."""
        if not self.is_new("path", path):
            return
        parts = sources.parts_of(path)
        if parts[0] not in self.below:
            return
        library = self.closure.library(parts[0])
        if len(parts) > 2 and parts[1] in ("specs", "proofs") and parts[2] != "declared":
            for end in range(len(parts), 2, -1):
                file = "/".join(parts[1:end]) + ".antt"
                if self.file(library, file):
                    break
            else:
                # (a file that Lib.antt hands on from a crate below)
                self.file(library, f"{parts[1]}/Lib.antt")
        for word in parts[1:]:
            self.named(library, word)

    def file(self, library, file):
        found = library.antt(file)
        if found is None:
            return False
        if self.is_new(library.name, file):
            text, imports = found
            self.pieces.append(f"{library.name}/{file}\n{text}")
            for paths in imports.values():
                for path in paths:
                    self.path(path)
        return True

    def named(self, library, word):
        """The items of that name: a type with what is implemented for it, a constant, or a function that the crate names."""
        if not self.is_new(library.name, "word", word):
            return
        for path in library.handed_on.get(word, ()):
            self.path(path)
        for item in library.items.get(word, ()):
            if item.kind in ("fn", "method") and item.name not in self.said:
                continue
            self.pieces.append(f"{library.name} {item.said}")
            for it in item.words & library.types:
                self.named(library, it)
            for path in item.paths:
                self.path(path)
            for name in item.words & self.below - {library.name}:
                for it in item.words & self.closure.library(name).types:
                    self.named(self.closure.library(name), it)


class Closure:
    def __init__(self, root, kit=None):
        self.root, self.kit = root, kit or self.kit_of()
        lines = re.findall(r"(?m)^(\w+)(?: staticlib)?:(.*)$", sources.read(os.path.join(root, "crates.txt")))
        self.uses = {name: rest.split() for name, rest in lines}
        self.library = functools.lru_cache(maxsize=None)(lambda name: Library(root, name))
        self.own = functools.lru_cache(maxsize=None)(lambda name: own.Own(os.path.join(root, "crates", name)))
        self.whole = functools.lru_cache(maxsize=None)(self.whole)
        self.below = functools.lru_cache(maxsize=None)(self.below)
        self.reached = functools.lru_cache(maxsize=None)(self.reached)

    @staticmethod
    def kit_of():
        told = subprocess.run(["rt", "version"], capture_output=True, text=True, check=True).stdout
        return re.search(r"logic (\w+)", told)[1]

    def below(self, crate):
        """The names of the repository's crates below one."""
        own = [it for it in self.uses[crate] if it in self.uses]
        return frozenset(own).union(*map(self.below, own))

    def whole(self, crate):
        """The text of a crate, file by file, its words, and the paths that it names."""
        folder = os.path.join(self.root, "crates", crate)
        pieces, said, paths = [], set(), set()
        for part, ending in (("src", ".rt"), ("specs", ".antt"), ("proofs", ".antt")):
            for path in sources.files(os.path.join(folder, part), ending):
                text = sources.read(path)
                plain = sources.with_uses_in_order(text) if ending == ".rt" else sources.antt_text(text)
                imports = sources.rust_imports(text) if ending == ".rt" else sources.antt_imports(plain)
                paths.update(*imports.values())
                paths.update(re.findall(r"\bcse_\w+(?:::\w+)+", plain))
                said |= sources.words(plain) if ending == ".rt" else set()
                pieces.append(f"{os.path.relpath(path, folder)}\n{plain}")
        paths = frozenset(it for it in paths if it.startswith(("Rattle.cse_", "cse_")))
        return pieces, frozenset(said | sources.words(" ".join(paths))), paths

    def reached(self, crate, more):
        """What a crate reads of those below, where its text also has the words `more`."""
        _, said, paths = self.whole(crate)
        return Reached(self, crate, said | more, paths)

    def callable(self, crate):
        """The names of all functions of the crates below."""
        return frozenset(it.name for name in self.below(crate) for items in self.library(name).items.values() for it in items)

    def turned(self, crate, text, how):
        """The functions whose bodies an edit turns; nothing where it turns something else, or where all of the crate counts by the way it ended."""
        own = self.own(crate)
        found = own.touched(list(trying.pairs(text)))
        if not found or how[:1] in (["limit"], ["name"]):
            return None
        places = {it.name for it in found} | {piece.file for it in found for piece in own.proofs_of(it)}
        return found if len(how) < 2 or how[1].split("::")[-1] in places else None

    def hash(self, crate, text, how):
        """The hash of an edit of a crate that ended in this way."""
        turned = self.turned(crate, text, how)
        if turned:
            pieces, said, paths = self.own(crate).reached(turned, text)
            found = Reached(self, crate, said, paths)
            parts = [self.kit, " ".join(sorted(self.uses[crate])), text, *pieces, *sorted(found.pieces)]
            return hashlib.sha256("\0".join(parts).encode()).hexdigest()[:16]
        new = sources.words(" ".join(re.findall(r"(?m)^new: (.*)$", text)))
        more = frozenset(new - self.whole(crate)[1]) & self.callable(crate)
        parts = [self.kit, " ".join(sorted(self.uses[crate])), text, *self.whole(crate)[0]]
        parts += sorted(self.reached(crate, more).pieces)
        return hashlib.sha256("\0".join(parts).encode()).hexdigest()[:16]
