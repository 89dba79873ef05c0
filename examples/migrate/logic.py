"""Rewrites a whole source of CSPro's logic: its declarations and the heads of its procedures."""
import re

from expressions import Stop
from statements import TAKEN_OUT, Statements
from words import text_of, words_of


class Logic(Statements):
    """A whole source."""

    def __init__(self, text, dictionary, order):
        self.words, self.dictionary, self.order = words_of(text), dictionary, order
        self.notes, self.moved, self.starts, self.arrays, self.at = [], [], [], set(), 0
        self.forms = dict(order.names) if order else {}
        self.names = dict(self.forms)
        self.taken = dictionary.names() | {word.low for word in self.words if word.kind == "word"}
        self.application = None  # the words behind which its events begin
        self.source()
        self.finish()

    def leave(self, word, why):
        self.notes.append((word.line, word.column, "left", why))

    def look(self, word, why):
        self.notes.append((word.line, word.column, "look", why))

    def text(self):
        return text_of(self.words)

    def source(self):
        while self.here().kind != "end":
            begin = self.at
            try:
                self.take("proc")
                self.hoist, self.item, self.loops, self.names = None, None, [], dict(self.forms)
                (self.globals if self.sees("global") else self.procedure)()
            except Stop as why:
                self.leave(self.here(), str(why))
                self.at = max(self.at, begin + 1)
                while not self.sees("proc") and self.here().kind != "end":
                    self.at += 1

    def procedure(self):
        word = self.take()
        self.name_of_proc(word)
        self.proc = word.text
        named = word.text.lower() == self.dictionary.name.lower()
        if named:
            self.application = (word, None, None)
        self.statements()
        while not self.sees("proc") and self.here().kind != "end":
            event = self.take()
            if event.low not in ("preproc", "postproc"):
                self.leave(event, f"`{event.was}` is not understood here")
            elif named:
                pre, post = self.application[1:]
                self.application = (word, event, post) if event.low == "preproc" else (word, pre, event)
            self.statements()

    def name_of_proc(self, word):
        item = self.dictionary.items.get(word.low)
        if item:
            self.item = item
            if item.record is None:
                self.leave(word, f"{item.name} is an id item: move its edit to the level's preproc")
            elif item.why_opaque():
                self.leave(word, item.why_opaque())
        elif word.low in self.forms:
            word.text = self.forms[word.low]
        elif word.low not in self.dictionary.names():
            if re.search(r"(_ff|_edt|_form)$", word.low) and not self.order:
                self.leave(word, "the name of a form: give the order file, or write the dictionary's, the level's or the record's")
            else:
                self.leave(word, f"the dictionary has no {word.was}")

    def globals(self):
        self.global_word = self.take("global")
        if self.words[self.at - 2].line and self.at > 2:
            self.leave(self.global_word, "PROC GLOBAL comes first: move it up")
        while not self.sees("proc") and self.here().kind != "end":
            begin = self.at
            try:
                self.declaration()
            except Stop as why:
                self.leave(self.here(), str(why))
                self.to_semicolon(begin)

    def declaration(self):
        word = self.here()
        self.proc = "g"
        if self.sees("numeric", "alpha", "string"):
            self.variables()
        elif self.sees("array"):
            self.array()
        elif self.sees("function"):
            self.function()
        elif self.sees(";"):
            self.take()
        elif self.sees("set"):
            begin = self.at
            self.to_semicolon(begin)
            self.drop(begin, self.at - 1)
            self.look(word, f"taken out: {TAKEN_OUT['set']}")
        else:
            raise Stop(f"`{word.was}`: a declaration that is not there")

    def variables(self):
        word, begin = self.here(), self.at
        kind, _ = self.kind_declared()
        self.drop(begin, self.at - 1)
        word.text = kind
        while True:
            name = self.take()
            if self.sees("=", ":="):
                begin = self.at
                self.take()
                self.value()
                self.starts.append(f"{name.was} = {self.now(begin + 1, self.at - 1)};")
                self.drop(begin, self.at - 1)
            if not self.sees(","):
                break
            self.take()
        self.semicolon()

    def array(self):
        self.take("array")
        if self.sees("numeric"):
            self.take().text = ""
        if self.sees("alpha", "string"):
            self.leave(self.here(), "an array of texts: numbers alone")
            return self.to_semicolon(self.at)
        name = self.take()
        self.arrays.add(name.low)
        self.take("(")
        sets = []
        while not self.sees(")"):
            word = self.take()
            sets += [self.dictionary.sets[word.low]] if word.low in self.dictionary.sets else []
            if self.sees("("):
                self.take("("), self.take("+"), self.take(")")
        self.take(")")
        for it in sets:
            if "notappl" in it.specials:
                self.leave(name, f"{it.name} has a row for blanks, which no case picks: a set without it, with (+)")
        begin = self.at
        while not self.sees(";") and self.here().kind != "end":
            self.take()
        if sets and not any(word.low == "=" for word in self.words[begin : self.at]):
            self.look(name, "no starting list: a cell that no case filled is 0, and 0 is imputed")
        self.semicolon()
        return None

    def function(self):
        self.take("function")
        if self.sees("numeric"):
            self.take().text = ""
        if self.sees("alpha", "string"):
            self.leave(self.here(), "a function that gives a text: a global of texts")
            self.take()
        word = self.take()
        self.proc, kept = word.was, dict(self.names)
        self.take("(")
        while not self.sees(")"):
            if self.sees("alpha", "string", "array", "optional"):
                self.leave(self.here(), f"{self.here().was}: parameters are numbers")
            self.take()
        self.take(")")
        self.statements()
        self.take("end")
        self.semicolon()
        self.names = kept

    # What was moved: behind PROC GLOBAL, and at the application's preproc.

    def finish(self):
        if self.moved:
            kinds = {}
            for kind, name in self.moved:
                kinds.setdefault(kind, []).append(name)
            text = " ".join(f"{kind} {', '.join(names)};" for kind, names in kinds.items())
            if hasattr(self, "global_word"):
                self.global_word.after += " " + text
            else:
                self.words[0].before = f"PROC GLOBAL {text} " + self.words[0].before
        if self.starts:
            text = " ".join(self.starts)
            name, pre, post = self.application or (None, None, None)
            if pre:
                pre.after += " " + text
            elif post:
                post.before = f"preproc {text} " + post.before
            elif name:
                name.after += f" preproc {text} postproc"
            else:
                end = self.words[-1]
                end.before = f"{'' if end.space.endswith(chr(10)) else chr(10)}PROC {self.dictionary.name} preproc {text}\n"
