"""Rewrites statements of CSPro's logic in place."""
import re

from expressions import Expressions, Stop
from words import inline

TURNS = 9999
CLOSERS = ("endif", "else", "elseif", "enddo", "end", "preproc", "postproc", "proc", "endrecode", "endbox")
LEFT_STATEMENTS = {
    "skip": "an `if` around what is skipped, or a flag", "stop": "a flag: the run goes on", "endcase": "a flag",
    "endlevel": "`exit`", "endgroup": "`exit`", "advance": "it belongs to data entry", "reenter": "it belongs to data entry",
    "noinput": "it belongs to data entry", "ask": "an `if`", "universe": "an `if`", "move": "an `if`", "write": "errmsg",
    "filewrite": "errmsg", "fileread": "nothing", "file": "nothing", "export": "nothing", "list": "nothing",
    "freq": "FREQ, or counts in an array", "onfocus": "preproc", "killfocus": "postproc", "onoccchange": "preproc",
}  # fmt: skip
TAKEN_OUT = {"set": "attributes and behaviour say nothing to a batch"}
FORMAT = re.compile(r"%(-?)(0?)(\d*)(?:\.(\d+))?(l?[dfsiu%])")


def format_here(text):
    """A text of a message with the placeholders that are there, and what was done."""
    done = []

    def placeholder(found):
        minus, zero, width, digits, kind = found.groups()
        kind = kind[-1]
        if kind == "%":
            return found[0]
        made = "%s" if kind == "s" else f"%{zero}{width}d" if kind in "diu" and not minus else "%d"
        if made != found[0]:
            done.append(f"{found[0]} becomes {made}")
        return made

    return FORMAT.sub(placeholder, text), done


class Statements(Expressions):
    """Statements of a procedure, up to a word that closes them."""

    def statements(self):
        while not self.sees(*CLOSERS) and self.here().kind != "end":
            begin = self.at
            try:
                self.statement()
            except Stop as why:
                self.leave(self.here(), str(why))
                self.to_semicolon(begin)

    def to_semicolon(self, begin):
        """Goes on behind the `;` that ends what is not understood."""
        self.at = max(self.at, begin + 1)
        while not self.sees(";") and not self.sees(*CLOSERS) and self.here().kind != "end":
            self.at += 1
        if self.sees(";"):
            self.at += 1

    def semicolon(self):
        """The `;` that ends a statement, which may lack before a word that closes."""
        if self.sees(";"):
            self.take()
        elif self.sees(*CLOSERS) or self.here().kind == "end":
            self.words[self.at - 1].after += ";"
        else:
            raise Stop(f"`{self.here().was}` is not understood here")

    def statement(self):
        word = self.here()
        known = getattr(self, f"statement_{word.low}", None) if word.kind == "word" else None
        self.hoist = word
        if self.sees(";"):
            self.take()
        elif known:
            known()
        elif word.low in LEFT_STATEMENTS:
            self.leave(word, f"{word.was}: {LEFT_STATEMENTS[word.low]}")
            self.to_semicolon(self.at)
        elif word.low in TAKEN_OUT:
            self.look(word, f"taken out: {TAKEN_OUT[word.low]}")
            begin = self.at
            self.to_semicolon(begin)
            self.drop(begin, self.at - 1)
        else:
            self.primary()
            if self.sees("=", ":="):
                self.take().text = "="
                self.value()
            self.semicolon()

    def condition(self, end):
        """A condition and the word behind it. What is not understood is passed over, so that the statement goes on."""
        begin = self.at
        try:
            self.value()
            return self.take(end)
        except Stop as why:
            self.leave(self.here(), str(why))
            while not self.sees(end) and not self.sees(";", *CLOSERS) and self.here().kind != "end":
                self.at += 1
            self.at = max(self.at, begin)
            return self.take(end)

    def statement_if(self):
        self.take("if")
        self.condition("then")
        self.statements()
        while self.sees("elseif"):
            self.take()
            self.hoist = None
            self.condition("then")
            self.statements()
        if self.sees("else"):
            self.take()
            self.statements()
        self.take("endif")
        self.semicolon()

    def statement_for(self):
        self.take("for")
        variable = self.variable()
        self.take("in")
        record_word = self.take()
        self.name(record_word)
        if self.sees("where"):
            self.take().text = "do if not ("
            self.loops = [*self.loops, (variable, record_word.text.lower())]
            self.hoist = None
            self.condition("do").text = ") then next; endif;"
        else:
            self.take("do")
            self.loops = [*self.loops, (variable, record_word.text.lower())]
        self.statements()
        self.loops = self.loops[:-1]
        self.take("enddo")
        self.semicolon()

    def variable(self):
        """The variable of a loop, which may be declared there."""
        if self.sees("numeric"):
            self.take().text = ""
            return self.declare(self.take(), "numeric")
        word = self.take()
        self.name(word)
        return word.text.lower()

    def statement_while(self):
        word = self.take("while")
        self.hoist = None
        begin = self.at
        do_word = self.condition("do")
        self.turns(word, begin, self.at - 2, do_word, negated=True)

    def statement_do(self):
        word = self.take("do")
        if self.sees("while", "until"):
            until = self.take()
            until.text, self.hoist, begin = "", None, self.at
            self.value()
            self.words[self.at - 1].after += " then break; endif;"
            self.turns(word, begin, self.at - 1, None, negated=until.low == "while")
            return
        if self.sees("varying"):
            self.take()
        else:
            word.after = " varying"
        first = self.at
        variable = self.variable()
        self.take("=")
        start = self.at
        self.value()
        end = self.at
        kind = self.take("while", "until")
        self.hoist, begin = None, self.at
        self.value()
        last, step = self.at - 1, "1"
        if self.sees("by"):
            self.take()
            step_at = self.at
            self.value()
            step = self.now(step_at, self.at - 1)
        if self.is_bounded(variable, start, end, kind, begin, last):
            self.statements()
            self.take("enddo")
            self.semicolon()
        else:
            self.varying(word, first, (begin, last), kind, step)

    def is_bounded(self, variable, start, end, kind, begin, last):
        """Whether a `do` is one that is there, with `while i <= LIMIT` made `until i > LIMIT`."""
        relation = self.words[begin + 1]
        limits = [inline(self.words[start:end]), inline(self.words[begin + 2 : last + 1])]
        simple = all(re.fullmatch(r"(?i)-?\d+|(totocc|maxocc) ?\(\w+\)", it) for it in limits)
        wanted = ">" if kind.low == "until" else "<="
        if not simple or relation.was != wanted or self.words[begin].text.lower() != variable:
            return False
        kind.text, relation.text = "until", ">"
        return True

    def varying(self, word, first, condition, kind, step):
        """A `do` with another condition: its variable counts by statements of its own."""
        begin, last = condition
        variable = self.words[first].text or self.words[first + 1].text
        behind = self.at
        word.text, word.after = "", ""
        self.words[first - 1].text = ""
        counter = self.new_variable("turn")
        test = self.now(begin, last)
        self.drop(begin - 1, behind - 1)
        negated = f"not ({test})" if kind.low == "while" else test
        self.words[begin - 1].space = self.words[begin - 1].space.strip(" ")
        self.words[begin - 1].text = f"; do varying {counter} = 1 until {counter} > {TURNS} if {negated} then break; endif;"
        self.body_of_turns(word, counter, f" {variable} = {variable} + {step};")

    def turns(self, word, first, last, do_word, negated):
        counter = self.new_variable("turn")
        word.text = f"do varying {counter} = 1 until {counter} > {TURNS} if"
        if negated:
            self.words[first].before = "not (" + self.words[first].before
            self.words[last].after = ")" + self.words[last].after
        if do_word:
            do_word.text = "then break; endif;"
        self.body_of_turns(word, counter, "")

    def body_of_turns(self, word, counter, step):
        begin = self.at
        self.statements()
        if step and any(it.low == "next" for it in self.words[begin : self.at]):
            self.leave(word, "`next` in a loop that counts by itself: put the count before it")
        end = self.take("enddo")
        end.before = step.strip() + (" " if step else "") + end.before
        self.semicolon()
        told = f'if {counter} > {TURNS} then errmsg("a loop of {self.proc} took {TURNS} turns"); endif;'
        self.words[self.at - 1].after += " " + told
        self.look(word, f"a loop of at most {TURNS} turns: write the limit that holds")

    def statement_recode(self):
        """A row for each arm of an `if`; a row without ranges is the `else`."""
        word = self.take()
        items, at = [], self.at
        while not self.sees("=>", "->"):
            self.sum()
            items.append(self.now(at, self.at - 1))
            if self.sees(":"):
                self.take()
            at = self.at
        self.take()
        place = self.at
        self.primary()
        to = self.now(place, self.at - 1)
        self.drop(self.words.index(word), self.at - 1)
        self.take(";").text = ""
        word_text, ended = "if", False
        while not self.sees("endrecode", "endbox"):
            ended = self.row(items, to, word_text, ended)
            word_text = "elseif"
        self.take().text = "endif"
        self.semicolon()

    statement_box = statement_recode

    def row(self, items, to, begin_word, ended):
        """A row: a range of each item, and the value. Gives whether no later row can be reached."""
        first, conditions = self.at, []
        for at, item in enumerate(items):
            conditions.append(self.ranges(item))
            if at + 1 < len(items) and not self.sees("=>", "->"):
                self.take(":")
        arrow = self.take("=>", "->")
        begin = self.at
        self.value()
        value = self.now(begin, self.at - 1)
        self.take(";")
        self.drop(first, self.at - 1)
        told = " and ".join(it for it in conditions if it)
        if ended:
            self.leave(arrow, "a row behind one without ranges is not reached")
            return True
        head = f"{begin_word} {told} then" if told else "if 1 then" if begin_word == "if" else "else"
        self.words[first].text = f"{head} {to} = {value};"
        return not told

    def ranges(self, item):
        """The condition of one column of a row; none where it is empty."""
        found = []
        while not self.sees(":", "=>", "->"):
            relation = self.take().low if self.sees("<", "<=", ">", ">=", "<>", "=") else None
            begin = self.at
            self.unary()
            low = self.now(begin, self.at - 1)
            if relation:
                found.append(f"{item} {relation} {low}")
            elif self.sees("-"):
                self.take()
                begin = self.at
                self.unary()
                found.append(f"{item} >= {low} and {item} <= {self.now(begin, self.at - 1)}")
            else:
                found.append(f"{item} = {low}")
            if self.sees(",", "|"):
                self.take()
        return found[0] if len(found) == 1 else f"({' or '.join(found)})" if found else ""

    def statement_impute(self):
        self.take("impute")
        self.take("(")
        kept, self.listing = self.listing, False
        self.primary()
        self.take(",")
        self.value()
        self.listing = kept
        self.take(")")
        self.without_options()

    def without_options(self, kept=()):
        begin = self.at
        while not self.sees(";", *CLOSERS) and self.here().kind != "end":
            self.at += 1
        dropped = [it for it in self.words[begin : self.at] if it.low not in kept]
        if dropped:
            self.look(dropped[0], "taken out: " + inline(dropped))
            for word in dropped:
                word.text = ""
        self.semicolon()

    def statement_errmsg(self):
        self.take("errmsg")
        text = self.here(1)
        if text.kind == "text":
            text.text, done = format_here(text.was)
            for it in done:
                self.look(text, it)
        self.arguments()
        self.without_options(kept=("summary",))

    def statement_exit(self):
        self.take()
        self.semicolon()

    statement_break = statement_next = statement_exit

    # Declarations in a procedure go to PROC GLOBAL, with an assignment in their place.

    def statement_numeric(self):
        kind, start = self.kind_declared()
        while True:
            word = self.take()
            self.hoist = word
            self.declare(word, kind)
            if self.sees("=", ":="):
                self.take().text = "="
                self.value()
            else:
                word.after += f" = {start}"
            if not self.sees(","):
                break
            self.take().text = ";"
        self.semicolon()

    statement_alpha = statement_string = statement_numeric

    def kind_declared(self):
        """Takes the words before the names; gives the kind as it is written here, and what a variable of it begins with."""
        word = self.take()
        kind, length = word.low, ""
        if self.sees("("):
            begin = self.at
            while not self.sees(")"):
                self.take()
            self.take(")")
            length = self.now(begin + 1, self.at - 2)
            self.drop(begin, self.at - 1)
        word.text = ""
        if kind == "numeric":
            return "numeric", "0"
        return f"alpha ({length or (16 if kind == 'alpha' else 255)})", "''"

    def statement_array(self):
        self.leave(self.here(), "an array in a procedure: declare it in PROC GLOBAL")
        self.to_semicolon(self.at)

    def declare(self, word, kind):
        """A variable of a procedure, under a name of its own."""
        name = self.new_name(f"{self.proc}_{word.was}")
        self.names[word.low] = name
        self.moved.append((kind, name))
        word.text = name
        return name.lower()

    def new_variable(self, what):
        name = self.new_name(f"{self.proc}_{what}")
        self.moved.append(("numeric", name))
        return name

    def new_name(self, wanted):
        name, number = wanted[-32:].lstrip("_0123456789"), 2
        while name.lower() in self.taken:
            name, number = f"{wanted[-29:].lstrip('_0123456789')}_{number}", number + 1
        self.taken.add(name.lower())
        return name
