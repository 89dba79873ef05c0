"""Rewrites expressions of CSPro's logic in place. A method reads one, and rewrites what it read."""
from words import inline

RELATIONS = ("=", "<>", "<", "<=", ">", ">=")
SPECIALS = ("notappl", "missing", "default")
LEFT_FUNCTIONS = {
    "average": "a `for` with a sum and a count", "min": "a `for`", "max": "a `for`", "length": "compare whole texts",
    "tonumber": "an item over the digits", "concat": "compare and assign whole texts", "edit": "errmsg with %d",
    "maketext": "errmsg", "pos": "an item over the columns", "sysdate": "the date as a number, in the application's preproc",
    "systime": "the time as a number", "random": "nothing: there are no random numbers", "loadcase": "nothing",
    "selcase": "nothing", "writecase": "nothing", "getvalue": "the item", "setvalueset": "invalueset(X, SET)",
    "insert": "nothing: the lines of a case stay", "delete": "nothing: the lines of a case stay",
    "sort": "nothing: the lines of a case stay", "round": "int, of more digits", "abs": "an `if`",
}  # fmt: skip


class Stop(Exception):
    """What stands here is no logic that is known."""


class Expressions:
    """`words` from `at` on are still to be read. `hoist` is the word before which loops for `count` and the like are put."""

    words, at, hoist = [], 0, None
    names = {}  # what names of forms and of moved variables mean
    loops = []  # the open `for`s: (variable, record)
    proc, item = "", None  # of which PROC the events are; its item
    quotients = []  # (first, last, whether int may stand around it)
    calls = 0

    # What stands at the place that is read.

    def here(self, ahead=0):
        return self.words[min(self.at + ahead, len(self.words) - 1)]

    def sees(self, *texts):
        return self.here().low in texts and self.here().kind != "text"

    def take(self, *texts):
        """Goes on behind a word, which has to be one of these if any are said."""
        if texts and not self.sees(*texts):
            raise Stop(f"{texts[0]} is missing")
        self.at += 1
        return self.words[self.at - 1]

    def drop(self, first, last):
        for word in self.words[first : last + 1]:
            word.text = word.before = word.after = ""

    def now(self, first, last):
        return inline(self.words[first : last + 1])

    # From the loosest to the tightest; each gives its first and last word.

    def value(self):
        """A whole expression, whose quotients become whole."""
        kept, self.quotients = self.quotients, []
        span = self.either()
        for first, last, may in self.quotients:
            if may:
                self.words[first].before = "int(" + self.words[first].before
                self.words[last].after += ")"
                self.look(self.words[first], "int(..) cuts the fraction")
            else:
                self.leave(self.words[first], "a quotient within a larger product: multiply first")
        self.quotients = kept
        return span

    def either(self):
        return self.chain(self.both, {"|": "or", "or": "or"})

    def both(self):
        return self.chain(self.negation, {"&": "and", "and": "and"})

    def chain(self, part, operators):
        first, last = part()
        while self.sees(*operators):
            word = self.take()
            if word.kind != "word":
                word.text = f"{'' if word.space else ' '}{operators[word.low]}{'' if self.here().space else ' '}"
            last = part()[1]
        return first, last

    def negation(self):
        if not self.sees("not", "!"):
            return self.relation()
        first = self.at
        word = self.take()
        if word.low == "!":
            word.text = f"{'' if word.space else ' '}not{'' if self.here().space else ' '}"
        return first, self.negation()[1]

    def relation(self):
        quotients, calls = len(self.quotients), self.calls
        first, last = self.sum()
        if self.sees("in"):
            self.no_quotients(quotients)
            return first, self.membership(first, last, self.calls > calls)
        if self.sees(*RELATIONS):
            self.take()
            last = self.sum()[1]
            self.no_quotients(quotients)
            if self.sees(*RELATIONS, "in"):
                raise Stop("a relation of a relation: write two")
        return first, last

    def no_quotients(self, before):
        for first, _, _ in self.quotients[before:]:
            self.leave(self.words[first], "a fraction is compared: multiply both sides instead")
        del self.quotients[before:]

    def membership(self, first, last, calls):
        """`X in 1:5, 7` becomes `(X >= 1 and X <= 5 or X = 7)`."""
        left, word = self.now(first, last), self.take("in")
        if calls:
            self.leave(word, "a function is called on the left of `in`: assign its result first")
        word.text, open_ = "", self.at
        while True:
            begin = self.at
            if self.sees("special"):
                self.take().text = f"special({left})"
            else:
                self.sum()
                ranged = self.sees(":")
                self.words[begin].before = f"{left} {'>=' if ranged else '='} " + self.words[begin].before
                if ranged:
                    self.take().text = f" and {left} <= "
                    self.sum()
            if not (self.sees(",") and self.is_listed()):
                break
            comma = self.take()
            comma.text = " or" if self.here().space else " or "
        for at in range(first, last + 1):
            # (the left operand stands before each relation now)
            self.words[at].text, self.words[at].after = "", ""
            self.words[at].before = "(" if at == first else ""
        if not self.words[open_ - 1].space.count("\n"):
            self.words[open_ - 1].space = ""
        self.words[open_].space = self.words[open_].space if "\n" in self.words[open_].space else ""
        self.words[self.at - 1].after += ")"
        return self.at - 1

    def is_listed(self):
        """Whether the comma here is of the list of `in`, and not of the arguments around it."""
        return self.listing

    listing = True

    def sum(self):
        first, last = self.product()
        while self.sees("+", "-"):
            self.take()
            last = self.product()[1]
        return first, last

    def product(self):
        before = len(self.quotients)
        first, last = self.unary()
        operators = []
        while self.sees("*", "/", "%", "^"):
            operators.append(self.take().low)
            last = self.unary()[1]
        if operators:
            self.quotients[before:] = [(at, to, False) for at, to, _ in self.quotients[before:]]
        if "^" in operators:
            self.leave(self.words[first], "`^`: multiply")
        if "/" in operators:
            self.quotients.append((first, last, operators.count("/") == 1 and operators[-1] == "/"))
        return first, last

    def unary(self):
        first = self.at
        if self.sees("-", "+"):
            word = self.take()
            word.text = "" if word.low == "+" else "-"
            return first, self.unary()[1]
        return self.primary()

    def primary(self):
        first, word = self.at, self.here()
        if word.kind == "number" and "." in word.was:
            self.leave(word, "a decimal number: count in hundredths, or divide the item")
        if word.kind in ("number", "text"):
            self.take()
        elif self.sees("("):
            self.take()
            kept, self.listing = self.listing, True
            self.either()
            self.listing = kept
            self.take(")")
        elif word.kind == "word" or self.sees("$"):
            self.named()
        else:
            raise Stop(f"`{word.was}` is not understood here")
        return first, self.at - 1

    # Names, and what stands in parentheses behind them.

    def named(self):
        word = self.take()
        special = getattr(self, f"named_{word.low}", None) if word.kind == "word" else None
        if special:
            return special(word)
        if word.low in LEFT_FUNCTIONS and self.sees("("):
            self.leave(word, f"{word.was}: {LEFT_FUNCTIONS[word.low]}")
        name = self.name(word)
        if self.sees("("):
            if not self.is_thing(name):
                self.calls += 1
            self.arguments()
        if self.sees("["):
            self.leave(self.here(), "a part of a text: an item over these columns")
            while not self.sees("]"):
                self.take()
            self.take("]")

    def name(self, word):
        """Writes what a name means here."""
        if word.low == "$":
            if not self.item:
                self.leave(word, "`$` outside the PROC of an item")
                return ""
            word.text = self.item.name
        elif word.low in self.names and not self.dictionary.items.get(word.low):
            word.text = self.names[word.low]
        item = self.dictionary.items.get(word.text.lower())
        if item and item.why_opaque():
            self.leave(word, item.why_opaque())
        return word.text.lower()

    def is_thing(self, name):
        """Whether a name with parentheses is an item or an array, and no function."""
        return name in self.dictionary.items or name in self.arrays or name in ("special", "getdeck")

    def arguments(self):
        """Expressions in parentheses; gives the first and last word of each."""
        self.take("(")
        found, kept, self.listing = [], self.listing, False
        while not self.sees(")"):
            found.append(self.value())
            if not self.sees(")"):
                self.take(",")
        self.listing = kept
        self.take(")")
        return found

    def named_true(self, word):
        word.text = "1"

    def named_false(self, word):
        word.text = "0"

    def named_notappl(self, word):
        return word

    named_missing = named_default = named_notappl

    def named_int(self, word):
        """The last division right inside stays as it is."""
        self.take("(")
        kept, self.quotients = self.quotients, []
        kept_listing, self.listing = self.listing, True
        span = self.either()
        inner, self.quotients, self.listing = self.quotients, kept, kept_listing
        for first, last, may in inner:
            if not may or (first, last) != span:
                self.leave(self.words[first], "`/` stands alone, as the last operator right inside `int`")
        self.take(")")

    def named_strip(self, word):
        """Texts are compared, assigned and listed without trailing blanks in any case."""
        open_ = self.take("(")
        self.either()
        word.text = open_.text = ""
        self.take(")").text = ""

    def record_in_parentheses(self):
        """The record that `(NAME)` or `()` means; the words are rewritten."""
        open_ = self.take("(")
        if self.sees(")"):
            record = self.item.record if self.item else None
            open_.after = record or ""
            if not record or self.item.why_opaque():
                self.leave(open_, "which occurrence: write the record's name, or the number")
        else:
            word = self.take()
            self.name(word)
            of_item = self.dictionary.items.get(word.text.lower())
            record = of_item.record if of_item else word.text
            word.text = record or word.text
        self.take(")")
        return record

    def named_totocc(self, word):
        word.text = "totocc" if word.low in ("noccurs", "soccurs") else word.was
        self.record_in_parentheses()

    named_noccurs = named_soccurs = named_maxocc = named_curocc = named_totocc

    def named_invalueset(self, word):
        """A set with a row for a special value has that value, in CSPro; here no set has."""
        first = self.at - 1
        self.take("(")
        item_word = self.take()
        name = self.name(item_word)
        item = self.dictionary.items.get(name)
        if self.sees("("):
            self.subscript_of_turn(item_word, item)
        chosen = None
        if self.sees(","):
            self.take()
            chosen = self.dictionary.sets.get(self.take().low)
        elif item and item.sets:
            chosen = item.sets[0]
        self.take(")")
        specials = [it for it in SPECIALS if chosen and it in chosen.specials]
        if specials:
            self.words[first].before += "(" + "".join(f"{item_word.text} = {it} or " for it in specials)
            self.words[self.at - 1].after += ")"

    def subscript_of_turn(self, word, item):
        """`invalueset(X(i))` in a `for i` over X's record loses `(i)`."""
        open_ = self.at
        spans = self.arguments()
        variable = self.now(*spans[0]).lower() if len(spans) == 1 else ""
        if item and self.loops and self.loops[-1] == (variable, (item.record or "").lower()):
            self.drop(open_, self.at - 1)
        else:
            self.leave(word, "invalueset of an item with a subscript: a `for` over its record, and the item alone in it")

    # count, sum and seek become loops before the statement.

    def named_count(self, word):
        first = self.at - 1
        self.take("(")
        record_word = self.take()
        self.name(record_word)
        record = self.record_named(record_word)
        if self.sees(")"):
            self.take()
            word.text, record_word.text = "totocc", record
            return
        condition = self.where()
        if not self.may_hoist(word):
            return
        count = self.new_variable("count")
        self.loop(first, record, condition, f"{count} = 0;", f"{count} = {count} + 1;", count)

    def named_sum(self, word):
        first = self.at - 1
        self.take("(")
        item_word = self.take()
        self.name(item_word)
        item = self.dictionary.items.get(item_word.text.lower())
        if not item or not item.record:
            raise Stop("sum of no item of a record")
        condition = self.where() if not self.sees(")") else self.closed()
        if not self.may_hoist(word):
            return
        sum_ = self.new_variable("sum")
        added = f"if not special({item.name}) then {sum_} = {sum_} + {item.name}; endif;"
        self.look(word, "special values are left out of the sum")
        self.loop(first, item.record, condition, f"{sum_} = 0;", added, sum_)

    def named_seek(self, word):
        """`seek(R where C)`, and `seek(X = V)` with X an item of R: the first occurrence, else 0."""
        first = self.at - 1
        self.take("(")
        item = self.dictionary.items.get(self.here().low)
        if item and item.record:
            condition, record = self.hidden(), item.record
        else:
            record_word = self.take()
            self.name(record_word)
            record = self.record_named(record_word)
            condition = self.where()
        if not self.may_hoist(word):
            return
        found = self.new_variable("seek")
        at = self.new_variable("at")
        self.loop(first, record, condition, f"{found} = 0;", f"{found} = {at}; break;", found, at)

    def may_hoist(self, word):
        """Whether a loop may stand before the statement; else the word is left."""
        if self.hoist is None:
            self.leave(word, f"{word.was}: a `for` with a variable, before the statement")
        return self.hoist is not None

    def record_named(self, word):
        known = {it.lower(): it for it in self.dictionary.records}
        if word.text.lower() not in known:
            raise Stop(f"{word.was} is no record")
        return known[word.text.lower()]

    def closed(self):
        self.take(")")
        return ""

    def where(self):
        self.take("where")
        return self.hidden()

    def hidden(self):
        """The condition up to the `)` that closes what is read; nothing may be put before the statement for it."""
        kept, self.hoist, begin = self.hoist, None, self.at
        kept_listing, self.listing = self.listing, True
        self.value()
        self.hoist, self.listing = kept, kept_listing
        condition = self.now(begin, self.at - 1)
        self.take(")")
        return condition

    def loop(self, first, record, condition, start, body, result, variable=None):
        """Puts a loop before the statement, and its result in the place of the words from `first` on."""
        variable = variable or self.new_variable("at")
        body = f"if {condition} then {body} endif;" if condition else body
        self.hoist.before += f"{start} for {variable} in {record} do {body} enddo; "
        self.drop(first, self.at - 1)
        self.words[first].text = result
