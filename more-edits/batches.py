"""Which edits of a crate can be tried in one check, and what that check tells of each.

The prover proves a function from its own body and from the clauses of what it calls, and goes on behind one that it cannot prove.
So edits that turn the bodies of different functions say nothing of one another, but where something else reads a body.
"""
import functools
import re

import own
import trying

MOST = 12


class Turned:
    """An edit that turns bodies of functions alone: these, the names that it brings in, and the files of their proofs."""

    def __init__(self, crate, edit, text, functions):
        self.edit, self.functions, self.pairs = edit, functions, list(trying.pairs(text))
        self.keys = {id(it) for it in functions}
        self.names = {(it.file, it.name) for it in functions}
        self.places = {place for it in functions for place in places_of(crate, it)}
        self.cycles = {name for it in functions for name in re.findall(r"#\[cycle\((\w+)\)\]", it.attributes)}
        self.new = own.names_in(" ".join(new for _, _, new in self.pairs))
        self.more = {id(it): called_anew(crate, it, self.new) for it in functions}
        self.below = reach(calls_of(crate), functions, self.more)
        pieces = [piece for it in functions for piece in crate.proofs_of(it)]
        self.proofs, self.cited = {it.file for it in pieces}, cited_of(pieces)

    def owns(self, place):
        """Whether an open goal is of one of the functions: of the function, of a loop or a closure in it, or of its proof."""
        parts = place.split("::")
        inner = [it for it in parts if it != "fn"]
        fronts = {"::".join(inner[:k]) for k in range(1, len(inner))} if len(inner) < len(parts) else {place}
        return place in self.proofs or bool(fronts & self.places)

    def cites(self, other):
        """Whether the proof leads to the proof of a function that the other one turns."""
        folders = [path.rpartition("/")[0].replace("/", ".") for path in other.proofs]
        folders += ["proofs." + place.replace("::", ".") for place in other.places]
        return bool(self.cited & other.proofs) or any(f".{it}." in f"{path}." for it in folders for path in self.cited)

    def is_apart(self, other):
        """Whether the goals of the one say nothing of the other's functions, but their clauses."""
        if self.names & other.names or self.places & other.places or self.cycles & other.cycles or self.proofs & other.proofs:
            return False
        if self.below & other.keys and other.below & self.keys:
            return False
        return not self.cites(other) and not other.cites(self)

    def waits(self, other):
        """Whether goals may wait for the other one's proof, so that the check may not come to them."""
        return bool(self.proofs and self.below & other.keys)


def called_anew(crate, function, new):
    """The functions whose names an edit brings into the body of a function."""
    known = crate.calls[0]
    old = own.names_in("".join(function.tokens[function.head:function.end + 1]))
    return [it for name in (new & known.keys()) - old for it in known[name]]


@functools.lru_cache(maxsize=None)
def calls_of(crate):
    """The functions that each function calls by name, with arguments: closer than what it may call."""
    known = crate.calls[0]
    found = {}
    for it in crate.functions:
        body = it.tokens[it.head:it.end + 1]
        names = {name for name, after in zip(body, body[1:]) if after in "(:" and name in known}
        found[id(it)] = [callee for name in names for callee in known[name]]
    return found


def reach(calls, functions, more):
    """The functions that these call, and those that these call in turn."""
    seen, todo = set(), [callee for it in functions for callee in calls[id(it)] + more.get(id(it), [])]
    while todo:
        it = todo.pop()
        if id(it) not in seen:
            seen.add(id(it))
            todo += calls[id(it)] + more.get(id(it), [])
    return seen


def closes_cycle(crate, turned):
    """Whether a call that these edits bring in may lead back to where it stands."""
    more = {key: callees for it in turned for key, callees in it.more.items()}
    return any(callees and key in {id(it) for it in callees} | reach(crate.calls[1], callees, more) for key, callees in more.items())


def cited_of(pieces):
    """The other files that pieces of proofs lead to, and the paths that stand in them or in these."""
    seen, todo = {id(it): it for it in pieces}, list(pieces)
    while todo:
        for it in todo.pop().leads:
            if id(it) not in seen:
                seen[id(it)] = it
                todo.append(it)
    paths = {path.replace("::", ".") for it in seen.values() for path in it.paths}
    return {it.file for it in seen.values()} | {it for it in paths if ".proofs." in it}


def places_of(crate, function):
    """The names, below its crate, that a function may have in what the prover says. One of a closure has `fn` in it."""
    return ["::".join([*module, *([function.owner] if function.owner else []), function.name]) for module in crate.modules_of(function)]


def turned(crate, edit, text):
    """What an edit turns, where it can be tried beside others. Nothing where it turns something else than bodies, where callers
    read such a body, and where a call may close a cycle."""
    functions = crate.touched(list(trying.pairs(text)))
    if not functions or any(it.kind == "member" or it.is_read() for it in functions):
        return None
    found = Turned(crate, edit, text, functions)
    return None if closes_cycle(crate, [found]) else found


def applied(batch, folder):
    """The texts with all edits of a batch, or why they cannot be applied side by side."""
    lines = []
    for it in batch:
        for path, old, new in it.pairs:
            lines += [f"file: {path}", f"old: {old}", f"new: {new}"]
    return trying.applied("\n".join(lines), folder)


def fits(crate, batch, more, folder):
    return all(more.is_apart(it) for it in batch) and not closes_cycle(crate, [*batch, more]) and not applied([*batch, more], folder)[1]


def made(crate, edits, folder, most=MOST, lines={}):
    """The edits of a crate in batches: each a list of what its edits turn; and those that are tried alone. One that by these lines of the
    record was refused at a function that it does not turn would spoil its batch."""
    known = {edit: turned(crate, edit, text) for edit, text in edits.items()}
    for edit, it in known.items():
        past = lines.get(edit, [])[2:]
        known[edit] = it if len(past) < 2 or it and it.owns(past[1]) else None
    alone, together = [edit for edit, it in known.items() if not it], [it for it in known.values() if it]
    batches = [[] for _ in range(-(-len(together) // most))]
    for it in together:
        room = [batch for batch in batches if len(batch) < most and fits(crate, batch, it, folder)]
        if not room:
            room = [[]]
            batches += room
        # (there it goes where the fewest goals wait for another's proof)
        min(room, key=lambda batch: (sum(it.waits(other) or other.waits(it) for other in batch), len(batch))).append(it)
    alone += [batch[0].edit for batch in batches if len(batch) == 1]
    return [batch for batch in batches if len(batch) > 1], alone


def ended(said, status, texts, batch):
    """How each edit of a batch ended that was refused at a function that it turns; those whose functions have no open goal, for
    they may wait for another's; and the goals elsewhere, at which a batch should have none. Nothing where the check did not reach
    the prover."""
    lines = said.split("\n")
    if not trying.is_told(lines, status) or any(trying.unread(it, texts) for it in lines):
        return None
    found, unseen, goals = {}, [], list(trying.places(lines))
    for it in batch:
        shown = [goal for goal in goals if it.owns(goal[0])]
        false = next((["refused", *goal[:2]] for goal in shown if not goal[2]), None)
        if false:
            found[it.edit] = false
        elif not shown:
            unseen.append(it)
    return found, unseen, [goal for goal in goals if not goal[2] and not any(it.owns(goal[0]) for it in batch)]


def decides(said, status, texts, turned, past):
    """Whether a check of single functions decides how an edit ended that by the record ended like `past` before. Where it turns bodies
    alone, no other goal may be open than those of what it turns, or that where it was refused. Any other edit must be refused."""
    how = trying.outcome(said, status, texts)[0]
    if not how:
        return False
    if not turned:
        return how[0] == "refused"
    is_there = how[0] == "refused" and how[1:2] == past[1:2]
    return is_there or all(turned.owns(goal[0]) for goal in trying.places(said.split("\n")))


def split(said, status, texts, batch):
    """How the edits of a batch ended that it decides, and what is to be tried of the others: batches, and the names of single edits."""
    told = ended(said, status, texts, batch)
    if told is None or told[2]:
        half = len(batch) // 2
        return {}, [part if len(part) > 1 else part[0].edit for part in (batch[:half], batch[half:])]
    found, unseen, _ = told
    again = [unseen] if found and len(unseen) > 1 else []
    return found, again + [it.edit for it in batch if it.edit not in found and not (again and it in unseen)]
