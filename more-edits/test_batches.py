#!/usr/bin/env python3
"""Tries which edits go into one check, and what is read from what that check says, on a small crate and without the prover.

usage: more-edits/test_batches.py

Each row of ALONE is an edit that goes into no batch. Each row of PAIRS has two edits, and whether they go into one. Each row of SAID
has what the check of a batch said, how its edits ended by that, and what is to be tried of the others. Each row of PLACES has how an
edit ended by the record, and the paths of the function of that place. Each row of AIMED has what the check of the functions said to
which a single edit leads, what the record says of it, and whether that decides.
Each line that is written is a row that fails, and then the status is 1.
"""
import os
import sys
import tempfile

sys.dont_write_bytecode = True
import aims
import batches
import own
import trying

FILES = {
    "src/lib.rt": "#![tactic(auto)]\nmod rows;\nmod beside;\n",
    "src/rows.rt": """use crate::beside::{half, third};
const MOST: u32 = 10;
pub struct Row { pub size: u32 }
impl Row {
    pub fn put(&mut self, x: u32) -> bool
        ensures { put_in self.old self.new x }
    {
        self.size = half(x);
        (0..3).all(|it| it < 5)
    }
    pub fn count(&self) -> u32
        ensures { result ≡ self.now.size }
    {
        self.size + 0
    }
    fn told(&self) -> bool {
        self.size > 1
    }
}
impl Model for Row {
    fn most(&self) -> u32
        ensures { result ≡ 4 }
    {
        2 + 2
    }
}
pub fn put(x: u32) -> u32
    ensures { result ≡ x }
{
    x + 0
}
const fn least() -> u32
    ensures { result ≡ 1 }
{
    1 * 1
}
fn steps() -> impl Iterator<Item = u32>
    ensures { true ≡ true }
{
    0..9
}
#[cycle(turn)]
fn even(x: u32) -> bool
    ensures { result ≡ is_even x }
{
    x == 0 || odd(x - 1)
}
#[cycle(turn)]
fn odd(x: u32) -> bool
    ensures { result ≡ is_odd x }
{
    x != 0 && even(x - 1)
}
""",
    "src/beside.rt": """impl Row {
    pub fn fifth(&self) -> u32
        ensures { result ≡ self.now.size ÷ 5 }
    {
        self.size / 5
    }
}
pub fn half(x: u32) -> u32
    ensures { result ≡ x ÷ 2 }
{
    x / 2
}
pub fn third(x: u32) -> u32
    ensures { result ≡ x ÷ 3 }
{
    x / 3
}
pub fn fourth(x: u32) -> u32
    ensures { result ≡ x ÷ 4 }
{
    half(half(x))
}
""",
    "proofs/rows/Row/count/Answers.antt": "use Rattle.cse_high.proofs.rows.Row.count.Goals as goal\n\npub returns : goal.returns\nreturns c = refl\n",
    "proofs/rows/Row/fifth/Answers.antt": "pub returns : goal.returns\nreturns c = refl\n",
    "proofs/beside/half/Answers.antt": "pub returns : goal.returns\nreturns c = refl\n",
    "proofs/beside/fourth/Answers.antt": "use Rattle.cse_high.proofs.Laws.{twice}\n\npub returns : goal.returns\nreturns c = twice\n",
    "proofs/Laws.antt": "use Rattle.cse_high.proofs.beside.third.Goals as goal\n\nabbrev pub twice : Type 0\ntwice = goal.returns\n",
}
ROWS, BESIDE = "src/rows.rt", "src/beside.rt"


def edit(file, old, new):
    return f"file: {file}\nold: {old}\nnew: {new}\n"


EDITS = {
    "put": edit(ROWS, "half(x);", "x;"),
    "put_again": edit(ROWS, "it < 5", "it < 2"),
    "count": edit(ROWS, "self.size + 0", "self.size + 1"),
    "put_fn": edit(ROWS, "x + 0", "x + 1"),
    "even": edit(ROWS, "x == 0 ||", "x == 1 ||"),
    "odd": edit(ROWS, "x != 0 &&", "x != 1 &&"),
    "half": edit(BESIDE, "x / 2", "x / 7"),
    "third": edit(BESIDE, "x / 3", "x / 8"),
    "fourth": edit(BESIDE, "half(half(x))", "half(x)"),
    "half_by_third": edit(BESIDE, "x / 2", "third(x)"),
    "third_by_half": edit(BESIDE, "x / 3", "half(x)"),
    "fifth": edit(BESIDE, "self.size / 5", "self.size / 6"),
    "third_with_text": edit(BESIDE, "x / 3", "x / 2"),
}
# (edits that go into no batch)
ALONE = [
    ("turns a constant", edit(ROWS, "u32 = 10", "u32 = 9")),
    ("turns a clause", edit(BESIDE, "x ÷ 3", "x ÷ 2")),
    ("turns a proof", edit("proofs/Laws.antt", "goal.returns", "goal.other")),
    ("turns a function without a clause", edit(ROWS, "self.size > 1", "self.size > 2")),
    ("turns a member of a trait", edit(ROWS, "2 + 2", "2 + 3")),
    ("turns a const fn", edit(ROWS, "1 * 1", "1 * 2")),
    ("turns a function that hides its type", edit(ROWS, "0..9", "0..8")),
    ("turns a body and a clause", edit(ROWS, "x + 0", "x + 1") + "old: result ≡ 4\nnew: result ≡ 5\n"),
    ("calls what calls it", edit(BESIDE, "x / 2", "fourth(x)")),
]
# (two edits, and whether they go into one batch)
PAIRS = [
    ("two methods", "put", "count", True),
    ("one method twice", "put", "put_again", False),
    ("a function and a method of its name", "put", "put_fn", False),
    ("a function and one that it calls", "put", "half", True),
    ("two functions of a cycle", "even", "odd", False),
    ("a function of a cycle and another one", "even", "count", True),
    ("a proof that leads to the goals of the other", "third", "fourth", False),
    ("a proof that does not", "half", "fourth", True),
    ("calls that close a cycle together", "half_by_third", "third_by_half", False),
    ("one such call", "half_by_third", "third", True),
    ("a new text that is the old one of the other", "third_with_text", "half", False),
]
END = "crate cse_high: modules loaded=7 checked=1\nlogic=not-proved\n"
PUT = "note: src/rows.rt:9:1: it is not proved that what the function ensures holds when it returns (`returns`)\n" \
      "fn cse_high::rows::Row::put: no proof: expected answers in ./proofs/rows/Row/put/Answers.antt; `search` did not prove `returns`\n"
CLOSURE = PUT.replace("cse_high::rows::Row::put", "cse_high::rows::fn::Row::put::all")
OTHER_PUT = PUT.replace("Row::put", "put")
PUT_LIMIT = PUT.replace("(`returns`)", "(`returns`); `search` gave up at one of its limits")
COUNT = "./proofs/rows/Row/count/Answers.antt:4:13: error: `returns`: the two types differ\nfn cse_high::rows::Row::count: not proved\n"
COUNT_NAME = COUNT.replace("`returns`: the two types differ", "`returns`: module `Goals` has no `returns` that can be named from here")
HALF = "note: src/beside.rt:4:5: it is not proved that what the function ensures holds when it returns (`returns-then`)\n" \
       "fn cse_high::beside::half: no proof: `search` did not prove `returns-then`\n"
FOURTH = HALF.replace("half", "fourth")
SPOILT = "./src/rows.rt:9:1: error: there is no `halved`\nrattle: no verdict\n"
REFUSED_PUT = ["refused", "rows::Row::put", "returns"]
REFUSED_COUNT = ["refused", "proofs/rows/Row/count/Answers.antt", "returns"]
REFUSED_HALF = ["refused", "beside::half", "returns-then"]
# (what a check of the edits `put`, `count` and `half` said, how these ended by that, and what is to be tried of the others)
ONLY = "crate cse_high: modules loaded=7 checked=1\nonly=9 proved=6\n"
SAID = [
    ("all three are refused, by a check of them alone", COUNT + PUT + HALF + ONLY, {"put": REFUSED_PUT, "count": REFUSED_COUNT, "half": REFUSED_HALF}, []),
    ("all three are proved, by a check of them alone", ONLY.replace("=6", "=9 logic=proved"), {}, ["put", ["count", "half"]]),
    ("a function that they call is refused, by a check of them alone", PUT + HALF + FOURTH + ONLY, {}, ["put", ["count", "half"]]),
    ("all three are refused", COUNT + PUT + HALF + END, {"put": REFUSED_PUT, "count": REFUSED_COUNT, "half": REFUSED_HALF}, []),
    ("one is refused", HALF + END, {"half": REFUSED_HALF}, [["put", "count"]]),
    ("two are refused, and one is not", PUT + HALF + END, {"put": REFUSED_PUT, "half": REFUSED_HALF}, ["count"]),
    ("a closure of one is refused", CLOSURE + HALF + END, {"put": ["refused", "rows::fn::Row::put::all", "returns"], "half": REFUSED_HALF}, ["count"]),
    ("one ends at a limit", PUT_LIMIT + HALF + END, {"half": REFUSED_HALF}, ["put", "count"]),
    ("one ends at a name", PUT + COUNT_NAME + HALF + END, {"put": REFUSED_PUT, "half": REFUSED_HALF}, ["count"]),
    ("a goal of another function is open", PUT + HALF + FOURTH + END, {}, ["put", ["count", "half"]]),
    ("a goal of a function of the same name is open", OTHER_PUT + HALF + END, {}, ["put", ["count", "half"]]),
    ("none is refused", END, {}, ["put", "count", "half"]),
    ("the crate is proved", END.replace("not-proved", "proved functions=9"), {}, ["put", ["count", "half"]]),
    ("a text cannot be read", SPOILT, {}, ["put", ["count", "half"]]),
    ("a text cannot be read, and goals are open", SPOILT.partition("rattle")[0] + PUT + END, {}, ["put", ["count", "half"]]),
]
# (what the check of one edit said, and how it ended by that; nothing where it does not count)
COVERED = "fn cse_high::rows::Row::put: no proof: expected `put_spec` in ./proofs/rows/Row/put/Proof.antt; the borrow checker {} this function yet\n"
OUTCOMES = [
    ("a goal is open", PUT + END, REFUSED_PUT),
    ("a goal is open at a limit", PUT_LIMIT + END, ["limit", "rows::Row::put", "returns"]),
    ("an answer does not fit", COUNT + END, REFUSED_COUNT),
    ("the prover does not cover what was turned", COVERED.format("does not cover") + END, None),
    ("it cannot be read", SPOILT, None),
]
# (how an edit ended by the record, and the paths of the function where)
PLACES = [
    (["refused", "rows::Row::put", "returns"], ["rows::Row::put"]),
    (["refused", "rows::fn::Row::put::all", "returns"], ["rows::Row::put", "rows::Row", "rows"]),
    (["refused", "proofs/rows/Row/count/Answers.antt", "returns"], ["rows::Row::count"]),
    (["limit", "proofs/beside/half/Invariants.antt", "loop-n"], ["beside::half"]),
    (["refused", "proofs/rows/+turn/Answers.antt", "odd-returns"], ["rows::turn", "rows::even", "rows::odd"]),
    (["refused", "proofs/Laws.antt", "twice"], []),
    (["refused", "proofs/rows/Laws.antt", "twice"], []),
    (["told"], []),
    ([], []),
]
# (an edit, what the check of its functions said, what the record says of it, and whether that decides)
AIMED = [
    ("a body, refused", "put", PUT, ["told"], True),
    ("a body, at a limit", "put", PUT_LIMIT, ["told"], True),
    ("a body, refused elsewhere", "put", HALF, ["told"], False),
    ("a body, refused elsewhere too", "put", HALF + PUT, ["told"], False),
    ("a body, refused elsewhere as before", "put", HALF, ["refused", "beside::half", "returns"], True),
    ("a body, at a limit elsewhere", "put", HALF.replace("(`returns-then`)", "(`returns-then`); `search` gave up at one of its limits"), ["told"], False),
    ("a body, proved", "put", "", ["told"], False),
    ("a constant, refused", None, HALF, ["refused", "beside::half", "returns"], True),
    ("a constant, refused elsewhere", None, COUNT, ["refused", "beside::half", "returns"], True),
    ("a constant, at a limit", None, PUT_LIMIT, ["refused", "rows::Row::put", "returns"], False),
    ("a constant, proved", None, "", ["refused", "rows::Row::put", "returns"], False),
]


def names(left):
    return [it if isinstance(it, str) else [one.edit for one in it] for it in left]


def main():
    bad = 0
    with tempfile.TemporaryDirectory() as room:
        folder = os.path.join(room, "cse_high")
        for path, text in FILES.items():
            os.makedirs(os.path.dirname(os.path.join(folder, path)), exist_ok=True)
            with open(os.path.join(folder, path), "w", encoding="utf-8") as it:
                it.write(text)
        crate = own.Own(folder)
        for what, text in ALONE:
            if batches.turned(crate, what, text):
                print(f"an edit that {what}: it goes into a batch")
                bad += 1
        for what, one, other, is_together in PAIRS:
            made, alone = batches.made(crate, {it: EDITS[it] for it in (one, other)}, folder)
            if (len(made) == 1) != is_together or len(alone) != 2 * (not is_together):
                print(f"{what}: they go into {'two batches' if is_together else 'one batch'}")
                bad += 1
        for most, sizes in ((2, [2, 2]), (3, [2, 2]), (4, [4])):
            made, _ = batches.made(crate, {it: EDITS[it] for it in ("put", "count", "half", "even")}, folder, most)
            if [len(it) for it in made] != sizes:
                print(f"four edits, {most} in a batch: {[len(it) for it in made]}")
                bad += 1
        batch = batches.made(crate, {it: EDITS[it] for it in ("put", "count", "half")}, folder)[0][0]
        texts, _ = batches.applied(batch, folder)
        if "self.size = x;" not in texts[ROWS] or "self.size + 1" not in texts[ROWS] or "x / 7" not in texts[BESIDE]:
            print("three edits: not all of them are applied")
            bad += 1
        fifth = batches.turned(crate, "fifth", EDITS["fifth"])
        if not fifth.owns("rows::Row::fifth") or not fifth.owns("proofs/rows/Row/fifth/Answers.antt") or fifth.owns("rows::Row"):
            print("a method that stands beside another module than its type: its goals are not found")
            bad += 1
        most = next(it for it in crate.functions if it.name == "most")
        if aims.paths_of(crate, most) != ["rows::RowModel::most"]:
            print(f"a member of a trait: {aims.paths_of(crate, most)}")
            bad += 1
        for how, paths in PLACES:
            if aims.paths_at(crate, how) != paths:
                print(f"{' '.join(how)}: {aims.paths_at(crate, how)}")
                bad += 1
        for what, name, said, past, is_decided in AIMED:
            turned = batches.turned(crate, name, EDITS[name]) if name else None
            if batches.decides(said + ONLY, 1 if said else 0, texts, turned, past) != is_decided:
                print(f"{what}: it {'does not decide' if is_decided else 'decides'}")
                bad += 1
        for what, said, ended, left in SAID:
            found = batches.split(said, 0 if "logic=proved" in said else 1, texts, batch)
            if (found[0], names(found[1])) != (ended, left):
                print(f"{what}: {found[0]}, left {names(found[1])}")
                bad += 1
    for what, said, ended in OUTCOMES:
        if trying.outcome(said, 1, texts)[0] != ended:
            print(f"{what}: {trying.outcome(said, 1, texts)}")
            bad += 1
    print(f"{len(ALONE) + len(PAIRS) + len(SAID) + len(PLACES) + len(AIMED) + len(OUTCOMES) + 6} rows, {bad} fail")
    return int(bad > 0)


if __name__ == "__main__":
    sys.exit(main())
