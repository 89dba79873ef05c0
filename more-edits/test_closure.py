#!/usr/bin/env python3
"""Tries what changes the hash of an edit, on a repository of two small crates.

usage: more-edits/test_closure.py

Each row of CHANGES turns one text of one file. The hash of the edit of the body of `Row::put` has to change, or has to stay.
Each row of RENAMINGS has words that `--carry` takes for a renaming, or refuses. Each row of MOVED turns one text of the tree in which
modules have moved to a crate below: the hash has to be that of the tree before with its files moved, or another one. So has that of each
row of GONE, in which a crate went into another one. Each row of NO_MOVES turns that tree, or the moves, into what `--carry` refuses.
Each line that is written is a row that fails, and then the status is 1.
"""
import os
import re
import sys
import tempfile

sys.dont_write_bytecode = True
import carry
import closure

FILES = {
    "crates.txt": "cse_low:\ncse_high: cse_low arrayvec\n",
    "crates/cse_low/src/lib.rt": """#![tactic(auto)]
mod hidden;
pub mod shown;
ghost use Rattle.cse_low.specs.Low.{low_of, other_low};
/// A low row.
pub struct Low { pub size: u32, pub seen: Seen }
/// What is kept in a way that no other crate reads.
pub struct Seen { table: Vec<(u32, u32)>, pub(crate) least: u32, pub most: u32 }
impl Model for Seen {
    ghost Value = { List ℕ };
    ghost view = { λ s. map (λ e. e.0) s.table.items };
    ghost invariant = { λ s. s.least ≤ s.most };
}
/// The low number.
pub fn low(x: &Low) -> u32
    ensures { result ≡ low_of x.now }
{
    x.size
}
/// Another one.
pub fn other(x: &Low) -> u32
    ensures { result ≡ other_low x.now }
{
    x.size
}
""",
    "crates/cse_low/src/hidden.rt": "pub fn half(x: u32) -> u32\n    ensures { result ≡ x }\n{\n    x\n}\n",
    "crates/cse_low/src/shown.rt": "pub fn twice(x: u32) -> u32\n    ensures { result ≡ x }\n{\n    x\n}\npub(crate) fn half(x: u32) -> u32\n    ensures { result ≡ x }\n{\n    x\n}\n",
    "crates/cse_low/specs/Low.antt": "use Rattle.cse_low.specs.declared.Low.{Low}\n\nabbrev pub low_of : Low → ℕ\nlow_of x = x.size\n",
    "crates/cse_high/src/lib.rt": """#![tactic(auto)]
mod rows;
mod beside;
""",
    "crates/cse_high/src/rows.rt": """//! Rows.
ghost use Rattle.cse_high.specs.Rows.{put_in, is_kept};
ghost use Rattle.cse_high.specs.Twice.{same as twice};

use crate::beside::{Kept, half};
use cse_low::{Low, low};

const MOST: u32 = 10;

pub struct Row {
    pub kept: Kept,
    pub low: Low,
}

impl Row {
    /// Puts one.
    pub fn put(&mut self, x: u32) -> bool
        ensures { put_in self.old self.new x }
        ensures { twice x }
    {
        if low(&self.low) > MOST {
            return false;
        }
        self.kept.keep(half(x));
        told(x)
    }

    /// How many there are.
    pub fn count(&self) -> u32
        ensures { is_kept result }
    {
        self.kept.size
    }
}

fn told(x: u32) -> bool {
    x > 1
}
""",
    "crates/cse_high/src/beside.rt": """ghost use Rattle.cse_high.specs.Rows.{half_of};

pub struct Kept { pub size: u32 }

impl Model for Kept {
    ghost invariant = { λ k. k.size ≤ 9 };
}

impl Kept {
    pub fn keep(&mut self, x: u32)
        ensures { self.new.size ≡ x }
    {
        self.size = x;
    }
}

/// The half.
pub fn half(x: u32) -> u32
    ensures { result ≡ half_of x }
{
    x / 2
}

fn unnamed(x: u32) -> u32
    ensures { result ≡ half_of x }
{
    x / 2
}

pub fn back(row: &mut Row) -> bool
    ensures { result ≡ true }
{
    row.put(1)
}
""",
    "crates/cse_high/specs/Rows.antt": """-- Rows.
use Rattle.std.specs.Prelude.{ℕ, ◌+◌}
use Rattle.cse_high.specs.Steps.{step}
use Rattle.cse_high.specs.declared.rows.Row.{Row}

abbrev pub put_in : Row → Row → ℕ → Type 0
put_in old new x = new.kept.size ≡ step x

abbrev pub is_kept : ℕ → Type 0
is_kept n = n ≡ 7

abbrev pub half_of : ℕ → ℕ
half_of x = x ÷ 2
""",
    "crates/cse_high/specs/Steps.antt": """use Rattle.cse_high.specs.Deep.{deep}

unfoldable pub step : ℕ → ℕ
unfolding deep
step x = deep x

abbrev pub unused : ℕ → ℕ
unused x = x
""",
    "crates/cse_high/specs/Deep.antt": """infixl 10 ◌⊞◌
abbrev pub ◌⊞◌ : ℕ → ℕ → ℕ
a ⊞ b = a

unfoldable mutual
  pub deep : ℕ → ℕ
  deep x = x ⊞ deeper x

  pub deeper : ℕ → ℕ
  deeper x = 3
""",
    "crates/cse_high/specs/Twice.antt": "abbrev pub same : ℕ → Type 0\nsame x = x ≡ x\n",
    "crates/cse_high/specs/Again.antt": "abbrev pub same : ℕ → Type 0\nsame x = x ≡ 2\n",
    "crates/cse_high/proofs/rows/Row/put/Answers.antt": """use Rattle.cse_high.proofs.Laws.{half-even, tail}
use Rattle.cse_high.proofs.rows.Row.put.Goals as goal

pub returns : goal.returns
returns c = half-even c.args.x (tail 2)
""",
    "crates/cse_high/proofs/rows/Row/count/Answers.antt": "pub returns : goal.returns\nreturns c = refl\n",
    "crates/cse_high/proofs/Laws.antt": """module _ (n : ℕ) where
  pub half-even : (x : ℕ) → half x
  half-even x = omega arith

pub odd : (x : ℕ) → odd x
odd x = omega arith

abbrev pub tail : ℕ → ℕ
tail x = x
""",
}
EDIT = "file: src/rows.rt\nold:         self.kept.keep(half(x));\nnew:         self.kept.keep(half(x) + 1);\n"
CALL = "file: src/rows.rt\nold:         self.kept.keep(half(x));\nnew:         back(self);\n"
BODY = "crates/cse_high/src/rows.rt"
BESIDE = "crates/cse_high/src/beside.rt"
LAWS = "crates/cse_high/proofs/Laws.antt"
LOW = "crates/cse_low/src/lib.rt"
ANSWERS = "crates/cse_high/proofs/rows/Row/put/Answers.antt"
STAYS, CHANGES = False, True

ROWS = [
    ("a comment of the file", BODY, "//! Rows.", "//! Other rows.\n// More.", STAYS),
    ("a comment of a definition", "crates/cse_high/specs/Rows.antt", "-- Rows.", "-- Other rows.", STAYS),
    ("the body of a called function", BESIDE, "{\n    x / 2\n}\n\nfn un", "{\n    x >> 1\n}\n\nfn un", STAYS),
    ("the body of a called method", BESIDE, "self.size = x;", "let y = x; self.size = y;", STAYS),
    ("the body of another method", BODY, "self.kept.size\n", "(self.kept.size)\n", STAYS),
    ("a clause of a function that is not named", BESIDE, "fn unnamed(x: u32) -> u32\n    ensures", "fn unnamed(x: u32) -> u32\n    requires { x < 3 }\n    ensures", STAYS),
    ("another name of a function that is not named", BESIDE, "fn unnamed", "fn nameless", STAYS),
    ("a new function", BODY, "fn told", "fn new_one(x: u32) -> bool\n    ensures { result ≡ true }\n{\n    told(x)\n}\n\nfn told", STAYS),
    ("an import that the function does not name", BODY, "use crate::beside", "use arrayvec::ArrayVec;\nuse crate::beside", STAYS),
    ("the proof of a cited lemma", LAWS, "  half-even x = omega arith", "  half-even x = search rules", STAYS),
    ("the proof of another lemma", LAWS, "odd x = omega arith", "odd x = search rules", STAYS),
    ("the statement of another lemma", LAWS, "pub odd : (x : ℕ) → odd x", "pub odd : (x : ℕ) → even x", STAYS),
    ("the proof of another function", "crates/cse_high/proofs/rows/Row/count/Answers.antt", "refl", "cc", STAYS),
    ("a definition that is not cited", "crates/cse_high/specs/Rows.antt", "n ≡ 7", "n ≡ 8", STAYS),
    ("a definition that is not cited, beside a cited one", "crates/cse_high/specs/Steps.antt", "unused x = x", "unused x = 1", STAYS),
    ("a body of the crate below", "crates/cse_low/src/lib.rt", "x.size\n}\n/// An", "(x.size)\n}\n/// An", STAYS),
    ("a private field of a type with a value, of the crate below", LOW, "table: Vec<(u32, u32)>", "table: Vec<u32>, more: u8", STAYS),
    ("a field of the crate below that its own crate reads", LOW, "pub(crate) least: u32", "pub(crate) least: u64", STAYS),
    ("how a type of the crate below is viewed", LOW, "λ e. e.0) s", "λ e. e.1) s", STAYS),
    ("the invariant of a type of the crate below", LOW, "s.least ≤ s.most", "s.least < s.most", STAYS),
    ("a public field of a type with a value, of the crate below", LOW, "pub most: u32", "pub most: u64", CHANGES),
    ("the value of a type of the crate below", LOW, "ghost Value = { List ℕ }", "ghost Value = { List ℤ }", CHANGES),
    ("that a type of the crate below is compared", LOW, "/// A low row.", "#[derive(PartialEq, Eq)]", STAYS),
    ("that a type of the crate below is copied", LOW, "/// A low row.", "#[derive(Clone, Copy, PartialEq)]", CHANGES),
    ("that a type of the crate is compared", BESIDE, "pub struct Kept {", "#[derive(PartialEq)] pub struct Kept {", STAYS),
    ("that a type of the crate is copied", BESIDE, "pub struct Kept {", "#[derive(PartialEq, Clone)] pub struct Kept {", CHANGES),
    ("a type of the crate below that loses its value", LOW, "impl Model for Seen {", "impl Other for Seen {", CHANGES),
    ("a clause of the crate below that is not named", "crates/cse_low/src/lib.rt", "other_low x.now", "low_of x.now", STAYS),
    ("the body of the edited function", BODY, "return false;", "return true;", CHANGES),
    ("a clause of the edited function", BODY, "ensures { put_in self.old self.new x }", "ensures { put_in self.new self.old x }", CHANGES),
    ("a clause of a called function", BESIDE, "pub fn half(x: u32) -> u32\n    ensures { result ≡ half_of x }", "pub fn half(x: u32) -> u32\n    ensures { result ≡ x }", CHANGES),
    ("a clause of a called method", BESIDE, "self.new.size ≡ x", "self.new.size ≡ 1", CHANGES),
    ("the body of a called function that has no clause", BODY, "x > 1", "x > 2", CHANGES),
    ("a constant that it names", BODY, "MOST: u32 = 10", "MOST: u32 = 11", CHANGES),
    ("a field of its type", BODY, "pub kept: Kept,", "pub kept: Kept, pub more: u8,", CHANGES),
    ("a field of a type of a field", BESIDE, "pub struct Kept { pub size: u32 }", "pub struct Kept { pub size: u64 }", CHANGES),
    ("an invariant of a type of a field", BESIDE, "k.size ≤ 9", "k.size ≤ 8", CHANGES),
    ("a definition that a clause cites", "crates/cse_high/specs/Rows.antt", "new.kept.size ≡ step x", "new.kept.size ≡ step 1", CHANGES),
    ("a definition that the clause of a callee cites", "crates/cse_high/specs/Rows.antt", "x ÷ 2", "x ÷ 3", CHANGES),
    ("a definition two steps away", "crates/cse_high/specs/Steps.antt", "step x = deep x", "step x = deep 1", CHANGES),
    ("a definition four steps away", "crates/cse_high/specs/Deep.antt", "deeper x = 3", "deeper x = 4", CHANGES),
    ("an operator", "crates/cse_high/specs/Deep.antt", "a ⊞ b = a", "a ⊞ b = b", CHANGES),
    ("how an operator binds", "crates/cse_high/specs/Deep.antt", "infixl 10", "infixr 10", CHANGES),
    ("which of two definitions of a name is imported", BODY, "specs.Twice.{same", "specs.Again.{same", CHANGES),
    ("the statement of a lemma that its proof cites", LAWS, "pub half-even : (x : ℕ) → half x", "pub half-even : (x : ℕ) → half 1", CHANGES),
    ("the section of a lemma that its proof cites", LAWS, "module _ (n : ℕ)", "module _ (n : ℤ)", CHANGES),
    ("a definition that other files may unfold", LAWS, "tail x = x", "tail x = 0", CHANGES),
    ("its proof", ANSWERS, "c.args.x", "c.args.self", CHANGES),
    ("the attribute of the root", "crates/cse_high/src/lib.rt", "#![tactic(auto)]", "#![tactic(auto, using(crate::proofs::Laws::odd))]", CHANGES),
    ("the crate's line", "crates.txt", "cse_low arrayvec", "cse_low", CHANGES),
    ("a clause of the crate below", "crates/cse_low/src/lib.rt", "result ≡ low_of x.now", "result ≡ 1", CHANGES),
    ("a definition of the crate below", "crates/cse_low/specs/Low.antt", "low_of x = x.size", "low_of x = 1", CHANGES),
    ("a drop of a type of the crate below that is derived", "crates/cse_low/src/lib.rt", "/// A low row.\n", "/// A low row.\n#[derive(Drop)]\n", STAYS),
    ("a clause of a function of a private module below that bears a name which is said", "crates/cse_low/src/hidden.rt", "result ≡ x", "result ≤ x", STAYS),
    ("one that a crate keeps for itself, in a public module", "crates/cse_low/src/shown.rt", "fn half(x: u32) -> u32\n    ensures { result ≡ x }", "fn half(x: u32) -> u32\n    ensures { result ≤ x }", STAYS),
    ("one in a public module", "crates/cse_low/src/shown.rt", "pub(crate) fn half", "pub fn half", CHANGES),
    ("what a trait that others can name has for a type of the crate below", "crates/cse_low/src/lib.rt", "/// A low row.\n", "pub trait Weighs {\n    ghost weight: { Self → ℕ };\n}\nimpl Weighs for Low {\n    ghost weight = { λ x. x.size };\n}\n/// A low row.\n", CHANGES),
    ("what a trait that its crate keeps for itself has", "crates/cse_low/src/lib.rt", "/// A low row.\n", "pub(crate) trait Weighs {\n    ghost weight: { Self → ℕ };\n}\nimpl Weighs for Low {\n    ghost weight = { λ x. x.size };\n}\n/// A low row.\n", STAYS),
    ("one that is written out", "crates/cse_low/src/lib.rt", "/// A low row.\n", "impl Drop for Low {\n    fn drop(self) {\n        let Low { size: _, seen: _ } = self;\n    }\n}\n/// A low row.\n", STAYS),
    ("one with a clause", "crates/cse_low/src/lib.rt", "/// A low row.\n", "impl Drop for Low {\n    fn drop(self)\n        ensures { self.size ≡ 1 }\n    {\n        let Low { size: _, seen: _ } = self;\n    }\n}\n/// A low row.\n", CHANGES),
    ("a field of a type of the crate below", "crates/cse_low/src/lib.rt", "pub struct Low { pub size: u32,", "pub struct Low { pub size: u64,", CHANGES),
]
# (of an edit that ended at a limit, was refused elsewhere, or turns no body, the whole crate counts)
WHOLE = [
    ("ended at a limit", EDIT, ["limit", "rows::Row::put", "returns"]),
    ("was refused elsewhere", EDIT, ["refused", "rows::Row::count", "returns"]),
    ("turns a clause", EDIT.replace("self.kept.keep(half(x));", "ensures { put_in self.old self.new x }"), ["refused", "rows::Row::put", "returns"]),
    ("turns a constant", "file: src/rows.rt\nold: u32 = 10\nnew: u32 = 9\n", ["told"]),
    ("turns a definition", "file: specs/Rows.antt\nold: n ≡ 7\nnew: n ≡ 6\n", ["told"]),
]
# (renamings: the words, what is renamed, and whether that is a renaming of the one tree into the other)
RENAMINGS = [
    ({"half": "halved"}, {"half": "halved"}, True),
    ({"Kept": "Held", "cse_low": "cse_below"}, {"Kept": "Held", "cse_low": "cse_below"}, True),
    ({"half": "put"}, {"half": "put"}, False),
    ({"half": "halved"}, {}, False),
    ({"nowhere": "there"}, {}, False),
    ({"Prelude": "Prologue"}, {"Prelude": "Prologue"}, False),
]

MOVES = {f"cse_high::{it}": f"cse_middle::{it}" for it in ("beside", "specs::Deep", "proofs::Laws")}
# (the tree in which they have moved; that its crates would name one another is no matter of hashes)
MIDDLE = "crates/cse_middle/"
AFTER = {
    **{path: text for path, text in FILES.items() if path not in (BESIDE, LAWS, "crates/cse_high/specs/Deep.antt")},
    "crates.txt": "cse_low:\ncse_middle:\ncse_high: cse_low cse_middle arrayvec\n",
    MIDDLE + "src/lib.rt": "//! The middle.\n#![tactic(auto)]\npub mod beside;\n",
    MIDDLE + "src/beside.rt": FILES[BESIDE],
    MIDDLE + "specs/Lib.antt": "pub mod Deep\n",
    MIDDLE + "specs/Deep.antt": FILES["crates/cse_high/specs/Deep.antt"],
    MIDDLE + "proofs/Laws.antt": FILES[LAWS],
    "crates/cse_high/src/lib.rt": "#![tactic(auto)]\nmod rows;\n",
    BODY: FILES[BODY].replace("use crate::beside", "use cse_middle::beside"),
    "crates/cse_high/specs/Steps.antt": FILES["crates/cse_high/specs/Steps.antt"].replace("cse_high.specs.Deep", "cse_middle.specs.Deep"),
    ANSWERS: FILES[ANSWERS].replace("cse_high.proofs.Laws", "cse_middle.proofs.Laws"),
}
# (where these modules go, they may get other names)
OTHER_NAMES = {"beside": "near", "Deep": "Depths", "Laws": "DeepLaws"}
MOVED = [
    ("nothing", BODY, "//! Rows.", "//! Rows.", STAYS),
    ("a comment of a file that moved", MIDDLE + "src/beside.rt", "/// The half.", "/// The other half.", STAYS),
    ("the body of a called function that moved", MIDDLE + "src/beside.rt", "{\n    x / 2\n}\n\nfn un", "{\n    x >> 1\n}\n\nfn un", STAYS),
    ("a clause of a function that moved", MIDDLE + "src/beside.rt", "pub fn half(x: u32) -> u32\n    ensures { result ≡ half_of x }", "pub fn half(x: u32) -> u32\n    ensures { result ≡ x }", CHANGES),
    ("an invariant of a type that moved", MIDDLE + "src/beside.rt", "k.size ≤ 9", "k.size ≤ 8", CHANGES),
    ("a definition that moved", MIDDLE + "specs/Deep.antt", "deeper x = 3", "deeper x = 4", CHANGES),
    ("the statement of a lemma that moved", MIDDLE + "proofs/Laws.antt", "(x : ℕ) → half x", "(x : ℕ) → half 1", CHANGES),
    ("a definition that stayed", "crates/cse_high/specs/Steps.antt", "step x = deep x", "step x = deep 1", CHANGES),
    ("the body of the edited function", BODY, "return false;", "return true;", CHANGES),
]
# (a crate whose modules all go to the one above it, and what its root gave by a list and alone)
STONE, ROOT = "crates/cse_ground/src/stone.rt", "crates/cse_high/src/lib.rt"
WITH_GROUND = {
    **FILES,
    "crates.txt": "cse_low:\ncse_ground:\ncse_high: cse_low cse_ground arrayvec\n",
    "crates/cse_ground/src/lib.rt": "#![tactic(auto)]\nmod stone;\npub use stone::{lift, weigh};\n",
    STONE: "pub fn weigh(x: u32) -> u32\n    ensures { result ≡ x }\n{\n    x\n}\n\npub fn lift(x: u32) -> u32\n    ensures { result ≡ 1 }\n{\n    1\n}\n",
    BODY: FILES[BODY].replace("use crate::beside", "use cse_ground::lift;\nuse cse_ground::{weigh};\nuse crate::beside").replace("(half(x))", "(half(weigh(lift(x))))"),
}
GROUND_EDIT = EDIT.replace("(half(x))", "(half(weigh(lift(x))))")
WITHOUT_GROUND = {
    **{path: text for path, text in WITH_GROUND.items() if "cse_ground" not in path},
    "crates.txt": FILES["crates.txt"],
    ROOT: FILES[ROOT] + "mod stone;\npub use stone::{lift, weigh};\n",
    "crates/cse_high/src/stone.rt": WITH_GROUND[STONE],
    BODY: WITH_GROUND[BODY].replace("cse_ground::", "crate::"),
}
GROUND_MOVES = {"cse_ground::stone": "cse_high::stone"}
GONE = [
    ("nothing", BODY, "//! Rows.", "//! Rows.", STAYS),
    ("a clause of what is imported in a list", "crates/cse_high/src/stone.rt", "result ≡ x", "result ≡ 2", CHANGES),
    ("a clause of what is imported alone", "crates/cse_high/src/stone.rt", "result ≡ 1", "result ≡ 2", CHANGES),
]
NO_MOVES = [
    ("a file that stayed", {BESIDE: FILES[BESIDE]}, {}),
    ("a module that was not there", {}, {"cse_high::nowhere": "cse_middle::nowhere"}),
    ("a module of another kind", {}, {"cse_high::beside": "cse_middle::specs::Deep"}),
    ("a root with an item", {MIDDLE + "src/lib.rt": "#![tactic(auto)]\npub mod beside;\npub const MOST: u32 = 1;\n"}, {}),
    ("a root with another attribute", {MIDDLE + "src/lib.rt": "pub mod beside;\n"}, {}),
    ("a root of definitions that has one", {MIDDLE + "specs/Lib.antt": "pub mod Deep\nabbrev pub one : ℕ\none = 1\n"}, {}),
]


def turned(text, names):
    """A text with other words."""
    return re.sub(r"(?<![\w'])\w+(?![\w'])", lambda it: names.get(it[0], it[0]), text)


def renamed(names):
    """The repository with other words."""
    return {turned(path, names): turned(text, names) for path, text in FILES.items()}


def hash_of(changed, edit, how, files=None):
    with tempfile.TemporaryDirectory() as root:
        for path, text in {**(files or FILES), **changed}.items():
            os.makedirs(os.path.dirname(os.path.join(root, path)), exist_ok=True)
            with open(os.path.join(root, path), "w", encoding="utf-8") as it:
                it.write(text)
        return closure.Closure(root, "kit").hash("cse_high", edit, how)


def main():
    bad, refused = 0, ["refused", "rows::Row::put", "returns"]
    first = hash_of({}, EDIT, refused)
    for what, path, old, new, changes in ROWS:
        assert FILES[path].count(old) == 1, f"{what}: {old!r} stands in {path} {FILES[path].count(old)} times"
        if (hash_of({path: FILES[path].replace(old, new)}, EDIT, refused) != first) != changes:
            print(f"{what}: the hash {'stays' if changes else 'changes'}")
            bad += 1
    moved = FILES[LAWS].partition("pub odd")
    moves = {LAWS: moved[0], "crates/cse_high/proofs/More.antt": moved[1] + moved[2],
             ANSWERS: FILES[ANSWERS].replace("Laws.{half-even, tail}", "Laws.{half-even}\nuse Rattle.cse_high.proofs.More.{tail}")}
    if hash_of(moves, EDIT, refused) != first:
        print("a lemma moved to another file: the hash changes")
        bad += 1
    for new, changes in (("row.put(1 + 1)", STAYS), ("true", CHANGES)):
        called = {BESIDE: FILES[BESIDE].replace("row.put(1)", new)}
        if (hash_of(called, CALL, refused) != hash_of({}, CALL, refused)) != changes:
            print(f"a call of {new} by what the edit calls: the hash {'stays' if changes else 'changes'}")
            bad += 1
    for what, edit, how in WHOLE:
        body = {BESIDE: FILES[BESIDE].replace("self.size = x;", "let y = x; self.size = y;")}
        comment = {BODY: FILES[BODY].replace("//! Rows.", "//! Other rows.")}
        if hash_of(body, edit, how) == hash_of({}, edit, how) or hash_of(comment, edit, how) != hash_of({}, edit, how):
            print(f"an edit that {what}: not the whole crate counts")
            bad += 1
    for words, others, is_renaming in RENAMINGS:
        if (not list(carry.unfit(words, FILES, renamed(others)))) != is_renaming:
            print(f"{words}: {'refused' if is_renaming else 'taken'} as a renaming")
            bad += 1
    for names in ({}, OTHER_NAMES):
        moves = carry.Moves({old: turned(new, names) for old, new in MOVES.items()})
        for what, path, old, new, changes in MOVED:
            now = {turned(it, names): turned(text, names) for it, text in {**AFTER, path: AFTER[path].replace(old, new)}.items()}
            if (hash_of({}, EDIT, refused, carry.moved(FILES, now, moves)) != hash_of({}, EDIT, refused, now)) != changes:
                print(f"{what}, after a move{' to other names' if names else ''}: the hash {'is that' if changes else 'is not that'} of the tree before with its files moved")
                bad += 1
    for what, path, old, new, changes in GONE:
        now = {**WITHOUT_GROUND, path: WITHOUT_GROUND[path].replace(old, new)}
        if (hash_of({}, GROUND_EDIT, refused, carry.moved(WITH_GROUND, now, carry.Moves(GROUND_MOVES))) != hash_of({}, GROUND_EDIT, refused, now)) != changes:
            print(f"{what}, after a crate went into another: the hash {'is that' if changes else 'is not that'} of the tree before with its files moved")
            bad += 1
    for what, changed, more in [("nothing", {}, {}), *NO_MOVES]:
        if bool(list(carry.Moves({**MOVES, **more}).unfit(FILES, {**AFTER, **changed}))) != (what != "nothing"):
            print(f"{what}: {'refused' if what == 'nothing' else 'taken'} as a move")
            bad += 1
    print(f"{len(ROWS) + len(WHOLE) + len(RENAMINGS) + 2 * len(MOVED) + len(GONE) + len(NO_MOVES) + 4} rows, {bad} fail")
    return int(bad > 0)


if __name__ == "__main__":
    sys.exit(main())
