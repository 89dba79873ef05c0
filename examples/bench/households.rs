//! A plain Rust program that writes a data file of so many cases for `examples/household`, with errors of the
//! kinds that its logic looks for. The same number gives the same file.
//!
//!     rustc -O households.rs && ./households 1000000 > HOUSEHOLD.dat
//!
//! A case is a line of housing and one to nine persons. About one value in fifty is blank or out of its range,
//! one household in a hundred has no head or two, and one line in a thousand is of no record.

use std::io::{self, BufWriter, Write};

const NAMES: [&str; 12] = [
    "ANNA", "PETER", "MIA", "TOM", "JOSÉ", "LUCIA", "OMAR", "SARA", "ALI", "BELA", "DANA", "IVAN",
];

/// Numbers that look random (xorshift).
struct Dice(u64);

impl Dice {
    /// A number below `sides`.
    fn roll(&mut self, sides: u64) -> u64 {
        self.0 ^= self.0 << 13;
        self.0 ^= self.0 >> 7;
        self.0 ^= self.0 << 17;
        self.0 % sides
    }

    /// Whether something happens that happens once in so many times.
    fn once_in(&mut self, times: u64) -> bool {
        self.roll(times) == 0
    }

    /// A value in so many columns; once in fifty times blank, and once in a hundred times this one.
    fn value(&mut self, value: u64, width: usize, wrong: u64) -> String {
        if self.once_in(50) {
            " ".repeat(width)
        } else if self.once_in(100) {
            format!("{wrong:>width$}")
        } else {
            format!("{value:>width$}")
        }
    }
}

/// What a person is in the household: 1 head, 2 spouse, 3 child, 4 parent, 5 other.
fn relations(dice: &mut Dice) -> Vec<u64> {
    let mut relations = Vec::new();
    if !dice.once_in(200) {
        relations.push(1);
    }
    if dice.once_in(200) {
        relations.push(1);
    }
    if dice.roll(10) < 6 {
        relations.push(2);
    }
    relations.extend(vec![3; dice.roll(5) as usize]);
    if dice.once_in(12) {
        relations.push(4);
    }
    if relations.is_empty() || dice.once_in(15) {
        relations.push(5);
    }
    relations
}

/// The age, sex and marital status of a person, and the years of school and the children of one who has them.
fn person(dice: &mut Dice, relation: u64) -> (u64, u64, Option<u64>, Option<u64>, Option<u64>) {
    let age = match relation {
        1 | 2 => 32 + dice.roll(45),
        3 => dice.roll(20),
        4 => 50 + dice.roll(45),
        _ => dice.roll(90),
    };
    let sex = match relation {
        1 => 1 + dice.roll(10) / 7,
        2 => 2 - dice.roll(10) / 7,
        _ => 1 + dice.roll(2),
    };
    let grown = age >= 12;
    let marital = match relation {
        1 | 2 => 2,
        3 => 1,
        _ => 1 + dice.roll(4),
    };
    let school = (age >= 6).then(|| dice.roll(16).min(age - 5));
    let children = (grown && sex == 2).then(|| dice.roll(5));
    (age, sex, grown.then_some(marital), school, children)
}

/// A field of an item that a person may not have.
fn optional(dice: &mut Dice, value: Option<u64>, width: usize, wrong: u64) -> String {
    match value {
        Some(value) => dice.value(value, width, wrong),
        None => " ".repeat(width),
    }
}

/// The lines of a case.
fn write_case(out: &mut impl Write, dice: &mut Dice, ids: &str) -> io::Result<()> {
    let rooms = 1 + dice.roll(6);
    let rooms = dice.value(rooms, 2, 45);
    let water = 1 + dice.roll(4);
    let water = dice.value(water, 1, 9);
    let tenure = 1 + dice.roll(3);
    let tenure = dice.value(tenure, 1, 7);
    writeln!(out, "H{ids}{rooms}{water}{:>3}.{:02}{tenure}", dice.roll(1000), dice.roll(100))?;
    let relations = relations(dice);
    for (line, relation) in relations.iter().enumerate() {
        let name = NAMES[dice.roll(12) as usize];
        let (age, sex, marital, school, children) = person(dice, *relation);
        let sex = dice.value(sex, 1, 3);
        let relation = if dice.once_in(100) { 9 } else { *relation };
        let age = dice.value(age, 3, 999);
        let marital = optional(dice, marital, 1, 8);
        let school = optional(dice, school, 2, 33);
        let children = optional(dice, children, 2, 99);
        writeln!(
            out,
            "P{ids}{:02}{name:<10}{sex}{relation}{age}{marital}{school}{children}{:05}",
            line + 1,
            800 + dice.roll(500),
        )?;
        if dice.once_in(1000) {
            writeln!(out, "X{ids}of no record")?;
        }
    }
    Ok(())
}

fn main() -> io::Result<()> {
    let cases = std::env::args().nth(1).and_then(|word| word.parse().ok()).unwrap_or(1000u64);
    let mut out = BufWriter::new(io::stdout().lock());
    let mut dice = Dice(0x9e37_79b9_7f4a_7c15);
    for case in 0..cases.min(99 * 99 * 999) {
        let (household, district) = (case % 999 + 1, case / 999);
        let ids = format!("{:02}{:02}{household:03}", district / 99 + 1, district % 99 + 1);
        write_case(&mut out, &mut dice, &ids)?;
    }
    out.flush()
}
