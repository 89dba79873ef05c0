//! Messages, and what is counted.

use crate::line::Value;
use std::io::{self, Write};

/// The messages, in the order of the logic: the number and the text.
pub const MESSAGES: [(u64, &str); 18] = [
    (90, "%d cases, %d of them without a head"),
    (11, "Line %02d: a second head, made other"),
    (10, "No head of household"),
    (40, "Line %02d, %s: aged %d, where the head is aged %d"),
    (12, "Household %02d %02d %03d has no person"),
    (13, "Line number %02d is not %02d"),
    (14, "Line %02d: no name"),
    (20, "Line %02d, %s: sex is %d"),
    (21, "Line %02d: relation is %d"),
    (30, "Line %02d: age is %d"),
    (31, "Line %02d: age %d with marital status %d"),
    (32, "Line %02d: no marital status"),
    (33, "Line %02d: %d years of school at age %d"),
    (34, "Line %02d: no children told"),
    (35, "Line %02d: children told, sex %d, age %3d"),
    (50, "Rooms: %d"),
    (0, "Water is %d"),
    (51, "No tenure"),
];

pub enum Argument<'a> {
    Of(Value, usize, bool),
    Text(&'a [u8]),
}
pub use Argument::{Of, Text};

/// What is told beside the data: the listing of the case so far, and all counts.
#[derive(Default)]
pub struct Reports {
    /// The lines of this heading.
    pub held: Vec<u8>,
    pub counts: [u64; MESSAGES.len()],
    /// Of each item that may be imputed, its name and how often each value was.
    pub imputed: [Vec<(Value, u64)>; 5],
}

pub const IMPUTED: [&str; 5] = ["ROOMS", "SEX", "REL", "AGE", "MARITAL"];

impl Reports {
    pub fn count(&mut self, number: u64) {
        let place = MESSAGES
            .iter()
            .position(|message| message.0 == number)
            .expect("a message");
        self.counts[place] += 1;
    }

    /// Lists a message: its text, with these between the pieces that stand around its placeholders.
    pub fn list(&mut self, number: u64, pieces: &[&str], arguments: &[Argument<'_>]) {
        self.count(number);
        write!(self.held, "M {number} ").expect("memory");
        for (at, piece) in pieces.iter().enumerate() {
            self.held.extend_from_slice(piece.as_bytes());
            match arguments.get(at) {
                Some(Of(value, width, fill)) => value.write(&mut self.held, *width, *fill),
                Some(Text(text)) => self.held.extend_from_slice(text),
                None => {}
            }
        }
        self.held.push(b'\n');
    }

    pub fn impute(&mut self, item: usize, value: Value) {
        let values = &mut self.imputed[item];
        match values.iter_mut().find(|entry| entry.0 == value) {
            Some(entry) => entry.1 += 1,
            None => values.push((value, 1)),
        }
    }

    pub fn flush(&mut self, listing: &mut impl Write, heading: &[u8]) -> io::Result<()> {
        if !self.held.is_empty() {
            listing.write_all(heading)?;
            listing.write_all(&self.held)?;
            self.held.clear();
        }
        Ok(())
    }
}
