//! Values, items, and the lines of a data file.

use std::io::{self, BufRead, Write};
use std::ops::Range;

#[derive(Clone, Copy, PartialEq, Eq)]
pub enum Value {
    Number(i64),
    NotAppl,
    Missing,
    Default,
}
pub use Value::{Default as Undefined, Missing, NotAppl, Number};

impl Value {
    pub fn is_above(self, other: Value) -> bool {
        matches!((self, other), (Number(a), Number(b)) if a > b)
    }

    pub fn is_within(self, range: std::ops::RangeInclusive<i64>) -> bool {
        matches!(self, Number(n) if range.contains(&n))
    }

    pub fn less(self, n: i64) -> Value {
        match self {
            Number(a) => Number(a - n),
            _ => Undefined,
        }
    }

    pub fn is_old_enough(self) -> bool {
        matches!(self, Number(years) if years >= 12)
    }

    pub fn write(self, out: &mut Vec<u8>, width: usize, fill: bool) {
        match self {
            Number(n) if fill => write!(out, "{n:0width$}"),
            Number(n) => write!(out, "{n:width$}"),
            NotAppl => write!(out, "{:>width$}", "NOTAPPL"),
            Missing => write!(out, "{:>width$}", "MISSING"),
            Undefined => write!(out, "{:>width$}", "DEFAULT"),
        }
        .expect("memory")
    }
}

/// An item: its columns, from 0, the code of `missing`, and whether blanks in front are zeros.
pub struct Item {
    pub start: usize,
    pub width: usize,
    pub code: Option<i64>,
    pub fill: bool,
}

pub const fn item(start: usize, width: usize) -> Item {
    Item {
        start,
        width,
        code: None,
        fill: false,
    }
}

pub const ROOMS: Item = item(8, 2);
pub const WATER: Item = item(10, 1);
pub const TENURE: Item = item(17, 1);
pub const LINE: Item = Item {
    fill: true,
    ..item(8, 2)
};
pub const FIRST_NAME: Range<usize> = 10..20;
pub const SEX: Item = item(20, 1);
pub const REL: Item = item(21, 1);
pub const AGE: Item = Item {
    code: Some(999),
    ..item(22, 3)
};
pub const MARITAL: Item = item(25, 1);
pub const SCHOOL: Item = item(26, 2);
pub const CHILDREN: Item = Item {
    code: Some(99),
    ..item(28, 2)
};
pub const IDS: Range<usize> = 1..8;

#[derive(Default)]
pub struct Line {
    pub text: Vec<u8>,
    /// How many columns the line had when it was read.
    pub length: usize,
    pub is_ascii: bool,
    pub has_return: bool,
    pub has_end: bool,
    pub number: u64,
}

/// The value of columns.
pub fn value_of(columns: &[u8], code: Option<i64>) -> Value {
    let blanks = columns.iter().take_while(|byte| **byte == b' ').count();
    let mut field = &columns[blanks..];
    while let [front @ .., b' '] = field {
        field = front;
    }
    if field.is_empty() {
        return NotAppl;
    }
    let (digits, sign) = match field {
        [b'-', digits @ ..] => (digits, -1),
        digits => (digits, 1),
    };
    if digits.is_empty() || !digits.iter().all(u8::is_ascii_digit) {
        return Undefined;
    }
    let add = |n, digit: &u8| 10 * n + i64::from(digit - b'0');
    let number = sign * digits.iter().fold(0, add);
    if code == Some(number) {
        Missing
    } else {
        Number(number)
    }
}

impl Line {
    /// Reads a line, and pads it to its width.
    pub fn read(&mut self, input: &mut impl BufRead, number: u64) -> io::Result<bool> {
        self.text.clear();
        if input.read_until(b'\n', &mut self.text)? == 0 {
            return Ok(false);
        }
        self.number = number;
        self.has_end = self.text.last() == Some(&b'\n');
        if self.has_end {
            self.text.pop();
        }
        self.has_return = self.has_end && self.text.last() == Some(&b'\r');
        if self.has_return {
            self.text.pop();
        }
        self.is_ascii = self.text.is_ascii();
        self.length = if self.is_ascii {
            self.text.len()
        } else {
            std::str::from_utf8(&self.text)
                .expect("UTF-8")
                .chars()
                .count()
        };
        let width = match self.text.first() {
            Some(b'P') => 35,
            Some(b'H') => 18,
            _ => IDS.end,
        };
        let lacks = width.max(self.length) - self.length;
        self.text.resize(self.text.len() + lacks, b' ');
        Ok(true)
    }

    /// The bytes of columns.
    pub fn span(&self, columns: Range<usize>) -> Range<usize> {
        if self.is_ascii {
            return columns;
        }
        let text = std::str::from_utf8(&self.text).expect("UTF-8");
        let mut starts = text.char_indices().map(|(at, _)| at).chain([text.len()]);
        let first = starts.nth(columns.start).expect("a column");
        let end = if columns.is_empty() {
            first
        } else {
            starts.nth(columns.len() - 1).expect("a column")
        };
        first..end
    }

    pub fn ids(&self) -> &[u8] {
        &self.text[self.span(IDS)]
    }

    pub fn get(&self, item: &Item) -> Value {
        value_of(&self.text[self.span(item.start..item.start + item.width)], item.code)
    }

    pub fn set(&mut self, item: &Item, value: Value) {
        let width = item.width;
        let number = match value {
            Number(n) => Some(n),
            Missing => item.code,
            NotAppl | Undefined => None,
        };
        let field = match number {
            Some(n) if item.fill => format!("{n:0width$}"),
            Some(n) => format!("{n:width$}"),
            None if value == NotAppl => " ".repeat(width),
            None => "*".repeat(width),
        };
        let field = if field.len() > width {
            "*".repeat(width)
        } else {
            field
        };
        let span = self.span(item.start..item.start + width);
        self.text.splice(span, field.bytes());
    }

    pub fn name(&self) -> &[u8] {
        self.text[self.span(FIRST_NAME)].trim_ascii_end()
    }

    /// Writes the line without the blanks that its width brought.
    pub fn write(&self, out: &mut impl Write) -> io::Result<()> {
        let own = self.span(0..self.length).end;
        let kept = self.text[own..].trim_ascii_end().len();
        out.write_all(&self.text[..own + kept])?;
        match (self.has_end, self.has_return) {
            (true, true) => out.write_all(b"\r\n"),
            (true, false) => out.write_all(b"\n"),
            (false, _) => Ok(()),
        }
    }
}
