//! A plain Rust program that does the work of a copy case by case, to compare times with those that
//! `times.py` and `whole.py` print.
//!
//!     rustc -O copy.rs && ./copy            3,000,000 short lines in memory, three to a household, with six id columns
//!     ./copy IN OUT                         a file, with three id columns
//!
//! Each line is decoded to characters and padded to its record's length; lines with equal id columns
//! (from the second on) are gathered; each line of a gathered run is encoded again without trailing blanks
//! past its own length, then its own end.

use std::env;
use std::fs::File;
use std::io::{self, BufRead, BufReader, BufWriter, Read, Write};
use std::time::Instant;

const RECORD_LENGTH: usize = 12;

struct Line {
    first: usize,
    length: usize,
    width: usize,
    end: &'static [u8],
    is_person: bool,
}

struct Run {
    /// How many id columns a line has.
    ids: usize,
    columns: Vec<char>,
    lines: Vec<Line>,
}

impl Run {
    /// A run without lines.
    fn new(ids: usize) -> Run {
        Run { ids, columns: Vec::new(), lines: Vec::new() }
    }

    /// Appends a line to the run.
    fn push(&mut self, text: &str, end: &'static [u8]) {
        let first = self.columns.len();
        self.columns.extend(text.chars());
        let length = self.columns.len() - first;
        let width = length.max(RECORD_LENGTH);
        self.columns.resize(first + width, ' ');
        let is_person = self.columns[first] == 'P';
        self.lines.push(Line { first, length, width, end, is_person });
    }

    fn ids(&self, line: &Line) -> &[char] {
        &self.columns[line.first + 1..line.first + 1 + self.ids]
    }

    /// Whether the last line has other ids than the first.
    fn is_over(&self) -> bool {
        match (self.lines.first(), self.lines.last()) {
            (Some(first), Some(last)) => self.ids(first) != self.ids(last),
            _ => false,
        }
    }

    /// Takes the last line out into a run of its own.
    fn split_last(&mut self) -> Run {
        let mut next = Run::new(self.ids);
        if let Some(mut line) = self.lines.pop() {
            next.columns.extend_from_slice(&self.columns[line.first..]);
            self.columns.truncate(line.first);
            line.first = 0;
            next.lines.push(line);
        }
        next
    }

    /// Writes the lines of the run, and tells how many are persons.
    fn write(&self, text: &mut String, out: &mut impl Write) -> io::Result<usize> {
        let mut persons = 0;
        for line in &self.lines {
            let columns = &self.columns[line.first..line.first + line.width];
            let mut kept = columns.len();
            while kept > line.length && columns[kept - 1] == ' ' {
                kept -= 1;
            }
            text.clear();
            text.extend(&columns[..kept]);
            out.write_all(text.as_bytes())?;
            out.write_all(line.end)?;
            persons += usize::from(line.is_person);
        }
        Ok(persons)
    }
}

fn cut_end(line: &[u8]) -> (&[u8], &'static [u8]) {
    if let Some(text) = line.strip_suffix(b"\r\n") {
        (text, b"\r\n")
    } else if let Some(text) = line.strip_suffix(b"\n") {
        (text, b"\n")
    } else {
        (line, b"")
    }
}

fn copy(ids: usize, input: impl Read, output: impl Write) -> io::Result<(usize, usize)> {
    let mut input = BufReader::with_capacity(65_536, input);
    let mut out = BufWriter::with_capacity(65_536, output);
    let (mut cases, mut lines) = (0, 0);
    let mut bytes = Vec::new();
    let mut text = String::new();
    let mut run = Run::new(ids);
    while input.read_until(b'\n', &mut bytes)? > 0 {
        let (line, end) = cut_end(&bytes);
        let line = std::str::from_utf8(line).map_err(io::Error::other)?;
        run.push(line, end);
        lines += 1;
        if run.is_over() {
            let next = run.split_last();
            cases += usize::from(run.write(&mut text, &mut out)? > 0);
            run = next;
        }
        bytes.clear();
    }
    cases += usize::from(run.write(&mut text, &mut out)? > 0);
    out.flush()?;
    Ok((cases, lines))
}

/// Copies lines in memory three times, and prints the time of each.
fn time_copies() -> io::Result<()> {
    let mut input = Vec::new();
    for i in 0..1_000_000 {
        write!(input, "P{i:06}11 35\nP{i:06}22 33\nP{i:06}13\n")?;
    }
    for _ in 0..3 {
        let mut output = Vec::new();
        let start = Instant::now();
        let (cases, lines) = copy(6, &input[..], &mut output)?;
        let time = start.elapsed().as_millis();
        println!("{cases} cases, {lines} lines: {time} ms, same: {}", input == output);
    }
    Ok(())
}

fn main() -> io::Result<()> {
    let words: Vec<String> = env::args().skip(1).collect();
    match &words[..] {
        [from, to] => {
            let (cases, lines) = copy(3, File::open(from)?, File::create(to)?)?;
            println!("cases {cases} lines {lines}");
            Ok(())
        }
        _ => time_copies(),
    }
}
