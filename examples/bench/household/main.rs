//! The edit of `examples/household` written by hand in plain Rust, to compare times and outputs with `csbatch run`.
//!
//!     rustc --edition 2021 -O household/main.rs -o edit && ./edit HOUSEHOLD.dat OUT LIST FREQ DECKS [DICT IMAGE]
//!
//! It does what the logic of the sample does, over the same columns, and writes the same four files; DECKS is read, and
//! written again. Nothing in it is general: columns, value sets and messages are those of the sample. Lines are bytes
//! where they are ASCII, and one buffer holds the lines of a case.
//!
//! With a dictionary and an image a plain machine runs the image of the sample instead (`machine.rs`), or an image without
//! events; lines are read, and all is written, by the same code.

mod edit;
mod line;
mod machine;
mod reports;

use edit::{edit, sort_lines, Kept, Run};
use line::{Line, Missing, NotAppl, Number, Undefined, Value};
use machine::{Dictionary, Image, Machine};
use reports::{Of, Reports, IMPUTED, MESSAGES};
use std::fs::{self, File};
use std::io::{self, BufReader, BufWriter, Write};

fn read_decks(path: &str) -> io::Result<Vec<Value>> {
    let text = fs::read_to_string(path)?;
    let cells = text.lines().filter_map(|line| match line {
        "NOTAPPL" => Some(NotAppl),
        "MISSING" => Some(Missing),
        "DEFAULT" => Some(Undefined),
        line => line.parse().ok().map(Number),
    });
    Ok(cells.collect())
}

fn write_decks(path: &str, decks: &[(&str, &[Value])]) -> io::Result<()> {
    let mut text = Vec::new();
    writeln!(text, "CSEB DECKS 1")?;
    for (head, cells) in decks {
        writeln!(text, "ARRAY {head}")?;
        for cell in *cells {
            cell.write(&mut text, 0, false);
            text.push(b'\n');
        }
    }
    writeln!(text, "END")?;
    fs::write(path, text)
}

fn write_frequencies(path: &str, reports: &Reports) -> io::Result<()> {
    let mut text = Vec::new();
    writeln!(text, "CSEB FREQUENCIES 1")?;
    for (name, values) in IMPUTED
        .iter()
        .zip(&reports.imputed)
        .filter(|entry| !entry.1.is_empty())
    {
        writeln!(
            text,
            "ITEM {name} {}",
            values.iter().map(|entry| entry.1).sum::<u64>()
        )?;
        for (value, count) in values {
            value.write(&mut text, 0, false);
            writeln!(text, " {count}")?;
        }
    }
    writeln!(text, "END")?;
    fs::write(path, text)
}

/// What edits the cases: the edit by hand, or the machine.
trait Edits {
    /// What is done in front of the first case.
    fn begin(&mut self, run: &mut Run, reports: &mut Reports);
    fn edit(&mut self, run: &mut Run, reports: &mut Reports);
    /// What is told behind the last case.
    fn end(&mut self, run: &mut Run, reports: &mut Reports);
    fn decks(&self) -> Vec<(&str, &[Value])>;
}

impl Edits for Kept {
    fn begin(&mut self, _run: &mut Run, _reports: &mut Reports) {}

    fn edit(&mut self, run: &mut Run, reports: &mut Reports) {
        edit(run, self, reports);
    }

    fn end(&mut self, _run: &mut Run, reports: &mut Reports) {
        let (all, without) = (Number(self.cases), Number(self.without_head));
        reports.list(
            90,
            &["", " cases, ", " of them without a head"],
            &[Of(all, 0, false), Of(without, 0, false)],
        );
    }

    fn decks(&self) -> Vec<(&str, &[Value])> {
        vec![
            ("SEX_HD 6", &self.sexes),
            ("AGE_HD 2 6", &self.ages),
            ("MARITAL_HD 2 4", &self.maritals),
        ]
    }
}

impl Edits for Machine {
    fn begin(&mut self, run: &mut Run, reports: &mut Reports) {
        self.preproc(run, reports);
    }

    fn edit(&mut self, run: &mut Run, reports: &mut Reports) {
        self.case(run, reports);
    }

    fn end(&mut self, run: &mut Run, reports: &mut Reports) {
        self.postproc(run, reports);
    }

    fn decks(&self) -> Vec<(&str, &[Value])> {
        self.arrays()
    }
}

/// Reads the cases, has them edited, and writes what comes of it.
fn run_over(paths: &[String], mut edits: impl Edits) -> io::Result<()> {
    let mut input = BufReader::with_capacity(1 << 16, File::open(&paths[0])?);
    let mut out = BufWriter::with_capacity(1 << 16, File::create(&paths[1])?);
    let mut listing = BufWriter::with_capacity(1 << 16, File::create(&paths[2])?);
    writeln!(listing, "CSEB LISTING 1")?;
    let (mut reports, mut run, mut next) = (Reports::default(), Run::default(), Line::default());
    let (mut cases, mut lines, mut unseen) = (0, 0, 0);
    edits.begin(&mut run, &mut reports);
    reports.flush(&mut listing, b"RUN\n")?;
    let mut is_there = next.read(&mut input, 1)?;
    while is_there {
        run.count = 0;
        loop {
            if run.count == run.lines.len() {
                run.lines.push(Line::default());
            }
            std::mem::swap(&mut run.lines[run.count], &mut next);
            run.count += 1;
            lines += 1;
            is_there = next.read(&mut input, lines + 1)?;
            if !is_there || next.ids() != run.lines[0].ids() {
                break;
            }
        }
        unseen += sort_lines(&mut run, &mut reports);
        if !run.persons.is_empty() || run.housing.is_some() {
            cases += 1;
            edits.edit(&mut run, &mut reports);
        }
        if !reports.held.is_empty() {
            let heading = [b"CASE [", run.lines[0].ids(), b"]\n"].concat();
            reports.flush(&mut listing, &heading)?;
        }
        for line in &run.lines[..run.count] {
            line.write(&mut out)?;
        }
    }
    edits.end(&mut run, &mut reports);
    reports.flush(&mut listing, b"RUN\n")?;
    writeln!(
        listing,
        "SUMMARY\ncases {cases}\nlines {lines}\nunseen {unseen}"
    )?;
    for ((number, text), count) in MESSAGES.iter().zip(reports.counts) {
        writeln!(listing, "message {number} {count} {text}")?;
    }
    writeln!(listing, "END")?;
    listing.flush()?;
    out.flush()?;
    write_frequencies(&paths[3], &reports)?;
    write_decks(&paths[4], &edits.decks())?;
    println!("cases {cases} lines {lines} unseen {unseen}");
    Ok(())
}

fn main() -> io::Result<()> {
    let paths: Vec<String> = std::env::args().skip(1).collect();
    match &paths[..] {
        [_, _, _, _, decks] => {
            let cells = read_decks(decks)?;
            let kept = Kept {
                sexes: cells[..6].try_into().expect("six"),
                ages: cells[6..18].try_into().expect("twelve"),
                maritals: cells[18..26].try_into().expect("eight"),
                cases: 0,
                without_head: 0,
            };
            run_over(&paths, kept)
        }
        [_, _, _, _, decks, dictionary, image] => {
            let dictionary = Dictionary::read(&fs::read_to_string(dictionary)?);
            let image = Image::read(&fs::read(image)?);
            let machine = Machine::new(&image, dictionary, read_decks(decks)?);
            run_over(&paths, machine)
        }
        _ => {
            eprintln!("usage: household DATA OUT LIST FREQ DECKS [DICT IMAGE]");
            std::process::exit(2);
        }
    }
}
