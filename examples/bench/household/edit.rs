//! The edit of a household: structure, each item, and what holds between persons.

use crate::line::*;
use crate::reports::{Of, Reports, Text};
use std::io::Write;
use std::ops::Range;

/// What is kept from case to case.
pub struct Kept {
    pub sexes: [Value; 6],
    pub ages: [Value; 12],
    pub maritals: [Value; 8],
    pub cases: i64,
    pub without_head: i64,
}

pub fn row_of_relation(relation: Value) -> usize {
    match relation {
        Number(n @ 1..=4) => n as usize - 1,
        Number(5 | 6) => 4,
        _ => 5,
    }
}

pub fn row_of_sex(sex: Value) -> Option<usize> {
    match sex {
        Number(1) => Some(0),
        Number(2) => Some(1),
        _ => None,
    }
}

pub fn row_of_age(age: Value) -> Option<usize> {
    match age {
        Number(0..=11) => Some(0),
        Number(12..=29) => Some(1),
        Number(30..=59) => Some(2),
        Number(60..=110) => Some(3),
        _ => None,
    }
}

/// The lines of a run, and which of them are persons and the housing.
#[derive(Default)]
pub struct Run {
    pub lines: Vec<Line>,
    pub count: usize,
    pub persons: Vec<usize>,
    pub housing: Option<usize>,
}

/// Structure: one head, and not more.
pub fn structure(run: &mut Run, kept: &mut Kept, reports: &mut Reports) {
    kept.cases += 1;
    let mut heads = 0;
    for &at in &run.persons {
        let person = &mut run.lines[at];
        if person.get(&REL) == Number(1) {
            heads += 1;
            if heads > 1 {
                reports.list(
                    11,
                    &["Line ", ": a second head, made other"],
                    &[Of(person.get(&LINE), 2, true)],
                );
                person.set(&REL, Number(5));
                reports.impute(2, Number(5));
            }
        }
    }
    if heads == 0 {
        reports.count(10);
        kept.without_head += 1;
        for &at in &run.persons {
            let person = &mut run.lines[at];
            if person.get(&AGE).is_old_enough() {
                person.set(&REL, Number(1));
                reports.impute(2, Number(1));
                break;
            }
        }
    }
}

pub fn line_and_name(person: &mut Line, number: i64, reports: &mut Reports) {
    if person.get(&LINE) != Number(number) {
        reports.list(
            13,
            &["Line number ", " is not ", ""],
            &[Of(person.get(&LINE), 2, true), Of(Number(number), 2, true)],
        );
        person.set(&LINE, Number(number));
    }
    if person.name().is_empty() {
        reports.count(14);
        let span = person.span(FIRST_NAME);
        person.text.splice(span, *b"UNKNOWN   ");
    }
}

pub fn sex(person: &mut Line, head_sex: &mut Value, kept: &mut Kept, reports: &mut Reports) {
    let (told, relation) = (person.get(&SEX), person.get(&REL));
    if told.is_within(1..=2) {
        kept.sexes[row_of_relation(relation)] = told;
    } else {
        reports.list(
            20,
            &["Line ", ", ", ": sex is ", ""],
            &[
                Of(person.get(&LINE), 2, true),
                Text(person.name()),
                Of(told, 0, false),
            ],
        );
        let value = match *head_sex {
            Number(head) if relation == Number(2) => Number(3 - head),
            _ => kept.sexes[row_of_relation(relation)],
        };
        person.set(&SEX, value);
        reports.impute(1, value);
    }
    if relation == Number(1) {
        *head_sex = person.get(&SEX);
    }
}

pub fn relation_and_age(person: &mut Line, kept: &mut Kept, reports: &mut Reports) {
    let relation = person.get(&REL);
    if !relation.is_within(1..=6) {
        reports.list(
            21,
            &["Line ", ": relation is ", ""],
            &[Of(person.get(&LINE), 2, true), Of(relation, 0, false)],
        );
        person.set(&REL, Number(5));
        reports.impute(2, Number(5));
    }
    let age = person.get(&AGE);
    let cell = row_of_sex(person.get(&SEX)).map(|row| 6 * row + row_of_relation(person.get(&REL)));
    if age.is_within(0..=110) {
        if let Some(cell) = cell {
            kept.ages[cell] = age;
        }
    } else {
        reports.list(
            30,
            &["Line ", ": age is ", ""],
            &[Of(person.get(&LINE), 2, true), Of(age, 0, false)],
        );
        let value = cell.map_or(Undefined, |cell| kept.ages[cell]);
        person.set(&AGE, value);
        reports.impute(3, value);
    }
}

pub fn marital(person: &mut Line, kept: &mut Kept, reports: &mut Reports) {
    let (age, status) = (person.get(&AGE), person.get(&MARITAL));
    let cell = || Some(4 * row_of_sex(person.get(&SEX))? + row_of_age(age)?);
    if !age.is_old_enough() {
        if status != NotAppl {
            let line = person.get(&LINE);
            reports.list(
                31,
                &["Line ", ": age ", " with marital status ", ""],
                &[Of(line, 2, true), Of(age, 0, false), Of(status, 0, false)],
            );
            person.set(&MARITAL, NotAppl);
        }
    } else if status.is_within(1..=4) {
        if let Some(cell) = cell() {
            kept.maritals[cell] = status;
        }
    } else {
        reports.count(32);
        let value = cell().map_or(Undefined, |cell| kept.maritals[cell]);
        person.set(&MARITAL, value);
        reports.impute(4, value);
    }
}

pub fn school_and_children(person: &mut Line, reports: &mut Reports) {
    let (line, age) = (person.get(&LINE), person.get(&AGE));
    let school = person.get(&SCHOOL);
    if school.is_above(age.less(5)) {
        reports.list(
            33,
            &["Line ", ": ", " years of school at age ", ""],
            &[Of(line, 2, true), Of(school, 0, false), Of(age, 0, false)],
        );
        person.set(&SCHOOL, NotAppl);
    }
    let (sex, children) = (person.get(&SEX), person.get(&CHILDREN));
    if sex == Number(2) && age.is_old_enough() {
        if !children.is_within(0..=20) && children != Missing {
            reports.count(34);
            person.set(&CHILDREN, Missing);
        }
    } else if children != NotAppl {
        reports.list(
            35,
            &["Line ", ": children told, sex ", ", age ", ""],
            &[Of(line, 2, true), Of(sex, 0, false), Of(age, 3, false)],
        );
        person.set(&CHILDREN, NotAppl);
    }
}

pub fn housing(line: &mut Line, persons: usize, reports: &mut Reports) {
    let rooms = line.get(&ROOMS);
    if !rooms.is_within(1..=20) {
        reports.list(50, &["Rooms: ", ""], &[Of(rooms, 0, false)]);
        let value = Number((persons as i64 + 2) / 2);
        line.set(&ROOMS, value);
        reports.impute(0, value);
    }
    let water = line.get(&WATER);
    if !water.is_within(1..=4) {
        reports.list(0, &["Water is ", ""], &[Of(water, 0, false)]);
    }
    if !line.get(&TENURE).is_within(1..=3) {
        reports.count(51);
        line.set(&TENURE, Number(1));
    }
}

/// What holds between persons.
pub fn between_persons(run: &Run, reports: &mut Reports) {
    let persons = || run.persons.iter().map(|&at| &run.lines[at]);
    let head = persons().rfind(|person| person.get(&REL) == Number(1));
    let head_age = head.map_or(NotAppl, |person| person.get(&AGE));
    for person in persons().filter(|person| person.get(&REL) == Number(3)) {
        let age = person.get(&AGE);
        if age.is_above(head_age.less(12)) {
            reports.list(
                40,
                &["Line ", ", ", ": aged ", ", where the head is aged ", ""],
                &[
                    Of(person.get(&LINE), 2, true),
                    Text(person.name()),
                    Of(age, 0, false),
                    Of(head_age, 0, false),
                ],
            );
        }
    }
}

pub fn edit(run: &mut Run, kept: &mut Kept, reports: &mut Reports) {
    structure(run, kept, reports);
    let mut head_sex = NotAppl;
    if run.persons.is_empty() {
        let ids = run.lines[0].ids();
        let part = |range: Range<usize>| value_of(&ids[range], None);
        let arguments = [
            Of(part(0..2), 2, true),
            Of(part(2..4), 2, true),
            Of(part(4..7), 3, true),
        ];
        reports.list(12, &["Household ", " ", " ", " has no person"], &arguments);
    }
    for (place, &at) in run.persons.iter().enumerate() {
        let person = &mut run.lines[at];
        line_and_name(person, place as i64 + 1, reports);
        sex(person, &mut head_sex, kept, reports);
        relation_and_age(person, kept, reports);
        marital(person, kept, reports);
        school_and_children(person, reports);
    }
    if let Some(at) = run.housing {
        housing(&mut run.lines[at], run.persons.len(), reports);
    }
    between_persons(run, reports);
}

/// Tells which lines are persons and the housing, and lists the others. Answers how many those are.
pub fn sort_lines(run: &mut Run, reports: &mut Reports) -> u64 {
    run.persons.clear();
    run.housing = None;
    let mut unseen = 0;
    for (at, line) in run.lines[..run.count].iter().enumerate() {
        let why = match line.text.first() {
            Some(b'P') if run.persons.len() < 30 => {
                run.persons.push(at);
                continue;
            }
            Some(b'H') if run.housing.is_none() => {
                run.housing = Some(at);
                continue;
            }
            Some(b'P' | b'H') => "extra",
            _ => "unknown",
        };
        unseen += 1;
        writeln!(reports.held, "U {} {why}", line.number).expect("memory");
    }
    unseen
}
