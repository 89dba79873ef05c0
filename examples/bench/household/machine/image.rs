//! Reads the image of a program, and what its dictionary tells beside it: the codes of `missing`, the fill, the value sets.

use super::FRAME;
use crate::line::Item;
use std::collections::HashMap;

#[derive(Clone, Copy)]
pub struct Instruction {
    pub opcode: u8,
    pub a: u8,
    pub b: u16,
    pub c: u32,
}

pub struct Array {
    pub name: String,
    pub sizes: Vec<usize>,
}

impl Array {
    pub fn cells(&self) -> usize {
        self.sizes.iter().product()
    }

    /// Its name and sizes, as the deck file has them.
    pub fn head(&self) -> String {
        let sizes = self.sizes.iter().map(|size| format!(" {size}"));
        sizes.fold(self.name.clone(), |head, size| head + &size)
    }
}

pub struct Message {
    pub number: u64,
    pub is_summary: bool,
    pub text: String,
}

pub struct Routine {
    /// Its first parameter is an occurrence.
    pub has_occurrence: bool,
    pub code: Vec<Instruction>,
}

#[derive(Clone, Copy)]
pub struct Event {
    pub code: u8,
    pub index: usize,
    pub routine: usize,
}

pub struct Image {
    /// How many occurrences of each record a case may have.
    pub records: Vec<usize>,
    /// The record of each item.
    pub items: Vec<u8>,
    pub order: Vec<usize>,
    pub constants: Vec<i64>,
    pub limits: Vec<u32>,
    pub texts: Vec<String>,
    /// How many characters each global has that is a text.
    pub globals: Vec<Option<usize>>,
    pub arrays: Vec<Array>,
    pub messages: Vec<Message>,
    pub routines: Vec<Routine>,
    pub events: Vec<Event>,
}

struct Bytes<'a>(&'a [u8]);

impl Bytes<'_> {
    fn number<const WIDTH: usize>(&mut self) -> i64 {
        let (bytes, rest) = self.0.split_at(WIDTH);
        self.0 = rest;
        let mut eight = [0; 8];
        eight[..WIDTH].copy_from_slice(bytes);
        i64::from_le_bytes(eight)
    }

    fn small<const WIDTH: usize>(&mut self) -> usize {
        self.number::<WIDTH>() as usize
    }

    fn text(&mut self, length: usize) -> String {
        let (bytes, rest) = self.0.split_at(length);
        self.0 = rest;
        String::from_utf8(bytes.to_vec()).expect("UTF-8")
    }

    fn section<T>(&mut self, entry: impl Fn(&mut Self) -> T) -> Vec<T> {
        (0..self.small::<4>()).map(|_| entry(self)).collect()
    }

    /// The record of an item; the dictionary tells its columns too.
    fn item(&mut self) -> u8 {
        self.number::<8>() as u8
    }

    fn set(&mut self) {
        self.number::<4>();
        assert_eq!(self.number::<4>(), 0, "a set that isn't whole");
    }

    fn array(&mut self) -> Array {
        assert_eq!(self.small::<1>(), 1, "an array that isn't saved");
        let (dimensions, length) = (self.small::<1>(), self.small::<1>());
        self.small::<1>();
        let sizes = (0..dimensions).map(|_| self.small::<2>()).collect();
        let name = self.text(length);
        self.section(|bytes| bytes.number::<8>());
        Array { name, sizes }
    }

    fn message(&mut self) -> Message {
        let (number, is_summary) = (self.small::<4>() as u64, self.small::<1>() == 1);
        self.small::<1>();
        let length = self.small::<2>();
        Message { number, is_summary, text: self.text(length) }
    }

    /// A routine, and how many instructions it has. It has one parameter at most, and beside it one number.
    fn routine(&mut self) -> (Routine, usize) {
        self.small::<2>();
        let (parameters, locals) = (self.small::<1>(), self.small::<1>());
        let kinds: Vec<usize> = (0..locals).map(|_| self.small::<4>() & 0xff).collect();
        assert!(parameters <= 1 && locals <= FRAME && !kinds.contains(&2), "other locals");
        let has_occurrence = kinds.first() == Some(&3);
        let length = self.small::<4>();
        (Routine { has_occurrence, code: vec![] }, length)
    }

    fn event(&mut self) -> Event {
        let code = self.small::<2>() as u8;
        Event { code, index: self.small::<2>(), routine: self.small::<4>() }
    }

    fn instruction(&mut self) -> Instruction {
        Instruction {
            opcode: self.small::<1>() as u8,
            a: self.small::<1>() as u8,
            b: self.small::<2>() as u16,
            c: self.small::<4>() as u32,
        }
    }
}

impl Image {
    pub fn read(bytes: &[u8]) -> Image {
        assert!(bytes.starts_with(b"CSEB\x02\0\0\0"), "an image of version 2");
        let mut bytes = Bytes(&bytes[8..]);
        let mut image = Image {
            records: bytes.section(|it| (it.small::<4>(), it.small::<4>()).0),
            items: bytes.section(Bytes::item),
            order: {
                bytes.section(Bytes::set);
                bytes.section(Bytes::small::<4>)
            },
            constants: bytes.section(Bytes::number::<8>),
            limits: bytes.section(|it| it.small::<4>() as u32),
            texts: bytes.section(|it| {
                let length = it.small::<2>();
                it.text(length)
            }),
            globals: bytes.section(|it| {
                let (kind, length) = (it.small::<2>(), it.small::<2>());
                (kind == 2).then_some(length)
            }),
            arrays: bytes.section(Bytes::array),
            messages: bytes.section(Bytes::message),
            routines: vec![],
            events: vec![],
        };
        let heads = bytes.section(Bytes::routine);
        image.events = bytes.section(Bytes::event);
        for (mut routine, length) in heads {
            routine.code = (0..length).map(|_| bytes.instruction()).collect();
            image.routines.push(routine);
        }
        image
    }

    /// The first slot of each record: a case has a slot for each occurrence that there may be.
    pub fn first_slots(&self) -> Vec<u8> {
        let before = |record| self.records[..record].iter().sum::<usize>() as u8;
        (0..self.records.len()).map(before).collect()
    }

    /// The routine of an event, if there is one.
    pub fn event(&self, code: u8, index: usize) -> Option<usize> {
        let is_it = |event: &&Event| event.code == code && event.index == index;
        self.events.iter().find(is_it).map(|event| event.routine)
    }
}

/// What the dictionary tells of an item.
pub struct Told {
    pub name: String,
    pub item: Item,
}

/// The items and the value sets of a dictionary. A set is a list of rows, a row a list of ranges.
pub struct Dictionary {
    pub items: Vec<Told>,
    pub sets: Vec<Vec<Vec<(i64, i64)>>>,
}

/// The ranges on a `Value` line.
fn row(value: &str) -> Vec<(i64, i64)> {
    let pairs = value.split(';').next().unwrap_or("").split_whitespace();
    let bound = |text: &str| text.parse().expect("a number");
    pairs
        .map(|pair| match pair.split_once(':') {
            Some((low, high)) => (bound(low), bound(high)),
            None => (bound(pair), bound(pair)),
        })
        .collect()
}

impl Dictionary {
    pub fn read(text: &str) -> Dictionary {
        let mut found = Dictionary { items: vec![], sets: vec![] };
        for section in text.split("\n[").skip(1) {
            let (heading, lines) = section.split_once(']').expect("a heading");
            let pairs: Vec<(&str, &str)> = lines
                .lines()
                .filter_map(|line| line.split_once('='))
                .map(|(key, value)| (key.trim(), value.trim()))
                .collect();
            let keys: HashMap<&str, &str> = pairs.iter().rev().copied().collect();
            let number = |key: &str| keys.get(key).map(|value| value.parse().expect("a number"));
            match heading {
                "Item" => found.items.push(Told {
                    name: keys["Name"].to_string(),
                    item: Item {
                        start: number("Start").expect("a column") as usize - 1,
                        width: number("Len").expect("a length") as usize,
                        code: number("EditMissing"),
                        fill: keys.get("ZeroFill") == Some(&"Yes"),
                    },
                }),
                "ValueSet" => {
                    let values = pairs.iter().filter(|(key, _)| *key == "Value");
                    found.sets.push(values.map(|(_, value)| row(value)).collect());
                }
                _ => {}
            }
        }
        found
    }
}
