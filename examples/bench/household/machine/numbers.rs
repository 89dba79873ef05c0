//! What is made of numbers, and how they relate.

use crate::line::{Number, Undefined, Value};

/// How two values relate, as a bit: 1 less, 2 equal, 4 greater. A relation is the bits that it holds for.
pub const RELATIONS: [u8; 6] = [2, 5, 1, 3, 4, 6];

#[inline(always)]
pub fn holds(relation: u8, x: Value, y: Value) -> bool {
    if let (Number(a), Number(b)) = (x, y) {
        let place = 1 + i32::from(a > b) - i32::from(a < b);
        return relation >> place & 1 == 1;
    }
    match relation {
        2 => x == y,
        5 => x != y,
        _ => false,
    }
}

#[inline(always)]
pub fn truth(holds: bool) -> Value {
    Number(holds.into())
}

#[inline(always)]
pub fn is_true(value: Value) -> bool {
    matches!(value, Number(n) if n != 0)
}

/// The number of an occurrence by its slot and the first slot of its record.
#[inline(always)]
pub fn number_of(slot: u8, first: u8) -> Value {
    Number(i64::from(slot - first) + 1)
}

#[inline(always)]
pub fn add(x: Value, y: Value) -> Value {
    match (x, y) {
        (Number(a), Number(b)) => a.checked_add(b).map_or(Undefined, Number),
        _ => Undefined,
    }
}

#[inline(always)]
pub fn subtract(x: Value, y: Value) -> Value {
    match (x, y) {
        (Number(a), Number(b)) => a.checked_sub(b).map_or(Undefined, Number),
        _ => Undefined,
    }
}

pub fn quotient(x: Value, y: Value) -> Value {
    match (x, y) {
        (Number(a), Number(b)) => a.checked_div(b).map_or(Undefined, Number),
        _ => Undefined,
    }
}
