//! Traces by their bytes: numbers and records spelled, and numbers spelled as none is taken.
#![allow(dead_code)]

use crate::dice::Dice;
use crate::trace::{NUMBERS, Record};

/// The numbers of a record, each as its bytes.
pub type Spelled = [Vec<u8>; NUMBERS];

/// The one way to spell a number.
pub fn number(mut number: u64) -> Vec<u8> {
    let mut bytes = Vec::new();
    while number > 0x7f {
        bytes.push(0x80 | (number & 0x7f) as u8);
        number >>= 7;
    }
    bytes.push(number as u8);
    bytes
}

pub fn record(record: &Record) -> Spelled {
    record.map(number)
}

pub fn trace(records: &[Record]) -> Vec<u8> {
    records.iter().flat_map(|r| record(r).concat()).collect()
}

pub fn hex(bytes: &[u8]) -> String {
    bytes.iter().map(|byte| format!("{byte:02x}")).collect()
}

/// So many groups with the high bit, and one more byte.
pub fn long(groups: usize, last: u8) -> Vec<u8> {
    let mut bytes = vec![0x81; groups];
    bytes.push(last);
    bytes
}

/// A number with this many needless groups of zero behind it.
pub fn needless(value: u64, zeros: usize) -> Vec<u8> {
    let mut bytes = number(value);
    for _ in 0..zeros {
        *bytes.last_mut().expect("a group") |= 0x80;
        bytes.push(0);
    }
    bytes
}

/// A spelling that is refused with 21, whatever follows.
pub fn bad_number(dice: &mut Dice, value: u64) -> Vec<u8> {
    match dice.below(6) {
        0 => needless(value, 1),
        1 => needless(value, 1 + dice.below(9) as usize),
        2 => long(9, dice.pick(&[0, 2, 3, 0x40, 0x7f])),
        3 => long(9, dice.pick(&[0x80, 0x81, 0x82, 0xff])),
        4 => long(10 + dice.below(9) as usize, dice.pick(&[0, 1, 0x7f])),
        _ => vec![0xff; 10],
    }
}
