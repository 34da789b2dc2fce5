//! Text logs of generated nights, whole and damaged; decimals for their readings; and bits for the readings of a trace.
#![allow(dead_code)]

use crate::dice::Dice;
use crate::text_log::{MOST_DIGITS, MOST_PLACES, TOO_MANY, parts_of_float, spelled};
use crate::tick::Tick;
use crate::trace::{BOX, MODE, NUMBERS, Reader, Record, SECONDS, ZONE};
use crate::trace_bytes;
use crate::trace_nights::Whole;

/// How a decimal was chosen.
#[derive(Clone, Copy, PartialEq, Debug)]
pub enum Kind {
    Random,
    BelowHalf,
    AboveHalf,
    End,
    PowerOfTwo,
    Zero,
}

pub const KINDS: [Kind; 6] = [Kind::Random, Kind::BelowHalf, Kind::AboveHalf, Kind::End, Kind::PowerOfTwo, Kind::Zero];

/// The text of a decimal that a log may hold, often with needless zeros. Its length is that of its digits.
pub struct Decimal {
    pub text: String,
    pub kind: Kind,
    pub length: usize,
    pub places: usize,
}

impl Decimal {
    /// So many digits, zeros in front among them, and one more where the point has none before it. A zero has no minus.
    fn new(dice: &mut Dice, kind: Kind, digits: u64, length: usize, places: usize) -> Decimal {
        let unsigned = spelled(u128::from(digits), places);
        let size = unsigned.len() - usize::from(places > 0);
        let zeros = "0".repeat(length.saturating_sub(size));
        let minus = if digits > 0 && dice.one_in(2) { "-" } else { "" };
        Decimal { text: format!("{minus}{zeros}{unsigned}"), kind, length: size + zeros.len(), places }
    }

    pub fn any(dice: &mut Dice) -> Decimal {
        let length = 1 + dice.below(MOST_DIGITS as u64) as usize;
        let places = dice.below(length.min(MOST_PLACES + 1) as u64) as usize;
        let all = 10u64.pow(length as u32);
        match dice.below(16) {
            0..5 => {
                let places = 1 + dice.below(MOST_PLACES as u64) as usize;
                let (kind, digits) = near_half(dice, places);
                Decimal::new(dice, kind, digits, 0, places)
            }
            5 => {
                let unit = 10u64.pow(dice.below(length as u64) as u32);
                let digits = dice.pick(&[all - 1, all - unit, all - 2, unit, unit + 1, unit - 1, 1, all / 2, all / 2 + 1]);
                let kind = if digits == 0 { Kind::Zero } else { Kind::End };
                Decimal::new(dice, kind, digits, length, places)
            }
            6 => {
                let digits = beside_power(dice, places);
                Decimal::new(dice, Kind::PowerOfTwo, digits, 0, places)
            }
            7 if dice.one_in(4) => Decimal::new(dice, Kind::Zero, 0, length, places),
            _ => {
                let digits = dice.below(all);
                let kind = if digits == 0 { Kind::Zero } else { Kind::Random };
                Decimal::new(dice, kind, digits, length, places)
            }
        }
    }
}

/// A number of at most so many digits, as often of each count.
fn whole_number(dice: &mut Dice, most_digits: usize) -> u64 {
    let digits = 1 + dice.below(most_digits as u64) as u32;
    dice.below(10u64.pow(digits))
}

/// The digits of a decimal with so many places that stands as near to the half between two f64 as any does, below it or above.
///
/// None stands just there: a half is an odd number above 2^53 times a power of two. Were it digits / 10^places, that odd number would divide the digits, and they are
/// below 10^15, which is below 2^50. Measured by the gap between the two, digits / 10^places is digits * 2^shift / 5^places, whose fraction is some number of
/// 5^places-ths: the nearest to a half is half of one of them away.
fn near_half(dice: &mut Dice, places: usize) -> (Kind, u64) {
    let parts = 5u64.pow(places as u32);
    loop {
        let any = whole_number(dice, MOST_DIGITS).max(1);
        let exponent = |digits: u64| parts_of_float(digits as f64 / 10f64.powi(places as i32)).1;
        let shift = -exponent(any) - places as i32;
        // The remainder of digits * 2^shift by 5^places, and from it that of the digits: a half is (5^places + 1) / 2.
        let (kind, wanted) = dice.pick(&[(Kind::BelowHalf, parts / 2), (Kind::AboveHalf, parts / 2 + 1)]);
        let halved = (0..shift).fold(wanted, |rest, _| rest * parts.div_ceil(2) % parts);
        let digits = any - any % parts + halved;
        if digits > 0 && u128::from(digits) < TOO_MANY && exponent(digits) == exponent(any) {
            return (kind, digits);
        }
    }
}

/// The digits of a decimal with so many places next to a power of two, where the gap between two f64 changes.
fn beside_power(dice: &mut Dice, places: usize) -> u64 {
    loop {
        let power = 2f64.powi(dice.below(70) as i32 - 20) * 10f64.powi(places as i32);
        let digits = power as u64 + dice.below(3);
        if power < 9e14 && digits > 0 {
            return digits;
        }
    }
}

/// A log by its lines, each by its fields.
pub struct Log {
    pub lines: Vec<Vec<String>>,
}

impl Log {
    /// The records of a night as a gateway writes them: each reading rounded to some digits after the point, and some of them other decimals.
    pub fn of(dice: &mut Dice, lives: &[Vec<Tick>], most: usize) -> Log {
        let records = Whole::of(dice, lives, most).records;
        let others = dice.pick(&[0, 0, 20, 2]);
        let line = |record: &Record| {
            let integers = record[..ZONE].iter().map(u64::to_string);
            let readings = record[ZONE..].iter().map(|&bits| {
                if others > 0 && dice.one_in(others) { Decimal::any(dice).text } else { rounded(dice, f64::from_bits(bits)) }
            });
            integers.chain(readings).collect()
        };
        Log { lines: records.iter().map(line).collect() }
    }

    /// So many lines of readings, with their count.
    pub fn of_readings(dice: &mut Dice, lines: usize, mut count: impl FnMut(&Decimal)) -> Log {
        let mut reading = || {
            let decimal = Decimal::any(dice);
            count(&decimal);
            decimal.text
        };
        let mut line = || {
            let integers = ["3", "60", "7", "1", "0", "0"].map(String::from);
            integers.into_iter().chain((ZONE..NUMBERS).map(|_| reading())).collect()
        };
        Log { lines: (0..lines).map(|_| line()).collect() }
    }

    pub fn text(&self) -> Vec<u8> {
        text(&self.lines)
    }

    /// The log with a line spoilt, for one reason or for several, and some lines before it and after it.
    pub fn spoilt(&self, dice: &mut Dice) -> Vec<u8> {
        let count = self.lines.len();
        let at = dice.below(count as u64) as usize;
        let first = if dice.one_in(4) { 0 } else { at.saturating_sub(3) };
        let mut lines = self.lines[first..count.min(at + 1 + dice.below(4) as usize)].to_vec();
        let place = at - first;
        match dice.below(12) {
            0 => drop(lines.remove(place)),
            1 => lines.insert(place, lines[place].clone()),
            2 if place + 1 < lines.len() => lines.swap(place, place + 1),
            3 if place > 0 => lines.swap(place, place - 1),
            _ => spoil(dice, &mut lines[place]),
        }
        while dice.one_in(3) && place < lines.len() {
            spoil(dice, &mut lines[place]);
        }
        let mut text = text(&lines);
        if dice.one_in(4) {
            spoil_newline(dice, &mut text);
        }
        text
    }
}

fn text(lines: &[Vec<String>]) -> Vec<u8> {
    lines.iter().flat_map(|line| (line.join(",") + "\n").into_bytes()).collect()
}

/// A reading rounded to some digits after the point, now and then with zeros in front. None is a zero with a minus.
fn rounded(dice: &mut Dice, reading: f64) -> String {
    let places = dice.below(MOST_PLACES as u64 + 1) as usize;
    let mut text = format!("{:.places$}", reading.abs());
    if dice.one_in(30) {
        text = "0".repeat(dice.below(5) as usize) + &text;
    }
    let is_zero = text.bytes().all(|byte| byte == b'0' || byte == b'.');
    if reading < 0.0 && !is_zero { format!("-{text}") } else { text }
}

/// A field that is no integer.
const NO_INTEGERS: [&str; 20] = [
    "", "00", "01", "007", "-1", "-0", "+1", "1.0", "1.", ".1", " 1", "1 ", "1e2", "0x1", "1_0", "a", "1\t", "\u{661}", "000000000000000000000000000000000000000000", "1\r",
];

/// Integers above every limit, and what they are modulo 2^64 and 2^32 is below.
const LONG_INTEGERS: [&str; 8] = [
    "18446744073709551615",
    "18446744073709551616",
    "18446744073709551619",
    "36893488147419103233",
    "99999999999999999999",
    "4294967297",
    "1000000000000000000000000000000000000000",
    "340282366920938463463374607431768211457",
];

/// A field that is no reading.
const NO_READINGS: [&str; 34] = [
    "", "-", ".", "-.", ".5", "-.5", "5.", "-5.", "1.", "--1", "-+1", "+1", "+0.5", "1e5", "1E5", "1e-2", "1.5e3", "1.2.3", "1..2", "inf", "-inf", "NaN", "nan",
    "infinity", "0x1p3", " 1", "1 ", "1 000", "1_000", "1,", "1-", "1.-5", "\u{661}", "2\r",
];

/// Readings of too many digits, or of just as many as are taken.
const LONG_READINGS: [&str; 22] = [
    "1234567890123456",
    "0000000000000001",
    "0000000000000000",
    "000000000000001",
    "000000000000000",
    "999999999999999",
    "-999999999999999",
    "9999999999999999",
    "999999999.999999",
    "9999999999.999999",
    "0000000000.000000",
    "000000000.000001",
    "0.0000001",
    "0.0000000",
    "1.0000000",
    "-1.1234567",
    "0.000001",
    "-0.000001",
    "1000000000000000",
    "123456789012345678901234567890",
    "0.00000000000000000000000000000000000000001",
    "184467440737095516160000000000.5",
];

/// Zeros with a minus, some with too many digits.
const MINUS_ZEROS: [&str; 9] = ["-0", "-0.0", "-0.000", "-00", "-000.0", "-0.000000", "-0.0000000", "-000000000000000", "-0000000000000000"];

/// Puts a fault into a line, or what may be one.
fn spoil(dice: &mut Dice, line: &mut Vec<String>) {
    if line.is_empty() {
        return;
    }
    let reading = ZONE + dice.below((NUMBERS - ZONE) as u64) as usize;
    let (limited, most) = dice.pick(&[(BOX, 15), (2, 7), (MODE, 255), (MODE + 1, 255), (MODE + 2, 255), (SECONDS, 1u64 << 31)]);
    let (place, field): (usize, String) = match dice.below(18) {
        0 | 1 => (dice.below(ZONE as u64) as usize, dice.pick(&NO_INTEGERS).into()),
        2 | 3 => (reading, dice.pick(&NO_READINGS).into()),
        4 => (limited, (most + dice.pick(&[0, 1, 1, 2])).to_string()),
        5 => (limited, dice.pick(&LONG_INTEGERS).into()),
        6 => (limited, (1 + dice.below(9)).to_string() + &"7".repeat(dice.below(40) as usize)),
        7 | 8 => (reading, dice.pick(&LONG_READINGS).into()),
        9 | 10 => (reading, dice.pick(&MINUS_ZEROS).into()),
        11..15 => return displace(dice, line),
        15 => (SECONDS, "0".into()),
        16 => (BOX, dice.below(16).to_string()),
        _ => (reading, Decimal::any(dice).text),
    };
    if let Some(taken) = line.get_mut(place) {
        *taken = field;
    }
}

/// Two fields exchanged, one left out or doubled, or bytes put into one.
fn displace(dice: &mut Dice, line: &mut Vec<String>) {
    let any = dice.below(line.len() as u64) as usize;
    match dice.below(4) {
        0 => {
            let other = dice.below(line.len() as u64) as usize;
            line.swap(any, other);
        }
        1 => drop(line.remove(any)),
        2 => line.insert(any, line[any].clone()),
        _ => {
            let digits = dice.pick(&["0", "00", "1", "7", "000000", "123456", "0000000000", "-"]);
            let field = &mut line[any];
            let ends: Vec<usize> = (0..=field.len()).filter(|&at| field.is_char_boundary(at)).collect();
            field.insert_str(dice.pick(&ends), digits);
        }
    }
}

/// Leaves a newline out, or puts something before it or behind it.
fn spoil_newline(dice: &mut Dice, text: &mut Vec<u8>) {
    let ends: Vec<usize> = (0..text.len()).filter(|&at| text[at] == b'\n').collect();
    if ends.is_empty() {
        return;
    }
    let at = dice.pick(&ends);
    match dice.below(5) {
        0 => drop(text.remove(at)),
        1 => text.insert(at, b'\r'),
        2 => text.insert(at, b'\n'),
        3 => text.insert(at, dice.pick(b" ,.-\t\0")),
        _ => text[at] = dice.pick(b"\r, ;\0"),
    }
}

/// The text with a byte changed, left out or put in.
pub fn scratched(dice: &mut Dice, text: &[u8]) -> Vec<u8> {
    let mut text = text.to_vec();
    let at = dice.below(text.len() as u64) as usize;
    let byte = if dice.one_in(4) { dice.word() as u8 } else { dice.pick(b"0123456789,.-\n\r +e/:") };
    match dice.below(4) {
        0 => text[at] ^= 1 << dice.below(8),
        1 => drop(text.remove(at)),
        2 => text.insert(at, byte),
        _ => text[at] = byte,
    }
    text
}

/// Bytes of chance, of those that a log has.
pub fn random(dice: &mut Dice) -> Vec<u8> {
    let length = dice.pick(&[1, 4, 20, 100]);
    (0..1 + dice.below(length)).map(|_| dice.pick(b"0011259,,,,,,..-\n\n")).collect()
}

/// The records of a trace that nothing refuses.
pub fn whole(trace: &[u8]) -> Whole {
    let (mut left, mut records) = (trace, Vec::new());
    while let Some(record) = Reader(None).record(&mut left).expect("a whole trace") {
        records.push(record);
    }
    Whole::new(records)
}

/// The trace of a night with a reading of any bits in some of its last records.
pub fn with_bits(dice: &mut Dice, night: &Whole) -> Vec<u8> {
    let at = dice.below(night.records.len() as u64) as usize;
    let mut records = night.records[at.saturating_sub(3)..night.records.len().min(at + 3)].to_vec();
    for _ in 0..dice.pick(&[1, 1, 2, 5]) {
        let record = dice.below(records.len() as u64) as usize;
        records[record][ZONE + dice.below((NUMBERS - ZONE) as u64) as usize] = bits(dice);
    }
    trace_bytes::trace(&records)
}

/// Bits of a reading: of a decimal, beside one, of a decimal with too many digits, and of what no decimal is near to.
pub fn bits(dice: &mut Dice) -> u64 {
    let decimal: f64 = Decimal::any(dice).text.parse().expect("a decimal");
    let sign = dice.below(2) << 63;
    match dice.below(12) {
        0..3 => decimal.to_bits(),
        3 | 4 => dice.beside(decimal).to_bits(),
        // 10^15 and above, up to where not all whole numbers are f64
        5 => sign | dice.beside_one_of(&[1e15, 999999999999999.0, 2f64.powi(50), 2f64.powi(53), 1e16, 1e22]).to_bits(),
        6 => sign | ((999_999_999_999_000 + dice.below(2000)) as f64).to_bits(),
        // 7 digits after the point and 16 digits
        7 => sign | ((whole_number(dice, 14) * 10 + 1) as f64 / 1e7).to_bits(),
        8 => sign | ((10u64.pow(15) + dice.below(8 * 10u64.pow(15))) as f64 / 10f64.powi(dice.below(7) as i32)).to_bits(),
        9 => sign | dice.pick(&[0, 1, 1 << 52, 1 << 51, f64::MAX.to_bits(), 0x7ff0 << 48, 0x7ff0 << 48 | 1, 0x7ff8 << 48, u64::MAX >> 1]),
        10 => dice.beside_one_of(&[0.000001, 0.0000005, 0.000002, 0.0000001, 0.999999, 0.9999999, 0.0000015]).to_bits(),
        _ => dice.word(),
    }
}
