//! Text logs and traces whose conversion is known by hand from the words of the documents.

use crate::text_log::Way::{self, ToText, ToTrace};
use crate::trace::{BOX, FLAGS, MODE, MOST_STEP, NUMBERS, Record, SECONDS, ZONE, with};
use crate::trace_bytes as bytes;

/// An input, the bytes of the room, the records done with what is written for them, and the number.
pub struct Case {
    pub way: Way,
    pub input: Vec<u8>,
    pub room: usize,
    pub done: usize,
    pub output: Vec<u8>,
    pub number: u8,
}

const DAMPER: usize = 5;
const FLOW: usize = 13;

type Fields = [&'static str; NUMBERS];

/// A line and its record.
const LINE: Fields = ["9", "60", "7", "1", "0", "255", "296.5", "297", "293", "900", "0", "288.125", "-0.5", "0.1"];
const READINGS: [f64; 8] = [296.5, 297.0, 293.0, 900.0, 0.0, 288.125, -0.5, 0.1];

fn record() -> Record {
    let mut record = [0; NUMBERS];
    record[..ZONE].copy_from_slice(&[9, 60, 7, 1, 0, 255]);
    record[ZONE..].copy_from_slice(&READINGS.map(f64::to_bits));
    record
}

fn fields(changes: &[(usize, &'static str)]) -> Fields {
    let mut fields = LINE;
    changes.iter().for_each(|&(place, field)| fields[place] = field);
    fields
}

fn line(changes: &[(usize, &'static str)]) -> String {
    fields(changes).join(",") + "\n"
}

/// With more room than it takes, which nothing is written in.
fn case(way: Way, input: impl Into<Vec<u8>>, done: usize, output: impl Into<Vec<u8>>, number: u8) -> Case {
    let output = output.into();
    Case { way, input: input.into(), room: output.len() + 500, done, output, number }
}

fn room(case: Case, room: usize) -> Case {
    Case { room, ..case }
}

/// A first line that is done, and one that is refused.
fn refused(second: &str, number: u8) -> Case {
    case(ToTrace, line(&[]) + second, 1, bytes::trace(&[record()]), number)
}

/// A first record that is done, and what is refused.
fn refused_record(second: Vec<u8>, number: u8) -> Case {
    case(ToText, [bytes::trace(&[record()]), second].concat(), 1, line(&[]), number)
}

pub fn cases() -> Vec<Case> {
    [lines(), integers(), readings(), at_once(), decimals(), traces(), numbers(), limits(), at_once_in_trace(), order(), rooms()].into_iter().flatten().collect()
}

/// Whole lines: how they end, and how many fields they have.
fn lines() -> Vec<Case> {
    let whole = line(&[]);
    let bare = whole.trim_end();
    let later = line(&[(BOX, "3"), (SECONDS, "1")]);
    let both = bytes::trace(&[record(), with(record(), [(BOX, 3), (SECONDS, 1)])]);
    let mut cases = vec![case(ToTrace, "", 0, "", 0), case(ToTrace, "\n", 0, "", 50), case(ToTrace, whole.clone() + &later, 2, both, 0)];
    let out_of_form = ["\n", " \n", "\r\n", ",\n", ",,,,,,,,,,,,,\n", "9\n", "\0"].map(String::from).into_iter().chain([
        format!("{bare}\r\n"),
        format!("{bare}\r"),
        format!(" {bare}\n"),
        format!("{bare} \n"),
        format!("{bare},\n"),
        format!(",{bare}\n"),
        format!("{bare},0\n"),
        format!("0,{bare}\n"),
        format!("\u{feff}{bare}\n"),
        format!("{bare}\0\n"),
        bare.replace(',', ", ") + "\n",
        bare.replace(',', ";") + "\n",
        bare.replacen(',', ",,", 1) + "\n",
        bare.replacen(',', "", 1) + "\n",
        bare.replacen(',', "\n", 1) + "\n",
        bare.rsplit_once(',').expect("fields").0.to_string() + "\n",
        bare.split_once(',').expect("fields").1.to_string() + "\n",
    ]);
    cases.push(refused(bare, 50));
    // Whatever stands behind them.
    cases.extend(out_of_form.flat_map(|text| [refused(&text, 50), refused(&(text + "\n" + &later), 50)]));
    // A text that ends early, but at the end of a line.
    let two = whole.clone() + &later;
    cases.extend((1..two.len()).filter(|&length| length != whole.len()).map(|length| {
        let done = usize::from(length > whole.len());
        case(ToTrace, &two[..length], done, bytes::trace(&[record()][..done]), 50)
    }));
    cases
}

/// Each integer as it may not stand, and at its limit.
fn integers() -> Vec<Case> {
    let mut cases = Vec::new();
    let out_of_form = [
        "", "00", "01", "007", "-1", "-0", "+1", "1.0", "1.", ".1", " 1", "1 ", "1e2", "0x1", "1_0", "a", "\t1", "\u{661}", "0000000000000000000000000",
        "99999999999999999999999999999999999999-",
    ];
    for place in 0..ZONE {
        cases.extend(out_of_form.iter().map(|field| refused(&line(&[(place, field)]), 50)));
    }
    let (box_number, flags, setting, step) = (["15", "16"], ["7", "8"], ["255", "256"], ["2147483648", "2147483649"]);
    let limits = [(BOX, box_number, 22), (FLAGS, flags, 23), (MODE, setting, 24), (MODE + 1, setting, 24), (DAMPER, setting, 24), (SECONDS, step, 25)];
    // 2^64 - 1, 2^64, 2^64 + 3, 2^128 + 1 and of forty digits
    let longer = [
        "18446744073709551615",
        "18446744073709551616",
        "18446744073709551619",
        "340282366920938463463374607431768211457",
        "1000000000000000000000000000000000000000",
    ];
    for (place, [most, more], number) in limits {
        let value = most.parse().expect("a number");
        cases.push(case(ToTrace, line(&[(place, most)]), 1, bytes::trace(&[with(record(), [(place, value)])]), 0));
        cases.push(case(ToTrace, line(&[(place, "0")]), 1, bytes::trace(&[with(record(), [(place, 0)])]), 0));
        cases.extend([more].iter().chain(&longer).map(|field| refused(&line(&[(place, field)]), number)));
    }
    cases
}

/// Fields that are no reading.
const OUT_OF_FORM: &[&str] = &[
    "", "-", ".", "-.", ".5", "-.5", "5.", "-5.", "1.", "--1", "-+1", "+1", "+0.5", "1e5", "1E5", "1e-2", "1.5e3", "1.2.3", "1..2", "inf", "-inf", "NaN", "nan",
    "infinity", "0x1p3", " 1", "1 ", "1 000", "1_000", "1-", "1.-5", "0,5", "\u{661}", "2\r", "0000000000000000000000000x", "-0.0000000.", "12345678901234567890.",
];

/// Readings with too many digits.
const TOO_MANY: &[&str] = &[
    "1234567890123456", "0000000000000000", "0000000000000001", "-1000000000000000", "9999999999.999999", "0000000000.000000", "0.0000000", "0.0000001",
    "-1.1234567", "1.0000000", "-0.0000000", "-0000000000000000", "1234567890123456789012345678901234567890", "0.1000000000000000000000000000000000000000",
];

/// Zeros with a minus.
const MINUS_ZEROS: &[&str] = &["-0", "-0.0", "-0.000", "-00", "-000.0", "-0.000000", "-000000000000000", "-000000000.000000"];

/// Readings and the bits of their f64, as Python's parser gives them, which is correctly rounded as well.
const TAKEN: &[(&str, u64)] = &[
    ("0", 0),
    ("0.0", 0),
    ("00", 0),
    ("000000000.000000", 0),
    ("1", 0x3ff0000000000000),
    ("000000000000001", 0x3ff0000000000000),
    ("0.1", 0x3fb999999999999a),
    ("0.30", 0x3fd3333333333333),
    ("007.5", 0x401e000000000000),
    ("-2.25", 0xc002000000000000),
    ("300", 0x4072c00000000000),
    ("0.000001", 0x3eb0c6f7a0b5ed8d),
    ("-0.000001", 0xbeb0c6f7a0b5ed8d),
    ("000000000.000001", 0x3eb0c6f7a0b5ed8d),
    ("0.999999", 0x3feffffde7210be9),
    ("999999999.999999", 0x41cdcd64fffffff8),
    ("123456789.012345", 0x419d6f34540ca42b),
    ("99999999999999.9", 0x42d6bcc41e8ffffa),
    ("999999999999999", 0x430c6bf52633fff8),
    ("-999999999999999", 0xc30c6bf52633fff8),
];

/// Each reading as it may not stand, with too many digits, with just as many as are taken, and a zero with a minus.
fn readings() -> Vec<Case> {
    let mut cases = Vec::new();
    for place in ZONE..NUMBERS {
        cases.extend(OUT_OF_FORM.iter().map(|field| refused(&line(&[(place, field)]), 50)));
        cases.extend(TOO_MANY.iter().map(|field| refused(&line(&[(place, field)]), 51)));
        cases.extend(MINUS_ZEROS.iter().map(|field| refused(&line(&[(place, field)]), 52)));
        cases.extend(TAKEN.iter().map(|&(field, bits)| case(ToTrace, line(&[(place, field)]), 1, bytes::trace(&[with(record(), [(place, bits)])]), 0)));
    }
    cases
}

/// Faults of one line at once, at whatever fields they are: each question is asked of the whole line before the next.
fn at_once() -> Vec<Case> {
    // In the order in which they are asked.
    let faults: [(&[usize], &str, u8); 14] = [
        (&[0, 1, 2, 3, 4, 5], "01", 50),
        (&[6, 9, 12, 13], "5.", 50),
        (&[6, 9, 12, 13], "-0.0000000", 51),
        (&[6, 9, 12, 13], "1234567890123456", 51),
        (&[6, 9, 12, 13], "-0", 52),
        (&[0], "16", 22),
        (&[0], "99999999999999999999999999999999", 22),
        (&[2], "8", 23),
        (&[2], "18446744073709551616", 23),
        (&[3, 4, 5], "256", 24),
        (&[3, 4, 5], "18446744073709551616", 24),
        (&[1], "2147483649", 25),
        (&[1], "18446744073709551616", 25),
        // in the second of the line before, and of the same box
        (&[1], "0", 27),
    ];
    let mut cases = Vec::new();
    for (order, &(places, field, number)) in faults.iter().enumerate() {
        for &place in places {
            for &(later_places, later_field, _) in &faults[order..] {
                let later = later_places.iter().filter(|&&later| later != place);
                cases.extend(later.flat_map(|&later| {
                    let both = line(&[(place, field), (later, later_field)]);
                    let no_room = refused(&both, number);
                    let room_of_first = no_room.output.len();
                    [refused(&both, number), room(no_room, room_of_first)]
                }));
            }
        }
    }
    // Not those of the next line.
    cases.push(refused(&(line(&[(BOX, "16")]) + "\n"), 22));
    cases.push(refused(&(line(&[(FLOW, "-0")]) + &line(&[(ZONE, "0.0000001")])), 52));
    cases
}

/// The bits of f64 and the decimals that they are written as.
const WRITTEN: &[(u64, &str)] = &[
    (0, "0"),
    (0x3ff0000000000000, "1"),
    (0xbff0000000000000, "-1"),
    (0x3fe0000000000000, "0.5"),
    (0x4072c00000000000, "300"),
    (0xc002000000000000, "-2.25"),
    (0x3fb999999999999a, "0.1"),
    (0x3fd3333333333333, "0.3"),
    (0x401e000000000000, "7.5"),
    (0x3eb0c6f7a0b5ed8d, "0.000001"),
    (0xbeb0c6f7a0b5ed8d, "-0.000001"),
    (0x3feffffde7210be9, "0.999999"),
    (0x41cdcd64fffffff8, "999999999.999999"),
    (0x419d6f34540ca42b, "123456789.012345"),
    (0x42d6bcc41e8ffffa, "99999999999999.9"),
    (0x430c6bf52633fff8, "999999999999999"),
    (0xc30c6bf52633fff8, "-999999999999999"),
    // 2^-6 has just six digits after the point
    (0x3f90000000000000, "0.015625"),
];

/// The bits of f64 that no allowed decimal gives.
const NOT_WRITTEN: &[u64] = &[
    // -0.0, the infinities and NaNs
    1 << 63,
    0x7ff0 << 48,
    0xfff0 << 48,
    0x7ff0 << 48 | 1,
    0x7ff8 << 48,
    0xfff8 << 48,
    u64::MAX,
    // beside 0.1, 0.3, 300 and 0.000001
    0x3fb9999999999999,
    0x3fb999999999999b,
    0x3fd3333333333334,
    0x4072c00000000001,
    0x4072bfffffffffff,
    0x3eb0c6f7a0b5ed8c,
    0x3eb0c6f7a0b5ed8e,
    // 2^-7, half of 0.000001, the least one, the least normal one
    0x3f80000000000000,
    0x3ea0c6f7a0b5ed8d,
    1,
    1 << 63 | 1,
    1 << 52,
    // 10^15 and beside it, 2^50, 2^53, 2^64, the largest one
    0x430c6bf526340000,
    0x430c6bf52633fffc,
    0x4310000000000000,
    0x4340000000000000,
    0x43f0000000000000,
    0x7fefffffffffffff,
    0xffefffffffffffff,
];

/// Readings of a trace with the decimal that is written, and those with none.
fn decimals() -> Vec<Case> {
    let mut cases = Vec::new();
    for place in ZONE..NUMBERS {
        let with_bits = |bits| bytes::trace(&[with(record(), [(SECONDS, 61), (place, bits)])]);
        cases.extend(WRITTEN.iter().map(|&(bits, text)| case(ToText, with_bits(bits), 1, line(&[(SECONDS, "61"), (place, text)]), 0)));
        cases.extend(NOT_WRITTEN.iter().map(|&bits| refused_record(with_bits(bits), 53)));
    }
    cases
}

/// Whole traces, and those that end inside a record.
fn traces() -> Vec<Case> {
    let two = [record(), with(record(), [(BOX, 3), (SECONDS, 1)])];
    let text = [line(&[]), line(&[(BOX, "3"), (SECONDS, "1")])];
    let (first, whole) = (bytes::trace(&two[..1]).len(), bytes::trace(&two));
    let cut = |length: usize| {
        let done = usize::from(length >= first) + usize::from(length >= whole.len());
        let clean = length == 0 || length == first || length == whole.len();
        case(ToText, &whole[..length], done, text[..done].concat(), if clean { 0 } else { 20 })
    };
    (0..=whole.len()).map(cut).collect()
}

/// Numbers of a trace at each place that are too long, or have a needless last group of zero.
fn numbers() -> Vec<Case> {
    let mut cases = Vec::new();
    for place in 0..NUMBERS {
        let mut bad = vec![bytes::needless(record()[place], 1), bytes::needless(0, 1), bytes::needless(0, 9), vec![0xff; 10]];
        bad.extend([0, 2, 0x7f, 0x80, 0x81].map(|last| bytes::long(9, last)));
        for number in bad {
            let mut numbers = bytes::record(&record());
            numbers[place] = number;
            cases.push(refused_record(numbers.concat(), 21));
            cases.push(refused_record(numbers[..=place].concat(), 21));
        }
    }
    cases
}

fn limits() -> Vec<Case> {
    let mut cases = Vec::new();
    for (place, most, number) in [(BOX, 15, 22), (FLAGS, 7, 23), (MODE, 255, 24), (MODE + 1, 255, 24), (DAMPER, 255, 24), (SECONDS, MOST_STEP, 25)] {
        let with_it = |value: u64| with(record(), [(place, value)]);
        let text = LINE.map(String::from);
        let mut text = text;
        text[place] = most.to_string();
        cases.push(case(ToText, bytes::trace(&[with_it(most)]), 1, text.join(",") + "\n", 0));
        cases.extend([most + 1, 1 << 32 | 1, 1 << 63, u64::MAX].map(|value| refused_record(bytes::trace(&[with_it(value)]), number)));
    }
    cases
}

/// Faults of one record at once.
fn at_once_in_trace() -> Vec<Case> {
    let minus_zero = 1 << 63;
    let faults = [(BOX, 16, 22), (FLAGS, 8, 23), (DAMPER, 256, 24), (SECONDS, MOST_STEP + 1, 25), (SECONDS, 0, 27), (ZONE, minus_zero, 53), (FLOW, f64::NAN.to_bits(), 53)];
    let mut cases = Vec::new();
    for (order, &(place, value, number)) in faults.iter().enumerate() {
        for &(later, later_value, _) in faults[order..].iter().filter(|fault| fault.0 != place || fault.1 == value) {
            // A greater box is in order.
            let second = bytes::trace(&[with(record(), [(place, value), (later, later_value)])]);
            let room_of_first = line(&[]).len();
            cases.push(refused_record(second.clone(), number));
            cases.push(room(refused_record(second.clone(), number), room_of_first));
            cases.push(refused_record(second[..second.len() - 1].to_vec(), 20));
        }
    }
    cases
}

/// Records of one second stand by rising box number, each box once; the first record breaks nothing.
fn order() -> Vec<Case> {
    let mut cases = Vec::new();
    let mut both = |boxes: &[(&'static str, &'static str)], done: usize, number: u8| {
        let lines: Vec<String> = boxes.iter().map(|&(air_box, seconds)| line(&[(BOX, air_box), (SECONDS, seconds)])).collect();
        let value = |text: &str| text.parse().expect("a number");
        let records: Vec<Record> = boxes.iter().map(|&(air_box, seconds)| with(record(), [(BOX, value(air_box)), (SECONDS, value(seconds))])).collect();
        cases.push(case(ToTrace, lines.concat(), done, bytes::trace(&records[..done]), number));
        cases.push(case(ToText, bytes::trace(&records), done, lines[..done].concat(), number));
    };
    both(&[("0", "0")], 1, 0);
    both(&[("15", "0")], 1, 0);
    both(&[("0", "0"), ("1", "0"), ("15", "0"), ("0", "1"), ("1", "0")], 5, 0);
    both(&[("9", "60"), ("9", "0")], 1, 27);
    both(&[("0", "0"), ("0", "0")], 1, 27);
    both(&[("3", "60"), ("9", "0"), ("3", "0")], 2, 27);
    both(&[("3", "60"), ("9", "0"), ("5", "0")], 2, 27);
    both(&[("15", "0"), ("0", "0")], 1, 27);
    both(&[("15", "60"), ("9", "1"), ("3", "1"), ("5", "0"), ("5", "1"), ("5", "1")], 6, 0);
    both(&[("9", "2147483648"), ("3", "0")], 1, 27);
    cases
}

/// Room for no record, for some, for just all, and one byte more or less than a record takes.
fn rooms() -> Vec<Case> {
    let records: Vec<Record> = (0..3).map(|air_box| with(record(), [(BOX, air_box)])).collect();
    let text: Vec<String> = ["0", "1", "2"].map(|air_box| line(&[(BOX, air_box)])).into();
    let trace = bytes::trace(&records);
    let size = trace.len() / 3;
    let mut cases = Vec::new();
    for bytes in 0..=trace.len() + 2 {
        let done = (bytes / size).min(3);
        let number = if done < 3 { 54 } else { 0 };
        cases.push(room(case(ToTrace, text.concat(), done, &trace[..done * size], number), bytes));
    }
    let size = text[0].len();
    for bytes in 0..=3 * size + 2 {
        let done = (bytes / size).min(3);
        let number = if done < 3 { 54 } else { 0 };
        cases.push(room(case(ToText, trace.clone(), done, text[..done].concat(), number), bytes));
    }
    cases.extend([room(case(ToTrace, "", 0, "", 0), 0), room(case(ToText, "", 0, "", 0), 0)]);
    cases.extend(longest_outputs());
    cases
}

/// The line and the record that give the most bytes for each of their own: 78 for 28, and 37 for 14.
fn longest_outputs() -> [Case; 2] {
    let mut ones = [0; NUMBERS];
    ones[ZONE..].fill(1f64.to_bits());
    let short = [15, 127, 7, 127, 127, 127, 0, 0, 0, 0, 0, 0, 0, 0];
    let (line, text) = ("0,0,0,0,0,0,1,1,1,1,1,1,1,1\n", "15,127,7,127,127,127,0,0,0,0,0,0,0,0\n");
    assert!((line.len(), text.len()) == (28, 37) && bytes::trace(&[ones]).len() == 78);
    [room(case(ToTrace, line, 1, bytes::trace(&[ones]), 0), 78), room(case(ToText, bytes::trace(&[short]), 1, text, 0), 37)]
}
