//! Traces whose codes and number are known by hand from the words of the documents.

use crate::trace::{BOX, FLAGS, LAST_BOX, MODE, MOST_FLAGS, MOST_SETTING, MOST_STEP, NUMBERS, Record, SECONDS, ZONE, with};
use crate::trace_bytes as bytes;

/// A trace, the reading and the bytes of the buffer; the codes of the records done, and the number.
pub struct Case {
    pub trace: Vec<u8>,
    pub second: bool,
    pub room: usize,
    pub codes: Vec<u8>,
    pub number: u8,
}

const AIRFLOW: usize = 4;
const DAMPER: usize = 5;
const CO2_SETPOINT: usize = 9;
const CO2: usize = 10;
const FLOW: usize = 13;
const FAN: u64 = 4;

/// A tick at night with little flow: no alarm, whatever its settings are, at a first tick neither.
fn calm(air_box: u64, seconds: u64) -> Record {
    let readings = [296.0, 297.0, 293.0, 894.0, 600.0, 288.0, 287.0, 0.1].map(f64::to_bits);
    let mut record = [0; NUMBERS];
    record[BOX] = air_box;
    record[SECONDS] = seconds;
    record[FLAGS] = 7;
    record[MODE] = 7;
    record[ZONE..].copy_from_slice(&readings);
    record
}

fn flow(record: Record, flow: f64) -> Record {
    with(record, [(FLOW, flow.to_bits())])
}

/// The trace of one record with one of its numbers spelled otherwise.
fn spelled(record: Record, place: usize, number: Vec<u8>) -> Vec<u8> {
    let mut numbers = bytes::record(&record);
    numbers[place] = number;
    numbers.concat()
}

/// The first reading, with room for one record more than there are codes.
fn bytes_case(trace: Vec<u8>, codes: &[u8], number: u8) -> Case {
    Case { trace, second: false, room: codes.len() + 1, codes: codes.to_vec(), number }
}

fn case(records: &[Record], codes: &[u8], number: u8) -> Case {
    bytes_case(bytes::trace(records), codes, number)
}

fn room(case: Case, room: usize) -> Case {
    Case { room, ..case }
}

pub fn cases() -> Vec<Case> {
    [ends(), numbers(), limits(), refused_at_once(), order(), times(), readings(), codes()].into_iter().flatten().collect()
}

/// Every trace of two records that ends early, and every buffer.
fn ends() -> Vec<Case> {
    let two = [calm(0, 60), calm(15, 0)];
    let whole = bytes::trace(&two);
    let first = bytes::trace(&two[..1]).len();
    let cut = |length: usize| {
        let done = usize::from(length >= first) + usize::from(length >= whole.len());
        let clean = length == 0 || length == first || length == whole.len();
        Case { trace: whole[..length].to_vec(), second: length % 2 == 1, room: 2, codes: vec![0; done], number: if clean { 0 } else { 20 } }
    };
    let mut cases: Vec<Case> = (0..=whole.len()).rev().map(cut).collect();
    cases.extend([
        room(case(&[], &[], 0), 0),
        room(case(&two, &[0, 0], 0), 2),
        room(case(&two, &[0, 0], 0), 9),
        room(case(&two, &[0], 26), 1),
        room(case(&two, &[], 26), 0),
    ]);
    cases
}

/// Numbers at each place that are too long, or have a needless zero, and the longest that are taken.
fn numbers() -> Vec<Case> {
    let mut cases = Vec::new();
    let record = calm(1, 60);
    let refused = [22, 25, 23, 24, 24, 24, 5, 5, 5, 6, 6, 5, 5, 7];
    for place in 0..NUMBERS {
        let mut bad = vec![bytes::needless(record[place], 1), bytes::needless(0, 1), bytes::needless(0, 9), vec![0xff; 10]];
        bad.extend([0, 2, 0x7f, 0x80, 0x81].map(|last| bytes::long(9, last)));
        for number in bad {
            cases.push(bytes_case(spelled(record, place, number), &[], 21));
        }
        // 2^63 and 2^64 - 1; as readings -0.0 and a NaN, of which -0.0 is taken where 0 is.
        for number in [1 << 63, u64::MAX] {
            let taken = number == 1 << 63 && [CO2_SETPOINT, CO2, FLOW].contains(&place);
            let with_it = case(&[with(record, [(place, number)])], &[], refused[place]);
            if !taken {
                cases.push(with_it);
            }
        }
    }
    let first_bytes = |length, last| Case { trace: bytes::long(length, last), ..case(&[], &[], 21) };
    cases.extend([first_bytes(9, 2), first_bytes(9, 0x80), first_bytes(1, 0)]);
    cases.extend([first_bytes(8, 0x80), first_bytes(9, 1), first_bytes(0, 0x80)].map(|case| Case { number: 20, ..case }));
    cases
}

/// The limits and the first numbers beyond.
fn limits() -> Vec<Case> {
    let mut cases = Vec::new();
    for (place, most, number) in
        [(BOX, LAST_BOX, 22), (FLAGS, MOST_FLAGS, 23), (MODE, MOST_SETTING, 24), (AIRFLOW, MOST_SETTING, 24), (DAMPER, MOST_SETTING, 24)]
    {
        cases.push(case(&[with(calm(3, 60), [(place, most)])], &[0], 0));
        cases.push(case(&[calm(3, 60), with(calm(3, 60), [(place, most + 1)])], &[0], number));
    }
    cases.push(case(&[calm(3, MOST_STEP)], &[0], 0));
    cases.push(case(&[calm(3, MOST_STEP + 1)], &[], 25));
    cases
}

/// Records with several faults: the number says which is asked first.
fn refused_at_once() -> Vec<Case> {
    let nan = f64::NAN.to_bits();
    let far = calm(99, 60);
    let damaged = spelled(far, AIRFLOW, vec![0x80, 0]);
    let cut = |trace: Vec<u8>| trace[..trace.len() - 1].to_vec();
    let one = |numbers: &[(usize, u64)]| {
        let mut record = calm(3, 60);
        numbers.iter().for_each(|&(place, number)| record[place] = number);
        case(&[record], &[], 0)
    };
    let number = |case: Case, number: u8| Case { number, ..case };
    let (box_16, flags_8, setting, step, zone) = ((BOX, 16), (FLAGS, 8), (DAMPER, 256), (SECONDS, MOST_STEP + 1), (ZONE, nan));
    vec![
        bytes_case(damaged.clone(), &[], 21),
        bytes_case(cut(damaged), &[], 21),
        bytes_case(cut(bytes::trace(&[far])), &[], 20),
        number(one(&[box_16, flags_8, setting, step, zone]), 22),
        number(one(&[flags_8, setting, step, zone]), 23),
        number(one(&[setting, step, zone]), 24),
        number(one(&[step, zone]), 25),
        room(number(one(&[box_16, flags_8]), 22), 0),
        room(number(one(&[flags_8]), 23), 0),
        room(number(one(&[setting]), 24), 0),
        room(number(one(&[step]), 25), 0),
        room(number(one(&[zone]), 26), 0),
        number(one(&[zone, (CO2, nan), (FLOW, nan)]), 5),
        number(one(&[(CO2, nan), (FLOW, nan)]), 6),
    ]
}

/// Records of one second stand by rising box number, each box once; the first record breaks nothing.
fn order() -> Vec<Case> {
    let all: Vec<Record> = (0..=LAST_BOX).map(|air_box| calm(air_box, 0)).collect();
    let mut cases: Vec<Case> = all.iter().map(|&first| case(&[first], &[0], 0)).collect();
    cases.extend([
        case(&all, &[0; 16], 0),
        case(&[&all[..], &[calm(0, 1), calm(1, 0)]].concat(), &[0; 18], 0),
        // a box twice, as neighbours and not
        case(&[calm(9, 60), calm(9, 0)], &[0], 27),
        case(&[calm(0, 0), calm(0, 0)], &[0], 27),
        case(&[calm(3, 60), calm(9, 0), calm(3, 0)], &[0; 2], 27),
        // a smaller box, of one that had no record and of one that had
        case(&[calm(9, 60), calm(3, 0)], &[0], 27),
        case(&[calm(15, 0), calm(0, 0)], &[0], 27),
        case(&[calm(3, 60), calm(9, 60), calm(3, 0)], &[0; 2], 27),
        // greater than the first of the second, and not than the one before
        case(&[calm(3, 60), calm(9, 0), calm(5, 0)], &[0; 2], 27),
        // of different seconds in any order
        case(&[calm(15, 60), calm(9, 1), calm(3, 1), calm(5, 0), calm(5, 1), calm(5, 1)], &[0; 6], 0),
        case(&[calm(9, MOST_STEP), calm(3, 0)], &[0], 27),
    ]);
    cases.extend(out_of_order_at_once());
    cases
}

/// Out of order, and with other faults. A box above 15 is greater than the one before, and a step above 2,147,483,648 leads to another second: 22 and 25
/// do not meet 27.
fn out_of_order_at_once() -> Vec<Case> {
    let nan = f64::NAN.to_bits();
    let after_9 = |record: Record, number: u8| case(&[calm(9, 60), record], &[0], number);
    let both = bytes::trace(&[calm(9, 60), calm(3, 0)]);
    let damaged = spelled(calm(3, 0), AIRFLOW, vec![0x80, 0]);
    vec![
        after_9(calm(16, 0), 22),
        after_9(with(calm(3, 0), [(FLAGS, 8), (MODE, 256)]), 23),
        after_9(with(calm(3, 0), [(MODE, 256)]), 24),
        after_9(with(calm(9, 0), [(DAMPER, 256)]), 24),
        after_9(calm(3, MOST_STEP + 1), 25),
        room(after_9(with(calm(3, 0), [(FLAGS, 8)]), 23), 1),
        room(after_9(calm(3, 0), 27), 1),
        room(after_9(calm(9, 0), 27), 1),
        room(after_9(calm(10, 0), 26), 1),
        room(after_9(calm(3, 1), 26), 1),
        after_9(with(calm(3, 0), [(ZONE, nan), (CO2, nan), (FLOW, nan)]), 27),
        // its box had no record for more than 240 s
        case(&[calm(3, 0), calm(9, 241), calm(3, 0)], &[0; 2], 27),
        bytes_case([bytes::trace(&[calm(9, 60)]), damaged].concat(), &[0], 21),
        bytes_case(both[..both.len() - 1].to_vec(), &[0], 20),
    ]
}

/// Times are sums over all boxes, and each box has its own last one.
fn times() -> Vec<Case> {
    let silent = |last| [calm(2, 7), calm(9, 120), calm(15, 0), calm(4, 60), calm(2, last)];
    let half = MOST_STEP / 2;
    vec![
        case(&silent(60), &[0; 5], 0),
        case(&silent(61), &[0; 4], 4),
        case(&[calm(0, MOST_STEP), calm(1, 0), calm(2, 1)], &[0; 2], 2),
        case(&[calm(0, half), calm(1, half), calm(2, 0), calm(3, 1)], &[0; 3], 2),
        case(&[calm(0, MOST_STEP), calm(1, MOST_STEP)], &[0], 2),
        case(&[calm(0, 100), calm(1, 100), calm(0, 140), calm(1, 101)], &[0; 3], 4),
    ]
}

/// Readings of any bits: NaNs of both kinds and signs, infinities, the ends of the ranges, subnormal numbers.
fn readings() -> Vec<Case> {
    let odd = [0x7ff8 << 48, 0xfff8 << 48, 0x7ff0 << 48 | 1, 0xfff0 << 48 | 1, u64::MAX, 0x7ff0 << 48, 0xfff0 << 48, f64::MAX.to_bits()];
    let refused = |place: usize| [5, 5, 5, 6, 6, 5, 5, 7][place - ZONE];
    let mut cases = Vec::new();
    for place in ZONE..NUMBERS {
        let both = |bits, codes: &[u8], number| {
            let one = case(&[calm(5, 0), with(calm(5, 60), [(place, bits)])], codes, number);
            let second = Case { trace: one.trace.clone(), second: true, room: one.room, codes: one.codes.clone(), number };
            [one, second]
        };
        let (low, high) = [(150.0, 450.0), (0.0, 10000.0), (-10.0, 10.0)][usize::from(refused(place)) - 5];
        cases.extend(odd.into_iter().flat_map(|bits| both(bits, &[0], refused(place))));
        let beyond = [f64::next_up(high), f64::next_down(low)].map(f64::to_bits);
        cases.extend(beyond.into_iter().flat_map(|bits| both(bits, &[0], refused(place))));
        let tiny = [1, 1 << 63 | 1].map(f64::from_bits);
        for x in [low, high].into_iter().chain(tiny) {
            let taken = low <= x && x <= high;
            let codes: &[u8] = if taken { &[0, 0] } else { &[0] };
            cases.extend(both(x.to_bits(), codes, if taken { 0 } else { refused(place) }));
        }
    }
    cases
}

/// Every code, most of them at a first tick, which with a plain start shows an alarm at once; and the two readings apart.
fn codes() -> Vec<Case> {
    let day = |air_box, seconds| with(calm(air_box, seconds), [(MODE, 1)]);
    let fan_off = |record: Record| with(record, [(FLAGS, 7 - FAN)]);
    let starved = |share: f64| flow(with(day(6, 60), [(AIRFLOW, 2)]), 1.5 * share);
    let leaking = flow(with(day(7, 0), [(AIRFLOW, 3), (DAMPER, 1)]), 0.3);
    let windy = flow(fan_off(day(8, 0)), 0.3);
    let all = [starved(0.0), starved(0.6), leaking, windy, calm(8, 60), starved(1.0), with(windy, [(MODE, 2)])];
    let apart = [fan_off(day(0, 60)), windy, flow(fan_off(day(0, 1)), 0.3)];
    let all_apart: Vec<Record> = (0..=LAST_BOX)
        .map(|air_box| fan_off(day(air_box, 0)))
        .chain((0..=LAST_BOX).map(|air_box| flow(fan_off(day(air_box, u64::from(air_box == 0))), 0.3)))
        .collect();
    let second = |case: Case| Case { second: true, ..case };
    vec![
        case(&all, &[12, 13, 34, 23, 0, 0, 0], 0),
        second(case(&all, &[12, 13, 34, 23, 0, 0, 0], 0)),
        case(&apart, &[0, 23, 0], 0),
        second(case(&apart, &[0, 23, 23], 0)),
        case(&all_apart, &[0; 32], 0),
        second(case(&all_apart, &[[0; 16], [23; 16]].concat(), 0)),
        case(&[starved(0.6)], &[13], 0),
        case(&[with(leaking, [(AIRFLOW, 1)])], &[34], 0),
    ]
}
