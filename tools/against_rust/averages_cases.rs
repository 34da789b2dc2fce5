//! Nights whose averages are known by hand from the words of the documents.

use crate::trace::{FLAGS, NUMBERS, Record, SECONDS, ZONE, with};
use crate::trace_bytes as bytes;

/// A trace and what is printed of it.
pub struct Case {
    pub trace: Vec<u8>,
    pub text: &'static str,
}

const AIRFLOW: usize = 4;
const DAMPER: usize = 5;
const FLOW: usize = 13;
const WINDOW_CLOSED: u64 = 1;
const PEOPLE: u64 = 2;
const FAN: u64 = 4;

/// A tick by day of a zone at its cooling setpoint, with flow enough: no request and no alarm, at a first tick neither.
fn day(air_box: u64, seconds: u64) -> Record {
    let readings = [295.0, 295.0, 293.0, 900.0, 500.0, 288.0, 287.0, 0.375].map(f64::to_bits);
    let mut record: Record = [0; NUMBERS];
    record[..ZONE].copy_from_slice(&[air_box, seconds, WINDOW_CLOSED + PEOPLE + FAN, 1, 0, 0]);
    record[ZONE..].copy_from_slice(&readings);
    record
}

fn zone(record: Record, zone: f64) -> Record {
    with(record, [(ZONE, zone.to_bits())])
}

fn flow(record: Record, flow: f64) -> Record {
    with(record, [(FLOW, flow.to_bits())])
}

fn case(records: &[Record], text: &'static str) -> Case {
    Case { trace: bytes::trace(records), text }
}

/// Document 02's example. From 120 s on the zone is so hot that the cooling loop is high when it is sampled, and not yet long enough for a higher request.
fn example() -> [Record; 3] {
    [day(2, 0), zone(day(2, 120), 307.0), zone(day(2, 60), 307.0)]
}

/// Too warm with much flow, box 0 asks for 3 and has a leak from its first tick on: a whole average.
fn whole_average() -> [Record; 2] {
    [0, 60].map(|seconds| flow(zone(day(0, seconds), 299.0), 1.0))
}

/// The first tick of a plain start waits for no delay. So box 0, 4 K too hot, asks for 3 at once and has a leak; and box 15, whose damper is told to open,
/// with a third of the flow that it is told, asks for 3 and has low airflow. Box 7 has one record.
fn three_boxes() -> Vec<Record> {
    let hot = |record| zone(record, 299.0);
    let starved = flow(with(day(15, 0), [(AIRFLOW, 2), (DAMPER, 2)]), 0.5);
    vec![flow(hot(day(0, 0)), 1.0), day(7, 0), starved, hot(day(0, 60)), day(15, 60), day(0, 30), day(15, 50), day(0, 10)]
}

/// All codes, at first ticks: low airflow of both kinds, a leak, flow with the fan off.
fn codes() -> Vec<Record> {
    let starved = |air_box, seconds, share: f64| flow(with(day(air_box, seconds), [(AIRFLOW, 2)]), 1.5 * share);
    let leaking = flow(with(day(7, 0), [(AIRFLOW, 3), (DAMPER, 1)]), 0.3);
    let windy = with(day(8, 0), [(FLAGS, WINDOW_CLOSED + PEOPLE)]);
    vec![
        starved(3, 60, 0.0),
        starved(6, 0, 0.6),
        leaking,
        windy,
        starved(3, 100, 1.0),
        starved(6, 0, 1.0),
        with(leaking, [(SECONDS, 7)]),
        day(8, 13),
        starved(3, 80, 1.0),
        starved(6, 40, 1.0),
        day(8, 1),
    ]
}

pub fn cases() -> Vec<Case> {
    let all: Vec<Record> = (0..16).map(|air_box| day(air_box, 0)).collect();
    let example = example();
    let whole = bytes::trace(&example);
    vec![
        case(&example, "2 180 1/3 0/1 180 0 0 0 0\n"),
        case(&three_boxes(), "0 210 15/7 0/1 150 0 0 0 60\n7 40\n15 200 0/1 9/5 80 120 0 0 0\n"),
        case(&whole_average(), "0 60 3/1 0/1 0 0 0 0 60\n"),
        case(&codes(), "3 200 0/1 0/1 100 100 0 0 0\n6 240 0/1 0/1 140 0 100 0 0\n7 107 0/1 0/1 0 0 0 0 107\n8 241 0/1 0/1 121 0 0 120 0\n"),
        case(&all, "0 40\n1 40\n2 40\n3 40\n4 40\n5 40\n6 40\n7 40\n8 40\n9 40\n10 40\n11 40\n12 40\n13 40\n14 40\n15 40\n"),
        case(&[], ""),
        case(&[&example[..], &[day(2, 0)]].concat(), "27\n"),
        Case { trace: whole[..whole.len() - 1].to_vec(), text: "20\n" },
        Case { trace: vec![0; 65_536], text: "5\n" },
        Case { trace: vec![0; 65_537], text: "41\n" },
    ]
}
