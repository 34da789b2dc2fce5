//! Nights whose averages are asked: of just so many bytes, the densest that there are, with boxes of one record. And how a program is asked.
#![allow(dead_code)]

use std::io::{ErrorKind, Write};
use std::process::{Command, Stdio};

use crate::dice::Dice;
use crate::night_averages::{LARGEST, LEAST_RECORD};
use crate::tick::Tick;
use crate::trace::{BOX, LAST_BOX, MODE, Record, SECONDS, with};
use crate::trace_bytes;
use crate::trace_nights::Whole;

pub const BOXES: usize = LAST_BOX as usize + 1;

/// The places of the readings that may be tiny, and so take from one byte to nine.
const SHORT: [usize; 3] = [9, 10, 13];

/// A night of more than so many bytes, all of it taken: it does not end with the last second that is.
pub fn long_night(dice: &mut Dice, lives: &[Vec<Tick>], size: usize) -> Whole {
    loop {
        let night = Whole::of(dice, lives, usize::MAX);
        let seconds: u64 = night.records.iter().map(|record| record[SECONDS]).sum();
        if night.bytes.len() > size && seconds < 1 << 30 {
            return night;
        }
    }
}

/// The records of a night up to a place, and then such of the last one's box that the trace is of just that size; and where each record begins.
pub fn of_size(night: &Whole, size: usize) -> (Vec<u8>, Vec<usize>) {
    let most = LEAST_RECORD + 8 * SHORT.len();
    let fits = |&kept: &usize| night.starts[kept] < size && (size - night.starts[kept]).div_ceil(most) * LEAST_RECORD <= size - night.starts[kept];
    let kept = (1..night.records.len()).rev().find(fits).expect("a place");
    let left = size - night.starts[kept];
    let records = [&night.records[..kept], &fillers(&night.records[kept - 1], left, left.div_ceil(most))].concat();
    let (mut bytes, mut starts) = (Vec::new(), Vec::new());
    for record in &records {
        starts.push(bytes.len());
        bytes.extend(trace_bytes::record(record).concat());
    }
    assert!(bytes.len() == size);
    (bytes, starts)
}

/// So many records of one box a second apart, of so many bytes together: as little as a record can have, and more in the readings that may be tiny.
pub fn fillers(like: &Record, bytes: usize, count: usize) -> Vec<Record> {
    let mut more = bytes - count * LEAST_RECORD;
    let mut filler = || {
        let mut record = with(*like, [(SECONDS, 1), (MODE, 1), (MODE + 1, 0), (MODE + 2, 0)]);
        for place in SHORT {
            let groups = more.min(8);
            more -= groups;
            record[place] = if groups == 0 { 0 } else { 1 << (7 * groups) };
        }
        record
    };
    (0..count).map(|_| filler()).collect()
}

/// The records with some boxes left out, and of some the first record alone.
pub fn thinned(dice: &mut Dice, records: &[Record]) -> Vec<u8> {
    let most: [usize; BOXES] = std::array::from_fn(|_| dice.pick(&[0, 1, 1, usize::MAX, usize::MAX]));
    let mut taken = [0; BOXES];
    let (mut time, mut last, mut kept) = (0, 0, Vec::new());
    for record in records {
        let air_box = record[BOX] as usize;
        time += record[SECONDS];
        if taken[air_box] < most[air_box] {
            taken[air_box] += 1;
            kept.push(with(*record, [(SECONDS, time - last)]));
            last = time;
        }
    }
    trace_bytes::trace(&kept)
}

/// The first record of each box, all in one second.
pub fn at_once(records: &[Record]) -> Vec<u8> {
    let first = |air_box| records.iter().find(|record| record[BOX] == air_box);
    let mut all: Vec<Record> = (0..BOXES as u64).filter_map(first).map(|record| with(*record, [(SECONDS, 0)])).collect();
    all[0][SECONDS] = records[0][SECONDS];
    trace_bytes::trace(&all)
}

/// What a program prints of a trace. It may leave unread what lies past the first 65,537 bytes.
pub fn answer(program: &str, trace: &[u8]) -> Result<String, String> {
    let piped = Stdio::piped;
    let mut child = Command::new(program).stdin(piped()).stdout(piped()).stderr(piped()).spawn().map_err(|error| format!("{program}: {error}"))?;
    let given = child.stdin.take().expect("a pipe").write_all(trace);
    if let Err(error) = given {
        if error.kind() != ErrorKind::BrokenPipe || trace.len() <= LARGEST + 1 {
            return Err(format!("{program} does not read its trace: {error}"));
        }
    }
    let output = child.wait_with_output().map_err(|error| error.to_string())?;
    let told = String::from_utf8_lossy(&output.stderr);
    if !output.status.success() || !told.is_empty() {
        return Err(format!("{program} ended with {}: {told}", output.status));
    }
    String::from_utf8(output.stdout).map_err(|error| error.to_string())
}
