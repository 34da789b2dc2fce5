//! `trace_reference`: prints traces with what the published Rust makes of them, to be run again without it: those known by hand, and one of sixteen
//! boxes of the night on standard input, in which every code comes up.
//! A line `trace BYTES` gives a trace, and the lines `run LENGTH READING ROOM DONE NUMBER CODES` after it runs of its first bytes.

use std::process::ExitCode;

mod answer;
mod dice;
mod fields;
mod reckoning;
mod stubs;
mod tick;
mod trace;
mod trace_bytes;
mod trace_cases;
mod trace_nights;

use answer::{Texts, texts};
use dice::Dice;
use trace_bytes::hex;
use trace_nights::Whole;

// Written by the build: `mod oracle`, and the modules around the published files, as they are, sized and with the second reading, plain and quiet.
include!(env!("PUBLISHED_MODULES"));

const TEXTS: Texts = texts!(plain, quiet, sized, sized_quiet, second, second_quiet);
const CODES: [u8; 5] = [0, 12, 13, 23, 34];

/// The bytes as a word of a line.
fn word(bytes: &[u8]) -> String {
    if bytes.is_empty() { "-".into() } else { hex(bytes) }
}

/// The codes of the records done, and the number.
fn answer(trace: &[u8], second: bool, room: usize) -> (Vec<u8>, u8) {
    let mut codes = vec![0; room];
    let outcome = trace::run(TEXTS, None, trace, second, &mut codes);
    codes.truncate(outcome.done);
    (codes, outcome.number)
}

fn run_line(trace: &[u8], second: bool, room: usize) -> String {
    let (codes, number) = answer(trace, second, room);
    format!("run {} {} {room} {} {number} {}", trace.len(), 1 + u8::from(second), codes.len(), word(&codes))
}

/// A trace with few records of each box, that the two readings answer otherwise, and every code among the answers of each.
fn night(lives: &[Vec<tick::Tick>]) -> Option<Whole> {
    let mut dice = Dice::new(1);
    (0..100_000).map(|_| Whole::of(&mut dice, lives, 12)).find(|whole| {
        let readings = [false, true].map(|second| answer(&whole.bytes, second, whole.records.len()).0);
        readings[0] != readings[1] && readings.iter().all(|codes| CODES.iter().all(|code| codes.contains(code)))
    })
}

fn stored() -> Result<Vec<String>, String> {
    let lives = trace_nights::lives().map_err(|error| error.to_string())?;
    let (mut lines, mut trace) = (Vec::new(), Vec::new());
    for case in trace_cases::cases() {
        if (answer(&case.trace, case.second, case.room)) != (case.codes, case.number) {
            return Err(format!("the reference and what is known by hand differ: {}", hex(&case.trace)));
        }
        if !trace.starts_with(&case.trace) {
            trace = case.trace.clone();
            lines.push(format!("trace {}", word(&trace)));
        }
        lines.push(run_line(&case.trace, case.second, case.room));
    }
    let whole = night(&lives).ok_or("no night has every code")?;
    lines.push(format!("trace {}", word(&whole.bytes)));
    let records = whole.records.len();
    for room in [records, records + 7, records - 1] {
        lines.extend([false, true].map(|second| run_line(&whole.bytes, second, room)));
    }
    Ok(lines)
}

fn main() -> ExitCode {
    match stored() {
        Ok(lines) => println!("{}", lines.join("\n")),
        Err(text) => {
            eprintln!("trace_reference: {text}");
            return ExitCode::FAILURE;
        }
    }
    ExitCode::SUCCESS
}
