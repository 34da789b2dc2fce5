//! `text_speed SEED RECORDS ROUNDS [SIDE]`: text logs of nights of sixteen boxes, of so many records, converted to traces and back by the port's archive and by a plain
//! Rust program, in one program. Prints the time of each. With a side only that is run once, for a count of its instructions, and the count of records is printed.
//! `text_speed FILE TIMES ROUNDS [SIDE]`: the same of the log in a file, so many times.

use std::{env, fs, hint::black_box};

// Only what `trace.rs` names of it.
#[allow(unused)]
mod answer;
mod dice;
mod fields;
mod passes;
mod plain_text_log;
mod reckoning;
mod text_log;
mod text_log_nights;
mod text_log_port;
mod tick;
mod trace;
mod trace_bytes;
mod trace_nights;

use dice::Dice;
use passes::quickest;
use text_log::{Converter, Outcome, Way};
use text_log_nights::Log;

/// A log that nothing refuses, and its trace.
struct Night {
    text: Vec<u8>,
    trace: Vec<u8>,
    records: usize,
}

impl Night {
    /// The lines of the log up to one that is refused, if any is.
    fn new(text: &[u8]) -> Night {
        let mut trace = vec![0; 3 * text.len()];
        let outcome = Converter(None).convert(Way::ToTrace, text, &mut trace);
        trace.truncate(outcome.written);
        let ends = text.split_inclusive(|&byte| byte == b'\n').take(outcome.done).map(<[u8]>::len);
        Night { text: text[..ends.sum()].to_vec(), trace, records: outcome.done }
    }
}

/// A side converts all nights, and gives a sum of what it wrote.
type Side = fn(&[Night]) -> u64;

/// The sum over the bytes that are written of each input, which has to be converted to its end.
fn converted(nights: &[Night], way: Way, convert: impl Fn(&[u8], &mut [u8]) -> Outcome) -> u64 {
    let most = nights.iter().map(|night| 3 * input(night, way).len()).max().unwrap_or(0);
    let mut room = vec![0; most];
    let of = |night: &Night| {
        let Outcome { done, written, number } = convert(input(night, way), &mut room);
        assert!(number == 0 && done == night.records);
        room[..written].chunks(64).fold(written as u64, |sum, bytes| sum.wrapping_mul(31).wrapping_add(u64::from(bytes[bytes.len() / 2])))
    };
    nights.iter().map(of).fold(0, u64::wrapping_add)
}

fn input(night: &Night, way: Way) -> &[u8] {
    match way {
        Way::ToTrace => &night.text,
        Way::ToText => &night.trace,
    }
}

fn port(nights: &[Night], way: Way) -> u64 {
    converted(nights, way, |input, room| {
        let length = room.len();
        text_log_port::convert(way, input, room, 0, length)
    })
}

#[inline(never)]
#[unsafe(no_mangle)]
fn port_to_trace(nights: &[Night]) -> u64 {
    port(nights, Way::ToTrace)
}

#[inline(never)]
#[unsafe(no_mangle)]
fn rust_to_trace(nights: &[Night]) -> u64 {
    converted(nights, Way::ToTrace, plain_text_log::to_trace)
}

#[inline(never)]
#[unsafe(no_mangle)]
fn port_to_text(nights: &[Night]) -> u64 {
    port(nights, Way::ToText)
}

#[inline(never)]
#[unsafe(no_mangle)]
fn rust_to_text(nights: &[Night]) -> u64 {
    converted(nights, Way::ToText, plain_text_log::to_text)
}

const SIDES: [(&str, Way, Side); 4] = [
    ("port_to_trace", Way::ToTrace, port_to_trace),
    ("rust_to_trace", Way::ToTrace, rust_to_trace),
    ("port_to_text", Way::ToText, port_to_text),
    ("rust_to_text", Way::ToText, rust_to_text),
];

fn nights(seed: u64, records: usize) -> Vec<Night> {
    let lives = trace_nights::lives().expect("the lines of a night");
    let mut dice = Dice::new(seed);
    let (mut nights, mut made) = (Vec::new(), 0);
    while made < records {
        let night = Night::new(&Log::of(&mut dice, &lives, 500).text());
        made += night.records;
        nights.push(night);
    }
    nights
}

/// The times of the sides of each way, in turn.
fn print_times(nights: &[Night], rounds: usize) {
    let best = quickest(SIDES.map(|(_, _, side)| side), nights, rounds);
    let records = nights.iter().map(|night| night.records).sum::<usize>() as f64;
    for ((name, way, _), best) in SIDES.iter().zip(best) {
        let bytes = nights.iter().map(|night| input(night, *way).len()).sum::<usize>() as f64;
        println!("{name}: {:.0} ns a record, {:.0} million bytes a second of {:.0} bytes a record", best / records, 1e3 * bytes / best, bytes / records);
    }
    let [port_to_trace, rust_to_trace, port_to_text, rust_to_text] = best;
    println!("the port's speed by the plain program's: {:.2} to traces, {:.2} to text", rust_to_trace / port_to_trace, rust_to_text / port_to_text);
}

fn main() {
    let words: Vec<String> = env::args().collect();
    let number = |place: usize| -> u64 { words[place].parse().expect("a number") };
    let nights = match words[1].parse() {
        Ok(seed) => nights(seed, number(2) as usize),
        Err(_) => {
            let text = fs::read(&words[1]).expect("a log");
            (0..number(2)).map(|_| Night::new(&text)).collect()
        }
    };
    let records: usize = nights.iter().map(|night| night.records).sum();
    if let Some((_, _, side)) = SIDES.iter().find(|(name, ..)| words.get(4).is_some_and(|word| word == name)) {
        black_box(side(&nights));
        println!("{records}");
        return;
    }
    let [port_trace, rust_trace, port_text, rust_text] = SIDES.map(|(_, _, side)| side(&nights));
    assert!(port_trace == rust_trace && port_text == rust_text, "the sides differ");
    println!("{} logs, {records} records, the same bytes", nights.len());
    print_times(&nights, number(3) as usize);
}
