//! `trace_speed SEED RECORDS ROUNDS [SIDE]`: traces of nights of sixteen boxes, of so many records, run by the port's archive and by the published
//! Rust, in one program, and beside it the parts: reading alone and ticking alone. Prints the time a record of each. With a side only that is run
//! once, for a count of its instructions, and the count of records is printed.

use std::{env, hint::black_box};

mod answer;
mod dice;
mod fields;
mod passes;
mod port;
mod reckoning;
mod stubs;
mod tick;
mod trace;
mod trace_bytes;
mod trace_nights;
mod trace_port;

use answer::{AirBox, Answer, Texts, texts};
use dice::Dice;
use passes::quickest;
use port::AirBoxTick;
use tick::Tick;
use trace::{BOX, LAST_BOX, Reader, Record, SECONDS};
use trace_nights::Whole;

// Written by the build: `mod oracle`, `mod plain` and `mod quiet` around the published files.
include!(env!("PUBLISHED_MODULES"));

const TEXTS: Texts = texts!(plain, quiet, plain, quiet, plain, quiet);
const BOXES: usize = LAST_BOX as usize + 1;

/// A trace, and its ticks as each side takes them, each with its box.
struct Night {
    trace: Vec<u8>,
    rust: Vec<(usize, Tick)>,
    port: Vec<(usize, AirBoxTick)>,
}

impl Night {
    fn new(whole: Whole) -> Night {
        let mut time = 0;
        let of = |record: &Record| {
            time += record[SECONDS];
            (record[BOX] as usize, Reader(None).tick(record, time))
        };
        let rust: Vec<_> = whole.records.iter().map(of).collect();
        let port = rust.iter().map(|(number, tick)| (*number, port::port_tick(tick))).collect();
        Night { trace: whole.bytes, rust, port }
    }
}

/// A side takes all nights, and gives the sum of their codes.
type Side = fn(&[Night]) -> u64;

/// The sum of the codes that a run gives of each trace, which it has to run to its end: it answers with the number.
fn codes_by(nights: &[Night], run: impl Fn(&Night, &mut [u8]) -> u8) -> u64 {
    let of = |night: &Night| {
        let mut codes = vec![0; night.rust.len()];
        assert!(run(night, &mut codes) == 0);
        codes.iter().map(|&code| u64::from(code)).sum::<u64>()
    };
    nights.iter().map(of).sum()
}

/// The codes of the port's run of each trace.
#[inline(never)]
#[unsafe(no_mangle)]
fn port_run(nights: &[Night]) -> u64 {
    codes_by(nights, |night, codes| {
        let room = codes.len();
        trace_port::run(&night.trace, false, codes, 0, room).number
    })
}

/// The same, of the published Rust's boxes behind the reference's reading.
#[inline(never)]
#[unsafe(no_mangle)]
fn rust_run(nights: &[Night]) -> u64 {
    codes_by(nights, |night, codes| trace::run(TEXTS, None, &night.trace, false, codes).number)
}

/// The reference's reading alone, with the limits.
#[inline(never)]
#[unsafe(no_mangle)]
fn rust_reading(nights: &[Night]) -> u64 {
    let of = |night: &Night| {
        let mut bytes = &night.trace[..];
        while let Ok(Some(record)) = Reader(None).record(&mut bytes) {
            black_box(Reader(None).limits(&record).is_ok());
            black_box(&record);
        }
    };
    nights.iter().for_each(of);
    0
}

/// The ticks alone, by the published Rust.
#[inline(never)]
#[unsafe(no_mangle)]
fn rust_ticks(nights: &[Night]) -> u64 {
    let of = |night: &Night| {
        let mut boxes: Vec<AirBox> = (0..BOXES).map(|_| AirBox::new(TEXTS)).collect();
        let code = |(number, tick): &(usize, Tick)| boxes[*number].tick(tick).map_or(0, |answer| Reader(None).code(&answer).into());
        night.rust.iter().map(code).sum::<u64>()
    };
    nights.iter().map(of).sum()
}

/// The ticks alone, by the port.
#[inline(never)]
#[unsafe(no_mangle)]
fn port_ticks(nights: &[Night]) -> u64 {
    let of = |night: &Night| {
        let mut boxes = [port::AirBox::fresh(false); BOXES];
        let mut answer = Answer { floats: [0.0; 5], integers: [0; 5] };
        let code = |(number, tick): &(usize, AirBoxTick)| {
            boxes[*number].tick(tick, &mut answer);
            u64::from(Reader(None).code(&answer))
        };
        night.port.iter().map(code).sum::<u64>()
    };
    nights.iter().map(of).sum()
}

const SIDES: [(&str, Side); 5] = [
    ("port_run", port_run),
    ("rust_run", rust_run),
    ("rust_reading", rust_reading),
    ("rust_ticks", rust_ticks),
    ("port_ticks", port_ticks),
];

fn nights(seed: u64, records: usize) -> Vec<Night> {
    let lives = trace_nights::lives().expect("the lines of a night");
    let mut dice = Dice::new(seed);
    let (mut nights, mut made) = (Vec::new(), 0);
    while made < records {
        let whole = Whole::of(&mut dice, &lives, 500);
        made += whole.records.len();
        nights.push(Night::new(whole));
    }
    nights
}

fn print_times(nights: &[Night], rounds: usize) {
    let [records, bytes] = [|night: &Night| night.rust.len(), |night: &Night| night.trace.len()].map(|of| nights.iter().map(of).sum::<usize>() as f64);
    let best = quickest(SIDES.map(|(_, side)| side), nights, rounds);
    for ((name, _), best) in SIDES.iter().zip(best) {
        println!("{name}: {:.0} ns a record, {:.2} million records and {:.0} million bytes a second", best / records, 1e3 * records / best, 1e3 * bytes / best);
    }
    let [port, run, reading, ticks, _] = best;
    println!("the Rust's reading and ticks by the port's run: {:.2}; its run by the port's: {:.2}", (reading + ticks) / port, run / port);
}

fn main() {
    let words: Vec<String> = env::args().collect();
    let number = |place: usize| words[place].parse().expect("a number");
    let nights = nights(number(1), number(2) as usize);
    let records: usize = nights.iter().map(|night| night.rust.len()).sum();
    if let Some((_, side)) = SIDES.iter().find(|(name, _)| words.get(4).is_some_and(|word| word == name)) {
        black_box(side(&nights));
        println!("{records}");
        return;
    }
    let sums: Vec<u64> = SIDES.iter().map(|(_, side)| side(&nights)).collect();
    assert!(sums == [sums[0], sums[0], 0, sums[0], sums[0]], "the sides differ");
    println!("{} traces, {records} records, the same codes", nights.len());
    print_times(&nights, number(3) as usize);
}
