//! `averages_speed SEED FILE RUNS PROGRAM..`: writes a trace of 65,536 bytes of the nights on standard input into a file, and prints the time that each
//! program takes to answer it, and to answer no trace: the quickest of so many runs of each in turn, with the start of the process.

use std::time::Instant;
use std::{env, fs};

mod answer;
mod averages_nights;
mod dice;
mod fields;
mod night_averages;
mod reckoning;
mod stubs;
mod tick;
mod trace;
mod trace_bytes;
mod trace_nights;

use answer::{Texts, texts};
use dice::Dice;
use night_averages::{LARGEST, printed};

// Written by the build: `mod oracle`, and the modules around the published files, as they are, sized and with the second reading, plain and quiet.
include!(env!("PUBLISHED_MODULES"));

const TEXTS: Texts = texts!(plain, quiet, sized, sized_quiet, second, second_quiet);

/// Milliseconds of one answer.
fn time(program: &str, trace: &[u8]) -> f64 {
    let start = Instant::now();
    averages_nights::answer(program, trace).expect("an answer");
    1e3 * start.elapsed().as_secs_f64()
}

fn main() {
    let words: Vec<String> = env::args().skip(1).collect();
    let [seed, file, runs, programs @ ..] = &words[..] else { panic!("usage: averages_speed SEED FILE RUNS PROGRAM..") };
    let lives = trace_nights::lives().expect("the lines of a night");
    let night = averages_nights::long_night(&mut Dice::new(seed.parse().expect("a number")), &lives, LARGEST);
    let (trace, starts) = averages_nights::of_size(&night, LARGEST);
    let boxes = printed(TEXTS, None, &trace).boxes.len();
    fs::write(file, &trace).expect("a file");
    println!("a trace of {} bytes, {} records of {boxes} boxes", trace.len(), starts.len());
    let mut best = vec![[f64::MAX; 2]; programs.len()];
    for _ in 0..runs.parse().expect("a number") {
        for (program, best) in programs.iter().zip(&mut best) {
            *best = [best[0].min(time(program, &trace)), best[1].min(time(program, &[]))];
        }
    }
    for (program, [whole, none]) in programs.iter().zip(best) {
        let name = program.rsplit('/').next().expect("a name");
        println!("{name}: {whole:.2} ms, and {none:.2} ms without a trace");
    }
}
