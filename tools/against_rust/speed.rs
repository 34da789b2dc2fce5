//! `speed FILE ROUNDS [port|rust]`: runs the accepted ticks of FILE by the port's archive and by the published Rust, in one
//! run, and prints the time a tick of each. With a third word only that side runs, for a count of its instructions.

use std::{env, fs};

mod answer;
mod fields;
mod passes;
mod port;
mod reckoning;
mod stubs;
mod tick;

use answer::Answer;
use passes::quickest;
use port::AirBoxTick;
use tick::{Line, Tick};

// Written by the build: `mod oracle`, `mod plain` and `mod quiet` around the published files.
include!(env!("PUBLISHED_MODULES"));

/// A tick that is accepted, with the start word that holds for it, as each side takes it.
struct Accepted {
    rust: Tick,
    port: AirBoxTick,
}

/// The accepted ticks of a file, in which no box is built with design flows of its own.
fn accepted(text: &[u8]) -> Vec<Accepted> {
    let mut ticks = Vec::new();
    let (mut last, mut pending) = (None, 1);
    for bytes in text.split(|&b| b == b'\n') {
        let mut tick = match Line::read(bytes) {
            None => continue,
            Some(Line::Tick(tick)) => tick,
            Some(Line::Building(_)) => panic!("only boxes of the usual size are measured"),
        };
        if tick.start != 0 {
            (last, pending) = (None, tick.start);
        }
        if tick.refusal(last) != 0 {
            continue;
        }
        last = Some(tick.t);
        tick.start = std::mem::take(&mut pending);
        let port = port::port_tick(&tick);
        ticks.push(Accepted { rust: tick, port });
    }
    ticks
}

fn digest(sum: u64, answer: &Answer) -> u64 {
    let sum = answer.floats.iter().fold(sum, |s, x| s.wrapping_mul(31).wrapping_add(x.to_bits()));
    answer.integers.iter().fold(sum, |s, n| s.wrapping_mul(31).wrapping_add(*n as u64))
}

#[inline(never)]
#[unsafe(no_mangle)]
fn run_port(ticks: &[Accepted]) -> u64 {
    let mut sum = 0;
    let mut record = port::AirBox::fresh(false);
    let mut output = Answer { floats: [0.0; 5], integers: [0; 5] };
    for tick in ticks {
        if tick.rust.start != 0 {
            record = port::AirBox::fresh(tick.rust.start == 2);
        }
        record.tick(&tick.port, &mut output);
        sum = digest(sum, &output);
    }
    sum
}

#[inline(never)]
#[unsafe(no_mangle)]
fn run_rust(ticks: &[Accepted]) -> u64 {
    let mut sum = 0;
    let mut controller = plain::fresh();
    for tick in ticks {
        match tick.rust.start {
            1 => controller = plain::fresh(),
            2 => controller = quiet::fresh(),
            _ => {}
        }
        let answer = controller.answer(&tick.rust);
        sum = digest(sum, &answer);
    }
    sum
}

fn main() {
    let words: Vec<String> = env::args().collect();
    let ticks = accepted(&fs::read(&words[1]).expect("the file of ticks"));
    let rounds = words[2].parse().expect("a number of rounds");
    match words.get(3).map(String::as_str) {
        Some("port") => println!("{} ticks, digest {:016x}", ticks.len(), run_port(&ticks)),
        Some("rust") => println!("{} ticks, digest {:016x}", ticks.len(), run_rust(&ticks)),
        _ => {
            assert_eq!(run_port(&ticks), run_rust(&ticks), "the two sides differ");
            let [port, rust] = quickest([run_port, run_rust], &ticks, rounds).map(|best| best / ticks.len() as f64);
            println!("{} accepted ticks, the same outputs", ticks.len());
            println!("port {port:.0} ns a tick, published Rust {rust:.0} ns a tick, ratio {:.2}", rust / port);
        }
    }
}
