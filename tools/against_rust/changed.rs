//! `changed LINES`: lets the published text and a changed copy of it take so many lines of standard input, from plain starts, and prints where
//! the copy is told apart: `output TICK`, or `state TICK PATH` where only a field of the state differs, or `equal`.

use std::process::ExitCode;

mod answer;
mod drive;
mod fields;
mod reckoning;
mod stubs;
mod tick;

use answer::{AirBox, Controller, Texts};
use fields::{Pairs, Value};
use tick::Line;

// Written by the tool: `mod oracle`, and the modules `plain` and `changed`.
include!(env!("PUBLISHED_MODULES"));

fn values(air_box: &AirBox) -> Vec<Value> {
    let mut values = Vec::new();
    air_box.values(&mut values);
    values
}

/// A box that has plain starts only.
fn air_box(fresh: fn() -> Box<dyn Controller>) -> AirBox {
    AirBox::new(Texts { usual: [fresh; 2], sized: [fresh; 2], second: [fresh; 2] })
}

/// Runs to the end or to the first output that differs, which ends the reading as an error.
fn run(lines: u64) -> Result<String, String> {
    let (mut a, mut b) = (air_box(plain::fresh), air_box(changed::fresh));
    let pairs = Pairs::new(a.paths(), b.paths())?;
    let (mut number, mut in_state, mut in_output) = (0, None, None);
    let read = drive::each_line(lines, |line| {
        let Line::Tick(tick) = line else { return Some("only boxes of the usual size are run here".into()) };
        number += 1;
        a.start(tick.start);
        b.start(tick.start);
        if a.tick(tick).map(|answer| answer.bits()) != b.tick(tick).map(|answer| answer.bits()) {
            in_output = Some(format!("output {number}"));
            return in_output.clone();
        }
        if in_state.is_none() {
            let both = (values(&a), values(&b));
            let path = pairs.differing(&both.0, &both.1).next().map(|(path, _, _)| path);
            in_state = path.map(|path| format!("state {number} {path}"));
        }
        None
    });
    match in_output.or(in_state) {
        Some(told) => Ok(told),
        None => read.map(|()| "equal".into()),
    }
}

fn main() -> ExitCode {
    drive::program(run)
}
