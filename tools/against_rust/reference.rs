//! `reference`: answers lines of ticks and of buildings on standard input with the published Rust.

use std::io::{self, BufWriter, Write};

mod answer;
mod fields;
mod reckoning;
mod stubs;
mod tick;

use answer::{AirBox, Answer, texts};
use tick::Line;

// Written by the build: `mod oracle`, and the modules around the published files, as they are, sized and with the second reading, plain and quiet.
include!(env!("PUBLISHED_MODULES"));

fn refused(number: usize, line: &mut Vec<u8>) {
    line.extend_from_slice(format!("refused {number}").as_bytes());
}

fn print(answer: Result<Answer, usize>, line: &mut Vec<u8>) {
    match answer {
        Err(number) => refused(number, line),
        Ok(answer) => {
            for float in answer.floats {
                tick::push_hex(line, float.to_bits());
                line.push(b' ');
            }
            let [a, b, c, d, e] = answer.integers;
            line.extend_from_slice(format!("{a} {b} {c} {d} {e}").as_bytes());
        }
    }
}

fn main() -> io::Result<()> {
    let mut output = BufWriter::with_capacity(1 << 20, io::stdout().lock());
    let mut air_box = AirBox::new(texts!(plain, quiet, sized, sized_quiet, second, second_quiet));
    let mut answer = Vec::new();
    tick::each_line(|line| {
        match Line::read(line) {
            None => answer.extend_from_slice(b"malformed"),
            Some(Line::Building(building)) => match air_box.build(&building) {
                0 => answer.extend_from_slice(b"built"),
                number => refused(number, &mut answer),
            },
            Some(Line::Tick(tick)) => {
                air_box.start(tick.start);
                print(air_box.tick(&tick), &mut answer);
            }
        }
        answer.push(b'\n');
        output.write_all(&answer)?;
        answer.clear();
        Ok(())
    })?;
    output.flush()
}
