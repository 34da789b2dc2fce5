//! `states LINES`: lets the port's archive and the published Rust take so many lines of standard input, and compares every field of the two boxes
//! after each. A refused tick is compared as well: both give its number, and no field moves. A refused building moves no byte of the port's box.

use std::process::ExitCode;

mod answer;
mod drive;
mod fields;
mod port;
mod reckoning;
mod stubs;
mod tick;

use answer::{AirBox, Answer, texts};
use fields::{Fields, Pairs, Place, Value};
use tick::{Building, Line, Tick, USUAL};

// Written by the build: `mod oracle`, and the modules around the published files, as they are, sized and with the second reading, plain and quiet.
include!(env!("PUBLISHED_MODULES"));

/// The path of a field of the port's record as the Rust has it: the port groups four of the Rust's stages under one name.
fn rust_path(place: &Place) -> String {
    place.path.strip_prefix("airflow.").unwrap_or(&place.path).into()
}

/// The two boxes, the pairs of their fields, and the values of both after the last tick.
struct Both {
    port: port::AirBox,
    rust: AirBox,
    pairs: Pairs,
    port_values: Vec<Value>,
    rust_values: Vec<Value>,
    /// Accepted ticks from a plain and from a quiet start.
    accepted: [u64; 2],
    /// Those of them that boxes of other sizes took.
    sized: u64,
    /// Those of them that boxes with the second reading took.
    second: u64,
    /// Buildings that were refused.
    refused: u64,
}

/// That both sides gave the same number.
fn same_number(port: u8, rust: usize) -> Option<String> {
    (usize::from(port) != rust).then(|| format!("the numbers differ\n  port      {port}\n  reference {rust}"))
}

impl Both {
    fn new() -> Result<Both, String> {
        let rust = AirBox::new(texts!(plain, quiet, sized, sized_quiet, second, second_quiet));
        let port_paths = fields::places::<port::AirBox>().iter().map(rust_path).collect();
        Ok(Both {
            port: port::AirBox::fresh(false),
            pairs: Pairs::new(port_paths, rust.paths())?,
            rust,
            port_values: Vec::new(),
            rust_values: Vec::new(),
            accepted: [0; 2],
            sized: 0,
            second: 0,
            refused: 0,
        })
    }

    /// The first field that differs, as a text.
    fn difference(&mut self) -> Option<String> {
        self.port_values.clear();
        self.rust_values.clear();
        self.port.values(&mut self.port_values);
        self.rust.values(&mut self.rust_values);
        let (path, port, rust) = self.pairs.differing(&self.port_values, &self.rust_values).next()?;
        Some(format!("{path} differs\n  port      {port}\n  reference {rust}"))
    }

    /// One line through both, and what differs before or after it.
    fn take(&mut self, line: &Line) -> Option<String> {
        match line {
            Line::Tick(tick) => self.tick(tick),
            Line::Building(building) => self.build(building),
        }
    }

    fn build(&mut self, building: &Building) -> Option<String> {
        let before = self.port.bytes().to_vec();
        let number = self.port.build(building);
        if number != 0 && self.port.bytes() != before {
            return Some("a refused building wrote the box".into());
        }
        self.refused += u64::from(number != 0);
        same_number(number, self.rust.build(building)).or_else(|| self.difference())
    }

    fn tick(&mut self, tick: &Tick) -> Option<String> {
        if tick.start != 0 {
            self.rust.start(tick.start);
            self.port = port::AirBox::fresh(tick.start == 2);
        }
        if self.rust.last.is_none() {
            let fresh = self.difference();
            if fresh.is_some() {
                return fresh.map(|text| format!("fresh box: {text}"));
            }
        }
        let mut output = Answer { floats: [0.0; 5], integers: [0; 5] };
        let number = self.port.tick(&port::port_tick(tick), &mut output);
        let refusal = self.rust.tick(tick).err().unwrap_or(0);
        self.accepted[usize::from(self.rust.quiet)] += u64::from(number == 0);
        self.sized += u64::from(number == 0 && self.rust.flows != USUAL);
        self.second += u64::from(number == 0 && self.rust.second());
        same_number(number, refusal).or_else(|| self.difference())
    }

    /// Flips each bit of each field of the port's record in turn. The field, and it alone, has to be told by its path; but the bits of the
    /// number beside an absent time tell nothing.
    fn flip_every_bit(&mut self) -> Result<(), String> {
        let before = self.port_values.clone();
        for (place, value) in fields::places::<port::AirBox>().iter().zip(before) {
            let here = rust_path(place);
            for (index, byte) in place.bytes.iter().enumerate() {
                let silent = value == Value::time(None) && index > 0;
                let expected = if silent { vec![] } else { vec![here.clone()] };
                for bit in 0..8 {
                    let told = self.told_after_flip(*byte, bit);
                    if told != expected {
                        return Err(format!("bit {bit} of byte {byte} lies in {here}, and a flip was told as {told:?}"));
                    }
                }
            }
        }
        Ok(())
    }

    fn told_after_flip(&mut self, byte: usize, bit: u32) -> Vec<String> {
        let at = unsafe { (&raw mut self.port).cast::<u8>().add(byte) };
        unsafe { *at ^= 1 << bit };
        self.difference();
        unsafe { *at ^= 1 << bit };
        let differing = self.pairs.differing(&self.port_values, &self.rust_values);
        differing.map(|(path, _, _)| path.to_string()).collect()
    }
}

fn run(lines: u64) -> Result<String, String> {
    let mut both = Both::new()?;
    drive::each_line(lines, |line| both.take(line))?;
    let Both { accepted: [plain, quiet], sized, second, refused, .. } = both;
    let accepted = format!("accepted {plain} plain, {quiet} quiet, {sized} of them of other sizes, {second} with the second reading");
    let counts = format!("{accepted}; {refused} buildings refused, no byte written");
    if [plain, quiet, sized, second, refused].contains(&0) {
        return Err(format!("{counts}: too few to compare"));
    }
    both.flip_every_bit()?;
    println!("{counts}\neach bit of each field of the last box, flipped, is told by the field's path");
    Ok(format!("{} accepted ticks, every field of the state equal ({} fields)", plain + quiet, both.pairs.len()))
}

fn main() -> ExitCode {
    drive::program(run)
}
