//! `helpers LINES`: lets three texts take so many lines of standard input: the published one, the one with document 01's helpers, and the one
//! whose `max` and `min` give the other zero, each as it is, sized and with the second reading. Compares the ten outputs and every field of the state
//! after each accepted tick.

use std::process::ExitCode;

mod answer;
mod drive;
mod fields;
mod reckoning;
mod stubs;
mod tick;
mod zeros;

use answer::{AirBox, Texts, texts};
use fields::{Pairs, Value};
use tick::{Line, Tick, USUAL};

// Written by the build: `mod oracle` and the modules around the three texts, as they are, sized and with the second reading, plain and quiet.
include!(env!("PUBLISHED_MODULES"));

const PUBLISHED: Texts = texts!(plain, quiet, sized, sized_quiet, second, second_quiet);
const DOCUMENT: Texts =
    texts!(document_plain, document_quiet, document_sized, document_sized_quiet, document_second, document_second_quiet);
const OTHER_ZEROS: Texts = texts!(
    other_zeros_plain,
    other_zeros_quiet,
    other_zeros_sized,
    other_zeros_sized_quiet,
    other_zeros_second,
    other_zeros_second_quiet
);
const TEXTS: [(&str, Texts); 3] = [("published", PUBLISHED), ("document 01's helpers", DOCUMENT), ("the other zero", OTHER_ZEROS)];

/// A box of one text, with the fields of its state and its outputs after the last tick.
struct Side {
    name: &'static str,
    air_box: AirBox,
    values: Vec<Value>,
}

struct Sides {
    sides: [Side; 3],
    pairs: Pairs,
    accepted: [u64; 2],
    /// Accepted ticks of boxes of other sizes.
    sized: u64,
    /// Accepted ticks of boxes with the second reading.
    second: u64,
    /// Accepted ticks at -0.0 right after one at 0.0.
    minus_zero: u64,
}

impl Sides {
    fn new() -> Result<Sides, String> {
        let sides = TEXTS.map(|(name, texts)| Side { name, air_box: AirBox::new(texts), values: Vec::new() });
        let paths = || sides[0].air_box.paths().into_iter().chain((1..=10).map(|n| format!("output {n}"))).collect();
        let pairs = Pairs::new(paths(), paths())?;
        Ok(Sides { sides, pairs, accepted: [0; 2], sized: 0, second: 0, minus_zero: 0 })
    }

    /// One line through all; the first difference from the published text.
    fn take(&mut self, line: &Line) -> Option<String> {
        match line {
            Line::Tick(tick) => self.tick(tick),
            Line::Building(building) => {
                for side in &mut self.sides {
                    side.air_box.build(building);
                }
                None
            }
        }
    }

    fn tick(&mut self, tick: &Tick) -> Option<String> {
        self.sides.iter_mut().for_each(|side| side.air_box.start(tick.start));
        let last = self.sides[0].air_box.last;
        for side in &mut self.sides {
            let answer = side.air_box.tick(tick).ok()?;
            side.values.clear();
            side.air_box.values(&mut side.values);
            side.values.extend(answer.bits());
        }
        let air_box = &self.sides[0].air_box;
        self.accepted[usize::from(air_box.quiet)] += 1;
        self.sized += u64::from(air_box.flows != USUAL);
        self.second += u64::from(air_box.second());
        let bits = |t: f64| t.to_bits();
        self.minus_zero += u64::from(last.map(bits) == Some(bits(0.0)) && bits(tick.t) == bits(-0.0));
        let [published, others @ ..] = &self.sides;
        let other = others.iter().find(|other| other.values != published.values)?;
        let (path, a, b) = self.pairs.differing(&published.values, &other.values).next()?;
        Some(format!("{path} differs\n  published {a}\n  {} {b}", other.name))
    }
}

fn run(lines: u64) -> Result<String, String> {
    let mut sides = Sides::new()?;
    drive::each_line(lines, |line| sides.take(line))?;
    let Sides { accepted: [plain, quiet], sized, second, minus_zero, .. } = sides;
    let boxes = format!("{sized} of them of other sizes, {second} with the second reading");
    let counts = format!("accepted {plain} plain, {quiet} quiet; {boxes}, {minus_zero} at t = -0.0 right after 0.0");
    if [plain, quiet, sized, second, minus_zero].contains(&0) {
        return Err(format!("{counts}: too few to compare"));
    }
    println!("{lines} lines, {counts}");
    Ok(format!("{} accepted ticks, ten outputs and every field of the state equal in three texts", plain + quiet))
}

fn main() -> ExitCode {
    drive::program(run)
}
