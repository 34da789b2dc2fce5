//! `averages PROGRAM SEED TRACES`: makes traces of the nights on standard input, lets the port's program `averages` and the published Rust print the averages
//! of so many of them, and compares the text. Each wrong reference has to be told apart on the way.
//! `averages --text` prints the text of the trace on standard input; `averages --store ROOT` writes the stored traces.

use std::io::{self, Read};
use std::ops::Range;
use std::process::ExitCode;
use std::{env, fs};

mod answer;
mod averages_cases;
mod averages_nights;
mod dice;
mod fields;
mod night_averages;
mod reckoning;
mod stubs;
mod tick;
mod trace;
mod trace_bytes;
mod trace_cases;
mod trace_nights;

use answer::{Texts, texts};
use averages_nights::{BOXES, answer};
use dice::Dice;
use night_averages::{Averages, CODES, LARGEST, LEVELS, MOST_RECORDS, Printed, Slip, printed};
use tick::Tick;
use trace::{BOX, FLAGS, Record, ZONE, with};
use trace_bytes::hex;
use trace_nights::Whole;

// Written by the build: `mod oracle`, and the modules around the published files, as they are, sized and with the second reading, plain and quiet.
include!(env!("PUBLISHED_MODULES"));

const TEXTS: Texts = texts!(plain, quiet, sized, sized_quiet, second, second_quiet);

/// The numbers that can refuse a trace. The tick's 1 and 3 are none of them: the time of a trace is whole, and never goes back.
const REFUSALS: [u8; 13] = [2, 4, 5, 6, 7, 20, 21, 22, 23, 24, 25, 27, 41];
const REQUESTS: [&str; 2] = ["temperature", "pressure"];
const SIZES: Range<usize> = LARGEST - 1..LARGEST + 2;

/// What came up.
#[derive(Default)]
struct Tally {
    counts: Vec<(String, u64)>,
    /// Lines of each box.
    boxes: [u64; BOXES],
    traces: u64,
    lines: u64,
}

impl Tally {
    fn count(&mut self, what: impl Into<String>, by: u64) {
        let what = what.into();
        match self.counts.iter_mut().find(|(name, _)| *name == what) {
            Some((_, count)) => *count += by,
            None => self.counts.push((what, by)),
        }
    }

    /// All that has to come up, at zero.
    fn new() -> Tally {
        let mut tally = Tally::default();
        let mut expect = |what: String| tally.count(what, 0);
        REFUSALS.iter().for_each(|number| expect(refused(*number)));
        let kinds = ["empty", "of one record", "all with 40", "with 40 and averages", "with averages alone", "of sixteen boxes"];
        kinds.iter().for_each(|kind| expect(whole(kind)));
        for size in SIZES {
            [false, true].iter().for_each(|&runs| expect(sized(size, runs)));
        }
        [false, true].iter().for_each(|&runs| expect(far_larger(runs)));
        expect(whole(&most_records()));
        for request in REQUESTS {
            for kind in ["0/1", "whole", "below 1", "above 1", "that were in lowest terms", "that were not"] {
                expect(fractions(request, kind));
            }
            (0..LEVELS).for_each(|level| expect(seconds_at(request, level)));
        }
        CODES.iter().for_each(|code| expect(seconds_in(*code)));
        tally
    }

    fn trace(&mut self, trace: &[u8], printed: &Printed) {
        let Printed { number, ended, boxes, .. } = printed;
        let runs = *ended == 0;
        self.traces += 1;
        if SIZES.contains(&trace.len()) {
            self.count(sized(trace.len(), runs), 1);
        } else if trace.len() > 2 * LARGEST {
            self.count(far_larger(runs), 1);
        }
        if *number != 0 {
            self.lines += 1;
            self.count(refused(*number), 1);
            return;
        }
        self.lines += boxes.len() as u64;
        let with_40 = boxes.iter().filter(|(_, averages)| averages.is_none()).count();
        let kind = match (with_40, boxes.len() - with_40) {
            (0, 0) => "empty",
            (_, 0) => "all with 40",
            (0, _) => "with averages alone",
            _ => "with 40 and averages",
        };
        self.count(whole(kind), 1);
        self.count(whole("of sixteen boxes"), u64::from(boxes.len() == BOXES));
        for (air_box, averages) in boxes {
            self.boxes[*air_box as usize] += 1;
            if let Some(averages) = averages {
                self.averages(averages);
            }
        }
    }

    fn averages(&mut self, averages: &Averages) {
        for (request, (sum, [top, bottom])) in REQUESTS.iter().zip(averages.sums.iter().zip(averages.fractions)) {
            let kind = match top {
                0 => "0/1",
                _ if bottom == 1 => "whole",
                _ if top < bottom => "below 1",
                _ => "above 1",
            };
            self.count(fractions(request, kind), 1);
            if top != 0 {
                let lowest = *sum == top;
                self.count(fractions(request, if lowest { "that were in lowest terms" } else { "that were not" }), 1);
            }
        }
        for (request, seconds) in REQUESTS.iter().zip(averages.at_level) {
            (0..LEVELS).for_each(|level| self.count(seconds_at(request, level), seconds[level]));
        }
        for (code, seconds) in CODES.iter().zip(averages.in_code) {
            self.count(seconds_in(*code), seconds);
        }
    }
}

fn refused(number: u8) -> String {
    format!("traces refused with {number}")
}

fn whole(kind: &str) -> String {
    format!("whole traces {kind}")
}

fn most_records() -> String {
    format!("of {MOST_RECORDS} records")
}

fn sized(size: usize, runs: bool) -> String {
    format!("traces of {size} bytes, {}", if runs { "whole" } else { "damaged" })
}

fn far_larger(runs: bool) -> String {
    format!("traces of more than {} bytes, {}", 2 * LARGEST, if runs { "whole" } else { "damaged" })
}

fn fractions(request: &str, kind: &str) -> String {
    format!("{request} averages {kind}")
}

fn seconds_at(request: &str, level: usize) -> String {
    format!("seconds at {request} request {level}")
}

fn seconds_in(code: u8) -> String {
    format!("seconds in code {code}")
}

struct Comparison {
    program: String,
    tally: Tally,
    left: Vec<(Slip, &'static str)>,
    /// The traces that were compared up to the one that told each wrong reference.
    told: Vec<(u64, &'static str)>,
}

impl Comparison {
    /// One trace through both; what differs, as a text.
    fn compare(&mut self, trace: &[u8]) -> Result<Printed, String> {
        let right = printed(TEXTS, None, trace);
        let port = answer(&self.program, trace).map_err(|text| difference(&text, &right.text, trace))?;
        if port != right.text {
            return Err(difference(&port, &right.text, trace));
        }
        self.tally.trace(trace, &right);
        let (told, left) = self.left.drain(..).partition(|(slip, _)| printed(TEXTS, Some(*slip), trace).text != port);
        self.left = left;
        let traces = self.tally.traces;
        self.told.extend(Vec::into_iter(told).map(|(_, words)| (traces, words)));
        Ok(right)
    }

    /// A trace whose text is known by hand.
    fn case(&mut self, trace: &[u8], text: &str) -> Result<(), String> {
        let given = self.compare(trace)?.text;
        if given == text { Ok(()) } else { Err(format!("both give {given:?} where {text:?} was expected: {}", start_of(trace))) }
    }

    /// A trace that nothing refuses.
    fn whole(&mut self, kind: &str, records: &[Record]) -> Result<(), String> {
        let Printed { number, .. } = self.compare(&trace_bytes::trace(records))?;
        self.tally.count(whole(kind), u64::from(number == 0));
        Ok(())
    }

    /// Those known by hand, here and of the run: where a trace is refused, its text is the number.
    fn cases(&mut self) -> Result<usize, String> {
        let cases = averages_cases::cases();
        cases.iter().try_for_each(|case| self.case(&case.trace, case.text))?;
        let refused: Vec<_> = trace_cases::cases().into_iter().filter(|case| !case.second && ![0, 26].contains(&case.number)).collect();
        refused.iter().try_for_each(|case| self.case(&case.trace, &format!("{}\n", case.number)))?;
        Ok(cases.len() + refused.len())
    }

    /// A trace of some boxes, whole and damaged.
    fn some(&mut self, dice: &mut Dice, lives: &[Vec<Tick>]) -> Result<(), String> {
        let most = dice.pick(&[1, 2, 3, 5, 10, 40, 400]);
        let night = Whole::of(dice, lives, most);
        self.compare(&night.bytes)?;
        self.whole("of one record", &night.records[..1])?;
        self.compare(&averages_nights::thinned(dice, &night.records))?;
        self.compare(&averages_nights::at_once(&night.records))?;
        for _ in 0..4 {
            self.compare(&night.spoilt(dice))?;
        }
        for _ in 0..2 {
            self.compare(&night.disordered(dice).0)?;
        }
        self.compare(&night.scratched(dice))?;
        self.compare(night.cut(dice))?;
        self.compare(&trace_nights::random(dice)).map(|_| ())
    }

    /// Traces of the largest size and beside it, whole and damaged, the densest, and far larger ones.
    fn sizes(&mut self, dice: &mut Dice, lives: &[Vec<Tick>]) -> Result<(), String> {
        let night = averages_nights::long_night(dice, lives, LARGEST + 1);
        for size in SIZES {
            let (trace, starts) = averages_nights::of_size(&night, size);
            self.compare(&trace)?;
            self.compare(&night.bytes[..size])?;
            let mut damaged = trace.clone();
            let (place, number) = dice.pick(&[(BOX, 16), (FLAGS, 8), (ZONE, 500f64.to_bits())]);
            let at = dice.pick(&starts);
            let mut rest = &damaged[at..];
            let record = trace::Reader(None).record(&mut rest).expect("a record").expect("a record");
            let bytes = trace_bytes::record(&with(record, [(place, number)])).concat();
            damaged[at..at + bytes.len()].copy_from_slice(&bytes);
            self.compare(&damaged)?;
        }
        let dense = averages_nights::fillers(&night.records[0], LARGEST, MOST_RECORDS);
        self.whole(&most_records(), &dense)?;
        let far = averages_nights::long_night(dice, lives, 2 * LARGEST);
        self.compare(&far.bytes)?;
        self.compare(&[&far.bytes[..], &vec![0; 64 * LARGEST]].concat())?;
        self.compare(&far.spoilt(dice)).map(|_| ())
    }

    /// The table, and what has not come up.
    fn report(&self) -> Result<(), String> {
        self.tally.counts.iter().for_each(|(what, count)| println!("{what}: {count}"));
        println!("lines of the boxes, by number: {}", self.tally.boxes.map(|count| count.to_string()).join(" "));
        self.told.iter().for_each(|(traces, words)| println!("told at trace {traces}: {words}"));
        let none = self.tally.counts.iter().filter(|(_, count)| *count == 0).map(|(what, _)| format!("no {what}"));
        let no_box = (0..BOXES).filter(|&air_box| self.tally.boxes[air_box] == 0).map(|air_box| format!("no lines of box {air_box}"));
        let missing: Vec<String> = none.chain(no_box).chain(self.left.iter().map(|(_, words)| format!("not told: {words}"))).collect();
        if missing.is_empty() { Ok(()) } else { Err(missing.join("\n")) }
    }
}

fn start_of(trace: &[u8]) -> String {
    format!("{}, {} bytes", hex(&trace[..trace.len().min(400)]), trace.len())
}

fn difference(port: &str, right: &str, trace: &[u8]) -> String {
    let kept = env::current_exe().map(|path| path.with_file_name("differing_night")).ok();
    let kept = kept.filter(|path| fs::write(path, trace).is_ok()).map_or("nowhere".into(), |path| path.display().to_string());
    format!("the two differ\nport\n{port}reference\n{right}trace {}, kept in {kept}", start_of(trace))
}

fn run(program: &str, seed: u64, traces: u64) -> Result<String, String> {
    let lives = trace_nights::lives().map_err(|error| error.to_string())?;
    let mut comparison = Comparison { program: program.into(), tally: Tally::new(), left: Vec::new(), told: Vec::new() };
    println!("{} traces known by hand", comparison.cases()?);
    // Told they have to be by generated traces.
    comparison.left = night_averages::slips();
    let mut dice = Dice::new(seed);
    comparison.sizes(&mut dice, &lives)?;
    while comparison.tally.traces < traces {
        comparison.some(&mut dice, &lives)?;
        if dice.one_in(50) {
            comparison.sizes(&mut dice, &lives)?;
        }
    }
    comparison.report()?;
    let Tally { traces, lines, .. } = comparison.tally;
    Ok(format!("{traces} traces, {lines} lines, every byte equal; {} wrong references told", comparison.told.len()))
}

/// The text of the trace on standard input.
fn text() -> Result<String, String> {
    let mut trace = Vec::new();
    io::stdin().read_to_end(&mut trace).map_err(|error| error.to_string())?;
    Ok(printed(TEXTS, None, &trace).text)
}

/// Writes under the repository's root what the gate runs again without the Rust: the traces known by hand, but those of many bytes, each with its text; and
/// the first of them as stdin and stdout of the program. The reference has to give the texts.
fn store(root: &str) -> Result<String, String> {
    let cases = averages_cases::cases();
    let mut lines = String::new();
    for averages_cases::Case { trace, text } in cases.iter().filter(|case| case.trace.len() < LARGEST) {
        let given = printed(TEXTS, None, trace).text;
        if given != *text {
            return Err(format!("the reference gives {given:?} where {text:?} was expected"));
        }
        let word = if trace.is_empty() { "-".into() } else { hex(trace) };
        lines += &format!("trace {word}\n{text}");
    }
    let [example, ..] = &cases[..] else { unreachable!() };
    let stored = "tools/averages/traces.txt";
    let [stdin, stdout] = ["stdin", "stdout"].map(|name| format!("crates/averages/{name}"));
    for (name, bytes) in [(stored, lines.as_bytes()), (&stdin, &example.trace), (&stdout, example.text.as_bytes())] {
        fs::write(format!("{root}/{name}"), bytes).map_err(|error| format!("{name}: {error}"))?;
    }
    Ok(format!("{stored}: {} lines\n", lines.lines().count()))
}

fn main() -> ExitCode {
    let words: Vec<String> = env::args().skip(1).collect();
    let words: Vec<&str> = words.iter().map(String::as_str).collect();
    let given = match words[..] {
        ["--text"] => text(),
        ["--store", root] => store(root),
        [program, seed, traces] => match (seed.parse(), traces.parse()) {
            (Ok(seed), Ok(traces)) => run(program, seed, traces).map(|text| text + "\n"),
            _ => Err("usage: averages PROGRAM SEED TRACES".into()),
        },
        _ => Err("usage: averages PROGRAM SEED TRACES | --text | --store ROOT".into()),
    };
    match given {
        Ok(text) => print!("{text}"),
        Err(text) => {
            println!("{text}");
            return ExitCode::FAILURE;
        }
    }
    ExitCode::SUCCESS
}
