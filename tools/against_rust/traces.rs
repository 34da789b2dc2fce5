//! `traces SEED RECORDS`: makes traces of the nights on standard input and lets the port's archive and the published Rust run them, until so many
//! records were done. Compared are the records done, the number, and every byte of the buffer and beside it, which is filled with marks before.
//! Each wrong reference has to be told apart on the way.

use std::process::ExitCode;
use std::{env, fs};

mod answer;
mod dice;
mod fields;
mod reckoning;
mod stubs;
mod tick;
mod trace;
mod trace_bytes;
mod trace_cases;
mod trace_nights;
mod trace_port;

use answer::{Texts, texts};
use dice::Dice;
use tick::Tick;
use trace::{NUMBERS, Outcome, Reader, Wrong, ZONE};
use trace_bytes::hex;
use trace_cases::Case;
use trace_nights::Whole;

// Written by the build: `mod oracle`, and the modules around the published files, as they are, sized and with the second reading, plain and quiet.
include!(env!("PUBLISHED_MODULES"));

const TEXTS: Texts = texts!(plain, quiet, sized, sized_quiet, second, second_quiet);

/// Bytes before the buffer and behind it.
const AROUND: usize = 64;

/// The numbers that a run can end with. The tick's 1 and 3 are none of them: the time of a trace is whole, and never goes back.
const NUMBERS_MET: [usize; 14] = [0, 2, 4, 5, 6, 7, 20, 21, 22, 23, 24, 25, 26, 27];
const CODES: [usize; 5] = [0, 12, 13, 23, 34];
const NANS: [&str; 4] = ["quiet", "signalling", "quiet, sign set", "signalling, sign set"];

/// What came up, numbers and codes by the reading.
struct Tally {
    traces: u64,
    records: u64,
    numbers: [[u64; 28]; 2],
    codes: [[u64; 35]; 2],
    /// NaNs of each kind among the readings that a record was refused for, with 5, 6 and 7.
    nans: [[u64; 3]; 4],
    /// Buffers of no byte, of too few, of just enough and of more.
    rooms: [u64; 4],
}

const NOTHING: Tally =
    Tally { traces: 0, records: 0, numbers: [[0; 28]; 2], codes: [[0; 35]; 2], nans: [[0; 3]; 4], rooms: [0; 4] };

struct Comparison {
    tally: Tally,
    left: Vec<(Wrong, String)>,
    /// The traces that were compared up to the one that told each wrong reference.
    told: Vec<(u64, String)>,
}

/// The buffer before a run, with marks that are no code.
fn marks(room: usize, turn: u64) -> Vec<u8> {
    (0..room + 2 * AROUND).map(|place| 0x80 | (place as u8).wrapping_mul(37).wrapping_add(turn as u8)).collect()
}

/// The outcome of a reference, and the buffer afterwards.
fn reference(wrong: Option<Wrong>, trace: &[u8], second: bool, room: usize, mut buffer: Vec<u8>) -> (Outcome, Vec<u8>) {
    let outcome = trace::run(TEXTS, wrong, trace, second, &mut buffer[AROUND..AROUND + room]);
    (outcome, buffer)
}

impl Comparison {
    /// One trace through both; what differs, as a text.
    fn compare(&mut self, trace: &[u8], second: bool, room: usize) -> Result<(), String> {
        let before = marks(room, self.tally.traces);
        self.tally.traces += 1;
        let right = reference(None, trace, second, room, before.clone());
        let (mut buffer, lent) = (before.clone(), trace.to_vec());
        let port = trace_port::run(&lent, second, &mut buffer, AROUND, room);
        let port = (port, buffer);
        if port != right || lent != trace {
            return Err(difference(&port, &right, trace, second, room));
        }
        self.count(trace, second, room, &right);
        let (told, left) = self.left.drain(..).partition(|(wrong, _)| reference(Some(*wrong), trace, second, room, before.clone()) != port);
        self.left = left;
        let traces = self.tally.traces;
        self.told.extend(Vec::into_iter(told).map(|(_, words)| (traces, words)));
        Ok(())
    }

    fn count(&mut self, trace: &[u8], second: bool, room: usize, (outcome, buffer): &(Outcome, Vec<u8>)) {
        let Outcome { done, number } = *outcome;
        let reading = usize::from(second);
        let tally = &mut self.tally;
        tally.records += done as u64;
        tally.numbers[reading][usize::from(number)] += 1;
        for &code in &buffer[AROUND..AROUND + done] {
            tally.codes[reading][usize::from(code)] += 1;
        }
        let fits = if room == 0 { 0 } else { usize::from(number != 26) + usize::from(room > done) + 1 };
        tally.rooms[fits] += 1;
        if (5..=7).contains(&number) {
            self.count_nans(trace, done, number);
        }
    }

    /// The NaNs among the readings that the record after `done` was refused for.
    fn count_nans(&mut self, trace: &[u8], done: usize, number: u8) {
        let mut bytes = trace;
        let mut next = || Reader(None).record(&mut bytes);
        let Some(Ok(Some(record))) = (0..=done).map(|_| next()).last() else { return };
        let refused = [5, 5, 5, 6, 6, 5, 5, 7];
        for place in (ZONE..NUMBERS).filter(|place| refused[place - ZONE] == number) {
            let bits = record[place];
            if f64::from_bits(bits).is_nan() {
                let kind = usize::from(bits & 1 << 51 == 0) + 2 * usize::from(bits >> 63 == 1);
                self.tally.nans[kind][usize::from(number) - 5] += 1;
            }
        }
    }

    /// A trace whose outcome is known by hand.
    fn case(&mut self, case: &Case) -> Result<(), String> {
        let Case { trace, second, room, codes, number } = case;
        let (outcome, buffer) = reference(None, trace, *second, *room, marks(*room, 0));
        let by_hand = Outcome { done: codes.len(), number: *number };
        if outcome != by_hand || buffer[AROUND..AROUND + codes.len()] != codes[..] {
            let given = hex(&buffer[AROUND..AROUND + outcome.done]);
            return Err(format!("the reference gives {outcome:?} and {given} where {by_hand:?} and {} were expected: {}", hex(codes), hex(trace)));
        }
        self.compare(trace, *second, *room)
    }

    /// A trace of some boxes, whole and damaged.
    fn some(&mut self, dice: &mut Dice, lives: &[Vec<Tick>]) -> Result<(), String> {
        let most = dice.pick(&[1, 2, 5, 40, 400, 2000]);
        let whole = Whole::of(dice, lives, most);
        let records = whole.records.len();
        let more = records + dice.below(50) as usize;
        for room in [records, more, records - 1, 0, dice.below(records as u64) as usize] {
            self.compare(&whole.bytes, dice.one_in(2), room)?;
        }
        for _ in 0..6 {
            let spoilt = whole.spoilt(dice);
            let room = if dice.one_in(8) { dice.below(records as u64) as usize } else { more };
            self.compare(&spoilt, dice.one_in(2), room)?;
            if records <= 3 {
                self.cut_everywhere(&spoilt, more)?;
            }
        }
        for _ in 0..6 {
            let (disordered, before) = whole.disordered(dice);
            let room = dice.pick(&[more, more, before, before, before - 1]);
            self.compare(&disordered, dice.one_in(2), room)?;
        }
        if records <= 3 {
            self.cut_everywhere(&whole.bytes, records)?;
        }
        self.compare(&whole.scratched(dice), dice.one_in(2), more)?;
        self.compare(whole.cut(dice), dice.one_in(2), more)?;
        let random = trace_nights::random(dice);
        let room = dice.below(4) as usize;
        self.compare(&random, dice.one_in(2), room)
    }

    fn cut_everywhere(&mut self, trace: &[u8], room: usize) -> Result<(), String> {
        (0..=trace.len()).try_for_each(|length| self.compare(&trace[..length], length % 2 == 0, room))
    }

    /// The table, and what has not come up.
    fn report(&self) -> Result<(), String> {
        let tally = &self.tally;
        let mut missing: Vec<String> = self.left.iter().map(|(_, words)| format!("not told: {words}")).collect();
        for (what, places, counts) in [("number", &NUMBERS_MET[..], tally.numbers.map(Vec::from)), ("code", &CODES[..], tally.codes.map(Vec::from))] {
            for &place in places {
                let [first, second] = [0, 1].map(|reading| counts[reading][place]);
                println!("{what} {place}: {first} with the first reading, {second} with the second");
                if first == 0 || second == 0 {
                    missing.push(format!("{what} {place}"));
                }
            }
        }
        for (kind, counts) in NANS.iter().zip(tally.nans) {
            let [five, six, seven] = counts;
            println!("NaNs, {kind}: {five} refused with 5, {six} with 6, {seven} with 7");
            if counts.contains(&0) {
                missing.push(format!("a NaN, {kind}"));
            }
        }
        let [none, few, enough, more] = tally.rooms;
        println!("buffers of no byte: {none}; of too few: {few}; of just as many as records done: {enough}; of more: {more}");
        if tally.rooms.contains(&0) {
            missing.push("a kind of buffer".into());
        }
        for (traces, words) in &self.told {
            println!("told at trace {traces}: {words}");
        }
        if missing.is_empty() { Ok(()) } else { Err(missing.join("\n")) }
    }
}

fn difference(port: &(Outcome, Vec<u8>), right: &(Outcome, Vec<u8>), trace: &[u8], second: bool, room: usize) -> String {
    let kept = env::current_exe().map(|path| path.with_file_name("differing_trace")).ok();
    let kept = kept.filter(|path| fs::write(path, trace).is_ok()).map_or("nowhere".into(), |path| path.display().to_string());
    let at = port.1.iter().zip(&right.1).position(|(a, b)| a != b);
    let byte = at.map_or("none".into(), |at| format!("{} of the buffer: {:02x}, {:02x}", at as i64 - AROUND as i64, port.1[at], right.1[at]));
    let reading = if second { "second" } else { "first" };
    let (port, right, length) = (port.0, right.0, trace.len());
    let start = hex(&trace[..length.min(400)]);
    let sides = format!("  port      {port:?}\n  reference {right:?}\n  byte      {byte}");
    format!("the two differ, {reading} reading, buffer of {room}\n{sides}\n  trace     {start}, {length} bytes, kept in {kept}")
}

fn run(seed: u64, records: u64) -> Result<String, String> {
    let lives = trace_nights::lives().map_err(|error| error.to_string())?;
    let mut comparison = Comparison { tally: NOTHING, left: trace::wrongs(), told: Vec::new() };
    let cases = trace_cases::cases();
    cases.iter().try_for_each(|case| comparison.case(case))?;
    println!("{} traces known by hand", cases.len());
    let mut dice = Dice::new(seed);
    while comparison.tally.records < records {
        comparison.some(&mut dice, &lives)?;
    }
    comparison.report()?;
    let Tally { traces, records, .. } = comparison.tally;
    Ok(format!("{traces} traces, {records} records: the records done, the number and every byte equal; {} wrong references told", comparison.told.len()))
}

fn main() -> ExitCode {
    let numbers: Result<Vec<u64>, _> = env::args().skip(1).map(|word| word.parse()).collect();
    let Ok([seed, records]) = numbers.as_deref() else {
        eprintln!("usage: traces SEED RECORDS");
        return ExitCode::from(2);
    };
    match run(*seed, *records) {
        Ok(text) => println!("{text}"),
        Err(text) => {
            println!("{text}");
            return ExitCode::FAILURE;
        }
    }
    ExitCode::SUCCESS
}
