//! `text_logs SEED READINGS INPUTS`: lets the port's archive and a reference over Rust's standard library convert so many readings, and so many text logs and traces of
//! the nights on standard input, whole and damaged, and compares the records done, the bytes written, the number, and every byte of the output and beside it, which is
//! filled with marks before. Each wrong reference has to be told apart on the way.

use std::process::ExitCode;
use std::{env, fs};

// Only what `trace.rs` names of it.
#[allow(unused)]
mod answer;
mod dice;
mod fields;
mod plain_text_log;
mod reckoning;
mod tick;
mod text_log;
mod text_log_cases;
mod text_log_nights;
mod text_log_port;
mod trace;
mod trace_bytes;
mod trace_nights;

use dice::Dice;
use text_log::{Converter, LIMITS, MOST_DIGITS, MOST_PLACES, Outcome, Way, Wrong};
use text_log_cases::Case;
use text_log_nights::{KINDS, Log};
use tick::Tick;
use trace::{NUMBERS, Reader, Record, ZONE};

/// Bytes before a buffer and behind it.
const AROUND: usize = 64;

/// The numbers that each way can end with, and the places of a record that each can stand at: none, where it is not of one number.
const ENDS_TO_TRACE: [(u8, &[usize]); 10] =
    [(0, &[]), (50, ALL), (51, READINGS), (52, READINGS), (22, &[0]), (23, &[2]), (24, &[3, 4, 5]), (25, &[1]), (27, &[]), (54, &[])];
const ENDS_TO_TEXT: [(u8, &[usize]); 10] =
    [(0, &[]), (20, ALL), (21, ALL), (22, &[0]), (23, &[2]), (24, &[3, 4, 5]), (25, &[1]), (27, &[]), (53, READINGS), (54, &[])];
const ALL: &[usize] = &[0, 1, 2, 3, 4, 5, 6, 7, 8, 9, 10, 11, 12, 13];
const READINGS: &[usize] = &[6, 7, 8, 9, 10, 11, 12, 13];

/// Lines of a log of readings.
const LINES: usize = 100;

/// What came up, by the way.
struct Tally {
    inputs: [u64; 2],
    records: [u64; 2],
    numbers: [[u64; 55]; 2],
    /// The refusals by the place of the number that they are given for.
    places: [[[u64; NUMBERS]; 55]; 2],
    /// Buffers of no byte, of too few, of just enough and of more.
    rooms: [[u64; 4]; 2],
    /// Readings by their digits and by those after the point, and by how they were chosen.
    lengths: [[u64; MOST_PLACES + 1]; MOST_DIGITS + 1],
    kinds: [u64; KINDS.len()],
    /// Bits of readings that have no decimal, and that have one, by the search and by Rust.
    searched: [u64; 2],
    /// Traces that came back from a text as they were, and texts from a trace.
    back: u64,
}

struct Comparison {
    tally: Tally,
    left: Vec<(Way, Wrong, String)>,
    /// The inputs that were compared up to the one that told each wrong reference.
    told: Vec<(u64, Way, String)>,
}

/// Bytes that would go on with a number or end a line, if they were read.
fn marks(length: usize, turn: u64) -> Vec<u8> {
    let some = b"\n1\n,\n0\n.\n\x80\n-\n\x01\n9\n\xff";
    let first = turn as usize % some.len();
    some.repeat(length / some.len() + 2)[first..first + length].to_vec()
}

fn reference(wrong: Option<Wrong>, way: Way, input: &[u8], room: usize, mut buffer: Vec<u8>) -> (Outcome, Vec<u8>) {
    let outcome = Converter(wrong).convert(way, input, &mut buffer[AROUND..AROUND + room]);
    (outcome, buffer)
}

/// The program that `text_speed` measures beside the port, which has to do the same.
fn plain_program(way: Way, input: &[u8], room: &mut [u8]) -> Outcome {
    match way {
        Way::ToTrace => plain_text_log::to_trace(input, room),
        Way::ToText => plain_text_log::to_text(input, room),
    }
}

/// As many bytes as what is written of any input, or more. A line of 28 bytes gives 78 bytes at most, as each of its readings may take nine; a record of 14 bytes
/// gives 37, as four of its integers may have three digits.
fn enough(input: &[u8]) -> usize {
    3 * input.len()
}

impl Comparison {
    /// One input through both, which give the same; or what differs, as a text.
    fn compare(&mut self, way: Way, input: &[u8], room: usize) -> Result<(Outcome, Vec<u8>), String> {
        let turn = self.tally.inputs.iter().sum();
        let before = marks(room + 2 * AROUND, turn);
        let right = reference(None, way, input, room, before.clone());
        let lent = [&marks(AROUND, turn), input, &marks(AROUND, turn / 7)].concat();
        let (mut buffer, around) = (before.clone(), lent.clone());
        let outcome = text_log_port::convert(way, &around[AROUND..AROUND + input.len()], &mut buffer, AROUND, room);
        let port = (outcome, buffer);
        if port != right || around != lent {
            return Err(difference(way, &port, &right, input, room));
        }
        let mut plain = before.clone();
        let given = plain_program(way, input, &mut plain[AROUND..AROUND + room]);
        if (given, plain) != right {
            return Err(format!("the plain program ends with {given:?} where the reference ends with {:?}, {way:?}, room {room}: {}", right.0, shown(input)));
        }
        self.tally.count(way, input, room, &outcome);
        let told = |&(its_way, wrong, _): &(Way, Wrong, String)| its_way == way && reference(Some(wrong), way, input, room, before.clone()) != port;
        let (told, left): (Vec<_>, Vec<_>) = self.left.drain(..).partition(told);
        self.left = left;
        self.told.extend(told.into_iter().map(|(way, _, words)| (turn + 1, way, words)));
        Ok((outcome, port.1[AROUND..AROUND + outcome.written].to_vec()))
    }

    /// One whose outcome is known by hand.
    fn case(&mut self, case: &Case) -> Result<(), String> {
        let Case { way, input, room, done, output, number } = case;
        let (outcome, buffer) = reference(None, *way, input, *room, marks(room + 2 * AROUND, 0));
        let by_hand = Outcome { done: *done, written: output.len(), number: *number };
        if outcome != by_hand || buffer[AROUND..AROUND + outcome.written] != output[..] {
            let given = shown(&buffer[AROUND..AROUND + outcome.written]);
            return Err(format!("the reference gives {outcome:?} and {given} where {by_hand:?} and {} were expected, {way:?}: {}", shown(output), shown(input)));
        }
        self.compare(*way, input, *room).map(|_| ())
    }

    /// One with room enough. If nothing refuses it, its output is converted back: a trace comes back as it was, and so does a text that is made from a trace.
    fn compare_back(&mut self, way: Way, input: &[u8]) -> Result<(), String> {
        let (outcome, output) = self.compare(way, input, enough(input))?;
        if outcome.number == 54 {
            return Err(format!("{} bytes are not enough, {way:?}: {}", enough(input), shown(input)));
        }
        if outcome.number != 0 {
            return Ok(());
        }
        let text = match way {
            Way::ToText => output.clone(),
            Way::ToTrace => self.back(Way::ToText, &output)?,
        };
        let trace = if way == Way::ToText { input } else { &output };
        let trace_again = self.back(Way::ToTrace, &text)?;
        let text_again = self.back(Way::ToText, &trace_again)?;
        if trace_again != trace || text_again != text {
            return Err(format!("{} does not come back: {} and then {}, {}", shown(trace), shown(&text), shown(&trace_again), shown(&text_again)));
        }
        self.tally.back += 1;
        Ok(())
    }

    /// What was converted once is not refused on its way back.
    fn back(&mut self, way: Way, input: &[u8]) -> Result<Vec<u8>, String> {
        let (outcome, output) = self.compare(way, input, enough(input))?;
        if outcome.number == 0 { Ok(output) } else { Err(format!("{way:?} refuses what the other way gave with {}: {}", outcome.number, shown(input))) }
    }

    /// A log of readings, and back.
    fn readings(&mut self, dice: &mut Dice) -> Result<(), String> {
        let (lengths, kinds) = (&mut self.tally.lengths, &mut self.tally.kinds);
        let log = Log::of_readings(dice, LINES, |decimal| {
            lengths[decimal.length][decimal.places] += 1;
            kinds[decimal.kind as usize] += 1;
        });
        let text = log.text();
        let (outcome, trace) = self.compare(Way::ToTrace, &text, enough(&text))?;
        let (back, _) = self.compare(Way::ToText, &trace, enough(&trace))?;
        if [outcome, back].iter().any(|outcome| outcome.number != 0 || outcome.done != LINES) {
            return Err(format!("readings are refused, with {outcome:?} and back with {back:?}: {}", shown(&text)));
        }
        Ok(())
    }

    /// A log of a night and its trace, whole and damaged.
    fn some(&mut self, dice: &mut Dice, lives: &[Vec<Tick>]) -> Result<(), String> {
        let most = dice.pick(&[1, 1, 1, 1, 1, 2, 2, 2, 5, 40]);
        let log = Log::of(dice, lives, most);
        let text = log.text();
        let (_, trace) = self.compare(Way::ToTrace, &text, enough(&text))?;
        let night = text_log_nights::whole(&trace);
        self.compare_back(Way::ToTrace, &text)?;
        self.compare_back(Way::ToText, &trace)?;
        self.rooms(dice, Way::ToTrace, &text, &trace)?;
        let (_, written) = self.compare(Way::ToText, &trace, enough(&trace))?;
        self.rooms(dice, Way::ToText, &trace, &written)?;
        let times = if log.lines.len() > 50 { 1 } else { 6 };
        for _ in 0..2 * times {
            let damaged = if dice.one_in(3) { text_log_nights::scratched(dice, &text) } else { log.spoilt(dice) };
            self.damaged(dice, Way::ToTrace, &damaged)?;
        }
        for _ in 0..times {
            let damaged = night.spoilt(dice);
            self.damaged(dice, Way::ToText, &damaged)?;
            let damaged = text_log_nights::with_bits(dice, &night);
            self.damaged(dice, Way::ToText, &damaged)?;
            let damaged = night.disordered(dice).0;
            self.damaged(dice, Way::ToText, &damaged)?;
        }
        let damaged = night.scratched(dice);
        self.damaged(dice, Way::ToText, &damaged)?;
        let [line, record] = [&text, &trace].map(|input| input.len().saturating_sub(dice.below(200) as usize));
        self.damaged(dice, Way::ToTrace, &text[..line])?;
        self.damaged(dice, Way::ToText, &trace[..record])?;
        (0..50).try_for_each(|_| self.search(text_log_nights::bits(dice)))?;
        self.compare_back(Way::ToTrace, &text_log_nights::random(dice))?;
        self.compare_back(Way::ToText, &trace_nights::random(dice))
    }

    /// With room enough, and back if nothing refuses it; and sometimes with other rooms, mostly with just enough for the records done.
    fn damaged(&mut self, dice: &mut Dice, way: Way, input: &[u8]) -> Result<(), String> {
        self.compare_back(way, input)?;
        if dice.one_in(4) {
            let (outcome, _) = self.compare(way, input, enough(input))?;
            self.compare(way, input, outcome.written + dice.pick(&[0, 0, 1, 20]))?;
            self.compare(way, input, dice.below(2 * input.len() as u64 + 1) as usize)?;
        }
        Ok(())
    }

    /// Rooms of which it is known what they do to an input that nothing refuses: just enough, one byte too few, none; and others.
    fn rooms(&mut self, dice: &mut Dice, way: Way, input: &[u8], output: &[u8]) -> Result<(), String> {
        let size = output.len();
        let any = dice.below(size as u64) as usize;
        for room in [size, size + 1, size - 1, 0, any] {
            let (outcome, written) = self.compare(way, input, room)?;
            if (outcome.number == 0) != (room >= size) || !output.starts_with(&written) {
                return Err(format!("{way:?} ends with {outcome:?} in a room of {room} where {size} bytes are just enough: {}", shown(input)));
            }
        }
        // Just enough for the records up to that one, and one byte more or less.
        let (outcome, _) = self.compare(way, input, any)?;
        self.compare(way, input, outcome.written)?;
        self.compare(way, input, outcome.written + 1)?;
        self.compare(way, input, outcome.written.saturating_sub(1)).map(|_| ())
    }

    /// The search against Rust's `{}`, which writes the fewest digits that give an f64: where they are few enough they are those of the one decimal.
    fn search(&mut self, bits: u64) -> Result<(), String> {
        let text = f64::from_bits(bits).to_string();
        let converter = Converter(None);
        let allowed = converter.well_formed(ZONE, &text) && !converter.has_too_many_digits(&text) && !converter.is_minus_zero(&text);
        let found = converter.decimal(bits);
        self.tally.searched[usize::from(allowed)] += 1;
        if found == allowed.then_some(text.clone()) { Ok(()) } else { Err(format!("of {bits:016x} the search gives {found:?} and Rust {text}")) }
    }

    /// The table, and what has not come up.
    fn report(&self) -> Result<(), String> {
        let mut missing: Vec<String> = self.left.iter().map(|(way, _, words)| format!("not told, {way:?}: {words}")).collect();
        for way in [Way::ToTrace, Way::ToText] {
            self.tally.report(way, &mut missing);
        }
        for (digits, counts) in self.tally.lengths.iter().enumerate().skip(1) {
            for (places, count) in counts.iter().enumerate().filter(|(places, _)| *places < digits) {
                if *count == 0 {
                    missing.push(format!("a reading of {digits} digits, {places} of them after the point"));
                }
            }
        }
        let lengths = self.tally.lengths.iter().flatten().filter(|count| **count > 0);
        println!("readings of each of the {} lengths: {} or more", lengths.clone().count(), lengths.min().unwrap_or(&0));
        for (kind, count) in KINDS.iter().zip(self.tally.kinds) {
            println!("readings, {kind:?}: {count}");
            if count == 0 {
                missing.push(format!("readings, {kind:?}"));
            }
        }
        let [without, with] = self.tally.searched;
        println!("readings searched, with a decimal: {with}; without: {without}");
        println!("traces that came back, and their texts: {}", self.tally.back);
        self.told.iter().for_each(|(inputs, way, words)| println!("told at {inputs}, {way:?}: {words}"));
        for (count, what) in [(without, "a reading without a decimal"), (with, "a reading with a decimal"), (self.tally.back, "a trace that came back")] {
            if count == 0 {
                missing.push(what.into());
            }
        }
        if missing.is_empty() { Ok(()) } else { Err(missing.join("\n")) }
    }
}

impl Tally {
    const NOTHING: Tally = Tally {
        inputs: [0; 2],
        records: [0; 2],
        numbers: [[0; 55]; 2],
        places: [[[0; NUMBERS]; 55]; 2],
        rooms: [[0; 4]; 2],
        lengths: [[0; MOST_PLACES + 1]; MOST_DIGITS + 1],
        kinds: [0; KINDS.len()],
        searched: [0; 2],
        back: 0,
    };

    fn count(&mut self, way: Way, input: &[u8], room: usize, outcome: &Outcome) {
        let Outcome { done, written, number } = *outcome;
        let (index, number) = (way as usize, usize::from(number));
        self.inputs[index] += 1;
        self.records[index] += done as u64;
        self.numbers[index][number] += 1;
        if let Some(place) = place(way, input, outcome) {
            self.places[index][number][place] += 1;
        }
        let fits = if room == 0 { 0 } else { usize::from(number != 54) + usize::from(room > written && number != 54) + 1 };
        self.rooms[index][fits] += 1;
    }

    fn report(&self, way: Way, missing: &mut Vec<String>) {
        let index = way as usize;
        for (number, places) in if way == Way::ToTrace { ENDS_TO_TRACE } else { ENDS_TO_TEXT } {
            let (count, at) = (self.numbers[index][usize::from(number)], &self.places[index][usize::from(number)]);
            let counts: Vec<String> = places.iter().map(|&place| at[place].to_string()).collect();
            println!("{way:?}, number {number}: {count}{}{}", if counts.is_empty() { "" } else { "; by its place: " }, counts.join(" "));
            if count == 0 {
                missing.push(format!("{way:?}, number {number}"));
            }
            missing.extend(places.iter().filter(|&&place| at[place] == 0).map(|place| format!("{way:?}, number {number} at place {place}")));
        }
        let [none, few, enough, more] = self.rooms[index];
        println!("{way:?}, buffers of no byte: {none}; of too few: {few}; of just enough: {enough}; of more: {more}");
        if self.rooms[index].contains(&0) {
            missing.push(format!("{way:?}, a kind of buffer"));
        }
    }
}

/// The place of the number that an input was refused for, if it was for one.
fn place(way: Way, input: &[u8], outcome: &Outcome) -> Option<usize> {
    let right = Converter(None);
    let limits = |is_over: &dyn Fn(usize, u64) -> bool| {
        let refused = LIMITS.iter().find(|&&(place, most, number)| number == outcome.number && is_over(place, most));
        refused.map(|limit| limit.0)
    };
    match way {
        Way::ToTrace => {
            let line = input.split(|&byte| byte == b'\n').nth(outcome.done)?;
            let fields: Vec<&str> = str::from_utf8(line).ok()?.split(',').collect();
            let is = |question: &dyn Fn(&str) -> bool| (ZONE..NUMBERS).find(|&place| question(fields[place]));
            match outcome.number {
                _ if fields.len() != NUMBERS => None,
                50 => (0..NUMBERS).find(|&place| !right.well_formed(place, fields[place])),
                51 => is(&|field| right.has_too_many_digits(field)),
                52 => is(&|field| right.is_minus_zero(field)),
                _ => limits(&|place, most| right.is_over(fields[place], most)),
            }
        }
        Way::ToText => {
            let (mut bytes, reader) = (input, Reader(None));
            let mut next = || reader.record(&mut bytes);
            if ![20, 21].contains(&outcome.number) {
                let record: Record = (0..=outcome.done).map(|_| next().ok().flatten()).last()??;
                let no_decimal = || (ZONE..NUMBERS).find(|&place| right.decimal(record[place]).is_none());
                return if outcome.number == 53 { no_decimal() } else { limits(&|place, most| record[place] > most) };
            }
            (0..outcome.done).for_each(|_| assert!(next().is_ok()));
            (0..NUMBERS).find(|_| reader.number(&mut bytes).is_err())
        }
    }
}

/// The start of some bytes, a text as it is.
fn shown(bytes: &[u8]) -> String {
    let start = bytes[..bytes.len().min(400)].escape_ascii();
    format!("\"{start}\", {} bytes", bytes.len())
}

fn difference(way: Way, port: &(Outcome, Vec<u8>), right: &(Outcome, Vec<u8>), input: &[u8], room: usize) -> String {
    let kept = env::current_exe().map(|path| path.with_file_name("differing_log")).ok();
    let kept = kept.filter(|path| fs::write(path, input).is_ok()).map_or("nowhere".into(), |path| path.display().to_string());
    let at = port.1.iter().zip(&right.1).position(|(a, b)| a != b);
    let byte = at.map_or("none".into(), |at| format!("{} of the output: {:02x}, {:02x}", at as i64 - AROUND as i64, port.1[at], right.1[at]));
    let sides = [port, right].map(|(outcome, buffer)| format!("{outcome:?} {}", shown(&buffer[AROUND..AROUND + outcome.written.min(room)])));
    let [port, right] = sides;
    format!("the two differ, {way:?}, room {room}\n  port      {port}\n  reference {right}\n  byte      {byte}\n  input     {}, kept in {kept}", shown(input))
}

fn run(seed: u64, readings: u64, inputs: u64) -> Result<String, String> {
    let lives = trace_nights::lives().map_err(|error| error.to_string())?;
    let mut comparison = Comparison { tally: Tally::NOTHING, left: Vec::new(), told: Vec::new() };
    let cases = text_log_cases::cases();
    cases.iter().try_for_each(|case| comparison.case(case))?;
    println!("{} texts and traces known by hand", cases.len());
    // What comes up is counted, and wrong references are told, of generated ones.
    comparison = Comparison { tally: Tally::NOTHING, left: text_log::wrongs(), told: Vec::new() };
    let mut dice = Dice::new(seed);
    while comparison.tally.inputs.iter().sum::<u64>() < inputs {
        comparison.some(&mut dice, &lives)?;
    }
    while comparison.tally.kinds.iter().sum::<u64>() < readings {
        comparison.readings(&mut dice)?;
    }
    comparison.report()?;
    let Comparison { tally, told, .. } = comparison;
    let [texts, traces] = tally.inputs;
    let [lines, records] = tally.records;
    Ok(format!("{texts} texts, {lines} lines, and {traces} traces, {records} records: the three numbers and every byte equal; {} wrong references told", told.len()))
}

fn main() -> ExitCode {
    let numbers: Result<Vec<u64>, _> = env::args().skip(1).map(|word| word.parse()).collect();
    let Ok([seed, readings, inputs]) = numbers.as_deref() else {
        eprintln!("usage: text_logs SEED READINGS INPUTS");
        return ExitCode::from(2);
    };
    match run(*seed, *readings, *inputs) {
        Ok(text) => println!("{text}"),
        Err(text) => {
            println!("{text}");
            return ExitCode::FAILURE;
        }
    }
    ExitCode::SUCCESS
}
