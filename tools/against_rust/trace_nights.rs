//! Traces of generated nights: the ticks of several boxes by their times, whole and damaged.
#![allow(dead_code)]

use std::io;
use std::ops::Range;

use crate::dice::Dice;
use crate::tick::{self, LAST_SECOND, Line, Tick};
use crate::trace::{BOX, FLAGS, LAST_BOX, MODE, MOST_STEP, NUMBERS, Record, SECONDS, ZONE, with};
use crate::trace_bytes::{self as bytes, Spelled};

/// The accepted ticks of a box from its start to its end. Mode and overrides are brought into the range of a trace.
type Life = Vec<Tick>;

/// The boxes of the lines on standard input. Of what size and start they are is left out, and of several ticks in one second all but the first: in a
/// trace a box stands at most once in a second.
pub fn lives() -> io::Result<Vec<Life>> {
    let mut lives: Vec<Life> = vec![Vec::new()];
    let mut last = None;
    tick::each_line(|line| {
        let (begins, tick) = match Line::read(line) {
            None => return Ok(()),
            Some(Line::Building(building)) => (building.refusal() == 0, None),
            Some(Line::Tick(tick)) => (tick.start != 0, Some(tick)),
        };
        if begins {
            last = None;
            lives.push(Vec::new());
        }
        if let Some(tick) = tick.filter(|tick| tick.refusal(last) == 0 && last != Some(tick.t)) {
            last = Some(tick.t);
            lives.last_mut().expect("a life").push(tick);
        }
        Ok(())
    })?;
    lives.retain(|life| !life.is_empty());
    Ok(lives)
}

/// A trace that nothing refuses, and where its records begin, its end among them.
pub struct Whole {
    pub records: Vec<Record>,
    pub bytes: Vec<u8>,
    pub starts: Vec<usize>,
}

/// A tick of a box at its time in the trace.
struct Placed {
    time: u64,
    number: u64,
    tick: Tick,
}

fn record(air_box: u64, seconds: u64, tick: &Tick) -> Record {
    let [mode, airflow, damper] = [tick.mode, tick.airflow, tick.damper].map(|setting| setting as u64 & 0xff);
    let readings = [tick.zone, tick.cooling, tick.heating, tick.co2_setpoint, tick.co2, tick.discharge, tick.supply, tick.flow];
    let mut record = [0; NUMBERS];
    record[BOX] = air_box;
    record[SECONDS] = seconds;
    record[FLAGS] = tick.status;
    record[MODE..ZONE].copy_from_slice(&[mode, airflow, damper]);
    record[ZONE..].copy_from_slice(&readings.map(f64::to_bits));
    record
}

impl Whole {
    pub fn new(records: Vec<Record>) -> Whole {
        let (mut bytes, mut starts) = (Vec::new(), vec![0]);
        for record in &records {
            bytes.extend(bytes::record(record).concat());
            starts.push(bytes.len());
        }
        Whole { records, bytes, starts }
    }

    /// Some boxes, each with one life of at most so many ticks, by their times, and in the same second by their numbers. A box keeps the place of
    /// its ticks on the grid of 120 s, as its samplers see it; but some traces end with the last second that is taken.
    pub fn of(dice: &mut Dice, lives: &[Life], most: usize) -> Whole {
        let count = dice.pick(&[1, 2, 3, 5, 16, 16]);
        let mut numbers: Vec<u64> = (0..=LAST_BOX).collect();
        for place in 0..count {
            let other = place + dice.below((numbers.len() - place) as u64) as usize;
            numbers.swap(place, other);
        }
        let base = 120 * dice.pick(&[0, 0, 1, 1000, 1 << 20]);
        let mut ticks: Vec<Placed> = numbers[..count].iter().flat_map(|&number| placed(dice, lives, most, number, base)).collect();
        if dice.one_in(8) {
            let later = LAST_SECOND as u64 - ticks.iter().map(|placed| placed.time).max().unwrap_or(0);
            ticks.iter_mut().for_each(|placed| placed.time += later);
        }
        Whole::new(merged(ticks))
    }
}

/// The first ticks of a life, as those of a box of this number.
fn placed(dice: &mut Dice, lives: &[Life], most: usize, number: u64, base: u64) -> Vec<Placed> {
    let life = &lives[dice.below(lives.len() as u64) as usize];
    let first = life[0].t;
    let base = base + (first % 120.0) as u64 + 120 * dice.pick(&[0, 0, 0, 1, 10]);
    life.iter().take(most).map(|tick| Placed { time: base + (tick.t - first) as u64, number, tick: *tick }).collect()
}

fn merged(mut ticks: Vec<Placed>) -> Vec<Record> {
    ticks.sort_by_key(|placed| (placed.time, placed.number));
    let mut now = 0;
    let record_of = |placed: &Placed| {
        let seconds = placed.time - now;
        now = placed.time;
        record(placed.number, seconds, &placed.tick)
    };
    ticks.iter().map(record_of).collect()
}

/// A number beyond a limit, just beyond or far.
fn beyond(dice: &mut Dice, most: u64) -> u64 {
    let far = dice.word() >> dice.below(30);
    dice.pick(&[most + 1, most + 1, most + 2, most << 1 | 1, 1 << 32 | 1, 1 << 63 | 1, u64::MAX, far.max(most + 1)])
}

/// The bits of a reading that its question refuses, with few exceptions among the tiny ones.
fn odd_bits(dice: &mut Dice) -> u64 {
    let sign = dice.below(2) << 63;
    let any = dice.word() >> 13;
    sign | match dice.below(8) {
        0..3 => 0x7ff8 << 48 | any,
        3..5 => 0x7ff0 << 48 | any.max(1),
        5 => 0x7ff0 << 48,
        6 => dice.pick(&[f64::MAX, 450f64.next_up(), 10000f64.next_up(), 10f64.next_up(), 149.9]).to_bits(),
        _ => dice.pick(&[1, any, 1 << 52]),
    }
}

/// Puts a fault into a record, or what may be one.
fn spoil(dice: &mut Dice, record: &Record, numbers: &mut Spelled) {
    let any = dice.below(NUMBERS as u64) as usize;
    let (place, number) = match dice.below(16) {
        0..3 => {
            numbers[any] = bytes::bad_number(dice, record[any]);
            return;
        }
        3 | 4 => (BOX, beyond(dice, 15)),
        5 => (FLAGS, beyond(dice, 7)),
        6 => (MODE + dice.below(3) as usize, beyond(dice, 255)),
        7 => (SECONDS, beyond(dice, MOST_STEP)),
        8 | 9 => (SECONDS, record[SECONDS] + dice.pick(&[1, 60, 180, 240, 241, MOST_STEP / 2])),
        10 => (SECONDS, dice.pick(&[MOST_STEP, MOST_STEP - 1])),
        11 => (FLAGS, dice.below(8)),
        _ => (ZONE + dice.below(8) as usize, odd_bits(dice)),
    };
    numbers[place] = bytes::number(number);
}

impl Whole {
    /// The trace with one record spoilt, for one reason or for several, and some of the records after it.
    pub fn spoilt(&self, dice: &mut Dice) -> Vec<u8> {
        let at = dice.below(self.records.len() as u64) as usize;
        let record = &self.records[at];
        let mut numbers = bytes::record(record);
        spoil(dice, record, &mut numbers);
        while dice.one_in(3) {
            spoil(dice, record, &mut numbers);
        }
        self.replaced(dice, at..at + 1, &numbers.concat())
    }

    /// The trace with these bytes in place of some records, and some of the records after them.
    fn replaced(&self, dice: &mut Dice, places: Range<usize>, bytes: &[u8]) -> Vec<u8> {
        let after = &self.bytes[self.starts[places.end]..];
        let kept = if dice.one_in(3) { 0 } else { after.len().min(400) };
        [&self.bytes[..self.starts[places.start]], bytes, &after[..kept]].concat()
    }

    /// The trace with a record out of the order in its second, or what may be one, and the count of records before it. In half of them it has other
    /// faults as well.
    pub fn disordered(&self, dice: &mut Dice) -> (Vec<u8>, usize) {
        let (at, end) = self.neighbours(dice);
        let (earlier, later) = (self.records[at], self.records[end - 1]);
        let at_once = [(SECONDS, 0)];
        let (first, second, end) = match dice.below(5) {
            // the two change places, each at the time of the other
            0..2 => (with(later, [(SECONDS, earlier[SECONDS])]), with(earlier, [(SECONDS, later[SECONDS])]), end),
            // the later one in the second of the earlier, whichever box is the greater
            2 => (earlier, with(later, at_once), end),
            // a box twice in a second
            3 => (earlier, with(earlier, at_once), at + 1),
            // any box
            _ => (earlier, with(with(later, at_once), [(BOX, dice.below(1 + LAST_BOX))]), end),
        };
        let mut numbers = bytes::record(&second);
        while dice.one_in(2) {
            spoil(dice, &second, &mut numbers);
        }
        let both = [bytes::record(&first), numbers].concat().concat();
        (self.replaced(dice, at..end, &both), at + 1)
    }

    /// The place of a record and that past the one after it, mostly two of the same second; of the last record alone its own.
    fn neighbours(&self, dice: &mut Dice) -> (usize, usize) {
        let count = self.records.len();
        let together: Vec<usize> = (1..count).filter(|&place| self.records[place][SECONDS] == 0).collect();
        let at = if together.is_empty() || dice.one_in(3) { dice.below(count as u64) as usize } else { dice.pick(&together) - 1 };
        (at, count.min(at + 2))
    }

    /// The trace with a byte changed, left out or put in, or a number with needless groups.
    pub fn scratched(&self, dice: &mut Dice) -> Vec<u8> {
        let mut bytes = self.bytes.clone();
        let at = dice.below(bytes.len() as u64) as usize;
        match dice.below(4) {
            0 => bytes[at] ^= 1 << dice.below(8),
            1 => drop(bytes.remove(at)),
            2 => bytes.insert(at, dice.word() as u8),
            _ => bytes[at] = dice.pick(&[0, 0x7f, 0x80, 0xff]),
        }
        bytes
    }

    /// The trace without its end.
    pub fn cut(&self, dice: &mut Dice) -> &[u8] {
        &self.bytes[..dice.below(self.bytes.len() as u64 + 1) as usize]
    }
}

/// Bytes of chance, among them many that say that another group follows.
pub fn random(dice: &mut Dice) -> Vec<u8> {
    let length = dice.pick(&[1, 5, 20, 40, 200]);
    let high = dice.pick(&[0, 2, 10]);
    let byte = |dice: &mut Dice| {
        let byte = dice.word() as u8;
        let small = if dice.one_in(2) { byte & 7 } else { byte };
        if high > 0 && dice.one_in(high) { small | 0x80 } else { small & 0x7f }
    };
    (0..1 + dice.below(length)).map(|_| byte(dice)).collect()
}
