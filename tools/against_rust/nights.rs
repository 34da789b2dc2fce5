//! `nights [--usual-size] SEED LINES`: prints that many lines of ticks and of buildings, the same ones for the same seed. With the option no
//! box is built with design flows or a reading of its own. `nights --ends` prints the lines of `ends.rs`.

use std::io::{self, BufWriter, StdoutLock, Write};

mod dice;
mod ends;
mod scenes;
mod sizes;
mod tick;

use dice::Dice;
use tick::{Building, Flows, LAST_SECOND, Line, Tick, USUAL};

/// How the seconds between two ticks are chosen.
#[derive(Clone, Copy)]
enum Pace {
    /// Always the same step.
    Fixed(f64),
    /// Any of the telling steps.
    Mixed,
    /// On, just before and just after the sampling grid of 120 s.
    Grid,
    /// Long steps up to two seconds before this span is over, then single seconds.
    Edge(f64),
}

/// The night being written: the box that takes it and the readings of the next tick.
struct Night {
    dice: Dice,
    out: BufWriter<StdoutLock<'static>>,
    left: u64,
    now: Tick,
    /// Start word of the next line.
    start: u64,
    /// Time of the box's first tick.
    first: f64,
    last: Option<f64>,
    /// Scenes that the box still has before it.
    life: u64,
    /// The design flows of the box.
    size: Flows,
    /// Whether the box has the second reading.
    second: bool,
    /// Whether boxes are built, of other sizes and with either reading.
    builds: bool,
}

impl Night {
    fn new(seed: u64, lines: u64, builds: bool) -> Night {
        let mut night = Night {
            dice: Dice::new(seed),
            out: BufWriter::with_capacity(1 << 20, io::stdout().lock()),
            left: lines,
            now: scenes::CALM,
            start: 0,
            first: 0.0,
            last: None,
            life: 0,
            size: USUAL,
            second: false,
            builds: false,
        };
        night.restart();
        // Before any start word the box is a fresh plain one; some seeds begin so.
        night.start = night.dice.below(3);
        night.builds = builds;
        night
    }

    /// Let the next line begin a fresh box, or build one here.
    fn restart(&mut self) {
        self.start = 1 + self.dice.below(2);
        self.last = None;
        self.life = self.dice.pick(&[1, 1, 2, 3, 5, 25]);
        self.first = match self.dice.below(6) {
            0 => 0.0,
            1 => self
                .dice
                .pick(&[1.0, 60.0, 119.0, 120.0, 121.0, 130.0, 239.0]),
            2 => LAST_SECOND - self.dice.below(4000) as f64,
            3 => self.dice.below(1 << 31) as f64,
            4 => 120.0 * self.dice.below(17_000_000) as f64,
            _ => self.dice.below(100_000) as f64,
        };
        self.size = USUAL;
        self.second = false;
        if self.builds && self.dice.one_in(2) {
            let building = self.building(self.start);
            self.build(&building.line());
        }
    }

    /// A box that can be built. A third have the second reading, and of these a third the usual size; of the others some name the first.
    fn building(&mut self, start: u64) -> Building {
        let reading = self.dice.pick(&[None, None, None, Some(1), Some(2), Some(2)]);
        let usual = reading == Some(2) && self.dice.one_in(3);
        let flows = if usual { USUAL } else { sizes::good(&mut self.dice) };
        Building { start, flows, reading }
    }

    /// Write a line that may build a box, and follow what it does.
    fn build(&mut self, line: &[u8]) {
        self.write(line);
        match Line::read(line) {
            Some(Line::Building(building)) if building.refusal() == 0 => {
                self.size = building.flows;
                self.second = building.second();
                self.begin();
            }
            _ => {}
        }
    }

    /// The box is a fresh one, and time goes on from the last tick of the box before it.
    fn begin(&mut self) {
        self.first = self.last.unwrap_or(self.first);
        self.last = None;
        self.start = 0;
    }

    /// A building line between two ticks: most are refused, some malformed, and some build another box.
    fn build_between(&mut self) {
        let start = 1 + self.dice.below(2);
        let good = self.building(start);
        let line = match self.dice.below(8) {
            0 => good.line(),
            1 => self.damaged_building(good),
            _ => Building { flows: sizes::bad(&mut self.dice), ..good }.line(),
        };
        self.build(&line);
    }

    fn write(&mut self, line: &[u8]) {
        if self.left > 0 {
            self.left -= 1;
            let written = self
                .out
                .write_all(line)
                .and_then(|()| self.out.write_all(b"\n"));
            if let Err(error) = written {
                // A reader that has seen enough closes its end.
                if error.kind() != io::ErrorKind::BrokenPipe {
                    eprintln!("nights: {error}");
                }
                std::process::exit(1);
            }
        }
    }

    /// Write a tick and follow what it does to the box.
    fn emit(&mut self, tick: Tick) {
        self.write(&tick.line());
        if tick.start > 0 {
            self.size = USUAL;
            self.second = false;
            self.begin();
        }
        self.start = 0;
        if tick.refusal(self.last) == 0 {
            self.last = Some(tick.t);
        }
    }

    /// The next tick: the readings of now, so many seconds after the last.
    fn step(&mut self, seconds: f64) {
        let mut tick = self.now;
        tick.start = self.start;
        tick.t = self.last.map_or(self.first, |last| last + seconds);
        if tick.t == 0.0 && self.dice.one_in(2) {
            tick.t = -0.0;
        }
        if self.dice.one_in(30) {
            self.refused(tick);
        }
        if self.dice.one_in(400) {
            let line = self.damaged(tick);
            self.write(&line);
        }
        if self.builds && self.dice.one_in(100) {
            self.build_between();
        }
        tick.start = self.start;
        self.emit(tick);
        if tick.t > LAST_SECOND && self.dice.one_in(3) {
            self.restart();
        }
    }

    /// A tick spoilt for one question or for several, in place of the one to come.
    fn refused(&mut self, mut tick: Tick) {
        self.spoil(&mut tick);
        while self.dice.one_in(3) {
            self.spoil(&mut tick);
        }
        // A refused tick may come with a start word too; the fresh box then has had no tick.
        if self.dice.one_in(20) {
            tick.start = 1 + self.dice.below(2);
        }
        self.emit(tick);
    }

    fn spoil(&mut self, tick: &mut Tick) {
        let dice = &mut self.dice;
        let last = self.last.unwrap_or(self.first);
        let odd = dice.odd();
        match 1 + dice.below(7) {
            1 => tick.t = dice.pick(&[last + 0.5, 0.5, -0.5, 5e-324, -1e-300, f64::NAN, odd]),
            2 => tick.t = dice.pick(&[-1.0, LAST_SECOND + 1.0, 1e300, f64::MIN, -LAST_SECOND]),
            3 => tick.t = dice.pick(&[last - 1.0, last - 120.0, last - 240.0, 0.0, -0.0]),
            4 => tick.t = dice.pick(&[last + 241.0, last + 242.0, last + 480.0, LAST_SECOND]),
            5 => {
                let bad = dice.pick(&[150f64.next_down(), 450f64.next_up(), 0.0, -0.0, 149.9, odd]);
                *temperature(tick, dice.below(5)) = bad;
            }
            6 => {
                let bad = dice.pick(&[10000f64.next_up(), -5e-324, 10000.5, -1.0, odd]);
                match dice.below(2) {
                    0 => tick.co2 = bad,
                    _ => tick.co2_setpoint = bad,
                }
            }
            _ => tick.flow = dice.pick(&[10f64.next_up(), (-10f64).next_down(), -10.5, odd]),
        }
    }

    /// A line that is no tick, made from one.
    fn damaged(&mut self, mut tick: Tick) -> Vec<u8> {
        tick.start = self.dice.below(3);
        let place = self.dice.below(13) as usize * 17 + 16;
        let kind = self.dice.below(12);
        match kind {
            0 => tick.start = 3 + (self.dice.word() >> (1 + self.dice.below(63))),
            1 => tick.status = 8 + (self.dice.word() >> (1 + self.dice.below(63))),
            _ => {}
        }
        let mut line = tick.line();
        self.damage(&mut line, kind, place);
        line
    }

    /// A line that is no building, made from one; but with one of four fields left out it is a building line of three.
    fn damaged_building(&mut self, mut building: Building) -> Vec<u8> {
        let large = 3 + (self.dice.word() >> (1 + self.dice.below(63)));
        let kind = self.dice.below(12);
        match kind {
            0 => building.start = self.dice.pick(&[0, large]),
            1 => building.reading = Some(self.dice.pick(&[0, large])),
            _ => {}
        }
        let blanks = if building.reading.is_some() { 3 } else { 2 };
        let place = self.dice.below(blanks) as usize * 17 + 16;
        let mut line = building.line();
        self.damage(&mut line, kind, place);
        line
    }

    /// The blank after a field damaged, or the digit before it, or the end of the line; kinds 0 and 1 are left as they are.
    fn damage(&mut self, line: &mut Vec<u8>, kind: u64, place: usize) {
        match kind {
            0 | 1 => {}
            2 => line[place] = b'\t',
            3 => line.insert(place, b' '),
            4 => line.insert(place, b'0'),
            5 => drop(line.remove(place - 1)),
            6 => drop(line.drain(place..place + 17)),
            7 => line.extend_from_slice(b" 0000000000000000"),
            8 => line[place - 1] = self.dice.pick(b"ABCDEFg/:`x+-_"),
            9 => line.push(b' '),
            10 => line.clear(),
            _ => line.extend(vec![b'0'; 1 + self.dice.below(400) as usize]),
        }
    }

    fn pace(&mut self) -> Pace {
        match self.dice.below(100) {
            0 => Pace::Fixed(1.0),
            1..8 => Pace::Fixed(0.0),
            8..40 => Pace::Fixed(60.0),
            40..52 => Pace::Fixed(240.0),
            52..72 => Pace::Mixed,
            72..80 => Pace::Grid,
            _ => Pace::Edge(
                self.dice
                    .pick(&[30.0, 60.0, 120.0, 300.0, 600.0, 1800.0, 2100.0]),
            ),
        }
    }

    /// The next step of a run that began `gone` seconds ago.
    fn seconds(&mut self, pace: Pace, gone: f64) -> f64 {
        const STEPS: [f64; 14] = [
            0.0, 0.0, 1.0, 1.0, 2.0, 29.0, 30.0, 59.0, 60.0, 61.0, 119.0, 120.0, 239.0, 240.0,
        ];
        match pace {
            Pace::Fixed(step) => step,
            Pace::Mixed => self.dice.pick(&STEPS),
            Pace::Grid => {
                let next = 120.0 - self.last.unwrap_or(self.first) % 120.0;
                (next + self.dice.pick(&[-1.0, 0.0, 0.0, 1.0])).max(0.0)
            }
            Pace::Edge(span) if gone < span - 2.0 => (span - 2.0 - gone).min(240.0),
            Pace::Edge(_) => 1.0,
        }
    }

    /// Ticks for so many seconds, the readings touched by `change` before each one.
    fn run(&mut self, seconds: f64, mut change: impl FnMut(&mut Tick, &mut Dice)) {
        let pace = self.pace();
        let most = match pace {
            // Enough single seconds for a delay of 600, not so many that they fill the night.
            Pace::Fixed(1.0) => 640,
            Pace::Fixed(0.0) => 12,
            Pace::Edge(_) => 16,
            _ => 60,
        };
        // The first tick carries the change; the seconds count from it.
        let mut gone = 0.0;
        let mut step = self.dice.pick(&[0.0, 1.0, 60.0, 60.0, 120.0, 240.0]);
        for _ in 0..most {
            change(&mut self.now, &mut self.dice);
            self.step(step);
            if gone >= seconds {
                break;
            }
            step = self.seconds(pace, gone);
            gone += step;
        }
    }
}

fn temperature(tick: &mut Tick, which: u64) -> &mut f64 {
    match which {
        0 => &mut tick.zone,
        1 => &mut tick.cooling,
        2 => &mut tick.heating,
        3 => &mut tick.discharge,
        _ => &mut tick.supply,
    }
}

fn print_all(lines: Vec<Vec<u8>>) -> io::Result<()> {
    let mut text = lines.join(&b'\n');
    text.push(b'\n');
    io::stdout().write_all(&text)
}

fn main() -> io::Result<()> {
    let mut words: Vec<String> = std::env::args().skip(1).collect();
    if words == ["--ends"] {
        return print_all(ends::lines());
    }
    let usual_size = words.first().is_some_and(|word| word == "--usual-size");
    if usual_size {
        words.remove(0);
    }
    let numbers: Result<Vec<u64>, _> = words.iter().map(|word| word.parse()).collect();
    let Ok([seed, lines]) = numbers.as_deref() else {
        eprintln!("usage: nights [--usual-size] SEED LINES, or nights --ends");
        std::process::exit(2);
    };
    let mut night = Night::new(*seed, *lines, !usual_size);
    while night.left > 0 {
        scenes::play(&mut night);
    }
    night.out.flush()
}
