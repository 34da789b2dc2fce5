//! `tally [--whole] LINES ANSWERS [PORT]`: counts what the answers visit, for plain and for quiet
//! boxes, what boxes of other sizes than the usual one visit, and the sensor alarm of boxes with the
//! second reading. With a third file it also says where that one first differs from the answers. With
//! `--whole` it fails where something of the table was never visited.

use std::fs::File;
use std::io::{self, BufRead, BufReader};
use std::process::ExitCode;

mod reckoning;
mod tick;

use reckoning::Reckoning;
use tick::{Building, Flows, Line, Tick, USUAL};

/// A row group of the table; `open` groups have a last row for all other numbers.
struct Group {
    name: &'static str,
    values: &'static [i64],
    open: bool,
}

const fn group(name: &'static str, values: &'static [i64], open: bool) -> Group {
    Group { name, values, open }
}

const REFUSED: usize = 8;
/// The first of the groups for boxes of other sizes, which are counted in the groups above as well.
const SIZED: usize = 13;
/// The first of the two groups for boxes with the second reading: their sensor alarm; and, where it
/// shows, what a box with the first reading would show.
const SECOND: usize = 18;
const GROUPS: [Group; 20] = [
    group("temperature request", &[0, 1, 2, 3], false),
    group("pressure request", &[0, 1, 2, 3], false),
    group("low airflow", &[0, 2, 3], false),
    group("airflow sensor", &[0, 3], false),
    group("leaking damper", &[0, 4], false),
    group("mode", &[1, 2, 3, 4], true),
    group("airflow override", &[1, 2, 3], true),
    group("damper override", &[1, 2], true),
    group("refused", &[1, 2, 3, 4, 5, 6, 7, 8], false),
    group("first tick at", &[0, 120], true),
    group("seconds since the last", &[0, 1, 60, 120, 240], true),
    group("leak 4 beside low", &[2, 3], false),
    group("status", &[0, 1, 2, 3, 4, 5, 6, 7], false),
    group("other size: pressure", &[0, 1, 2, 3], false),
    group("other size: low airflow", &[0, 2, 3], false),
    group("other size: sensor", &[0, 3], false),
    group("other size: leak", &[0, 4], false),
    group("other size: override", &[1, 2, 3], true),
    group("second reading: sensor", &[0, 3], false),
    group("second 3 where the first is", &[0, 3], false),
];

/// Counts of each row, the last one of a group for other numbers; column 0 plain, 1 quiet.
struct Table {
    rows: Vec<Vec<[u64; 2]>>,
    accepted: [u64; 2],
    built: [u64; 2],
    /// Accepted ticks of boxes of other sizes.
    sized: [u64; 2],
    malformed: u64,
    /// Of the box: its column, its design flows, its last accepted time and, where it has the second
    /// reading, what it would show with the first.
    quiet: usize,
    flows: Flows,
    last: Option<f64>,
    first: Option<Reckoning>,
}

impl Table {
    fn new() -> Table {
        Table {
            rows: GROUPS
                .iter()
                .map(|g| vec![[0; 2]; g.values.len() + 1])
                .collect(),
            accepted: [0; 2],
            built: [0; 2],
            sized: [0; 2],
            malformed: 0,
            quiet: 0,
            flows: USUAL,
            last: None,
            first: None,
        }
    }

    fn count(&mut self, group: usize, number: i64) {
        self.count_in(self.quiet, group, number);
    }

    fn count_in(&mut self, column: usize, group: usize, number: i64) {
        let values = GROUPS[group].values;
        let row = values
            .iter()
            .position(|&v| v == number)
            .unwrap_or(values.len());
        self.rows[group][row][column] += 1;
    }

    /// Count a fresh box from here on.
    fn begin(&mut self, start: u64, flows: Flows) {
        self.quiet = start as usize - 1;
        self.flows = flows;
        self.last = None;
        self.first = None;
    }

    fn take(&mut self, line: &[u8], answer: &[u8]) {
        let words: Vec<&str> = str::from_utf8(answer).unwrap_or("").split(' ').collect();
        match Line::read(line) {
            None => self.malformed += 1,
            Some(Line::Building(building)) => self.take_building(&building, &words),
            Some(Line::Tick(tick)) => self.take_tick(&tick, &words),
        }
    }

    /// A refused building is counted in the column of the box that it asked for.
    fn take_building(&mut self, building: &Building, words: &[&str]) {
        if words[0] == "built" {
            self.begin(building.start, building.flows);
            let first = || Reckoning::new(false, self.quiet == 1, building.flows.maximum);
            self.first = building.second().then(first);
            self.built[self.quiet] += 1;
        } else {
            self.count_in(building.start as usize - 1, REFUSED, number(words, 1));
        }
    }

    fn take_tick(&mut self, tick: &Tick, words: &[&str]) {
        if tick.start > 0 {
            self.begin(tick.start, USUAL);
        }
        let number = |index: usize| number(words, index);
        if words[0] == "refused" {
            self.count(REFUSED, number(1));
            return;
        }
        self.accepted[self.quiet] += 1;
        for output in 0..5 {
            self.count(output, number(5 + output));
        }
        self.count(5, tick.mode);
        self.count(6, tick.airflow);
        self.count(7, tick.damper);
        match self.last {
            None => self.count(9, tick.t as i64),
            Some(last) => self.count(10, (tick.t - last) as i64),
        }
        if number(9) == 4 && number(7) != 0 {
            self.count(11, number(7));
        }
        self.count(12, tick.status as i64);
        self.last = Some(tick.t);
        if self.flows != USUAL {
            self.sized[self.quiet] += 1;
            for output in 0..4 {
                self.count(SIZED + output, number(6 + output));
            }
            self.count(SIZED + 4, tick.airflow);
        }
        self.take_reading(tick, number(8));
    }

    /// Count the sensor alarm of a box with the second reading.
    fn take_reading(&mut self, tick: &Tick, second: i64) {
        let Some(first) = self.first.as_mut().map(|first| first.alarm(tick)) else { return };
        self.count(SECOND, second);
        if second == 3 {
            self.count(SECOND + 1, first);
        }
    }

    /// Print the table; true if every row that can be visited was, from both starts.
    fn print(&self) -> bool {
        let line = |name: &str, n: [u64; 2]| println!("{name:<30} {:>10} {:>10}", n[0], n[1]);
        println!("{:<30} {:>10} {:>10}", "", "plain", "quiet");
        let singles = [("accepted", self.accepted), ("accepted of other sizes", self.sized), ("built", self.built)];
        singles.iter().for_each(|(name, row)| line(name, *row));
        let mut whole = self.malformed > 0 && singles.iter().all(|(_, row)| !row.contains(&0));
        for (group, rows) in GROUPS.iter().zip(&self.rows) {
            for (index, &row) in rows.iter().enumerate() {
                let other = index == group.values.len();
                if other && !group.open && row == [0, 0] {
                    continue;
                }
                let value = group
                    .values
                    .get(index)
                    .map_or("other".into(), i64::to_string);
                line(&format!("{} {value}", group.name), row);
                // A number that a closed group does not know means that no level list is whole.
                whole &= row[0] > 0 && row[1] > 0 && (!other || group.open);
            }
        }
        println!("{:<30} {:>10}", "malformed", self.malformed);
        whole
    }
}

/// A number of an answer; -1 where none stands.
fn number(words: &[&str], index: usize) -> i64 {
    words.get(index).and_then(|word| word.parse().ok()).unwrap_or(-1)
}

/// The lines of a file, one after another, without their newlines.
struct Lines(BufReader<File>);

impl Lines {
    fn open(path: &str) -> Lines {
        let file = File::open(path).unwrap_or_else(|e| panic!("{path}: {e}"));
        Lines(BufReader::with_capacity(1 << 20, file))
    }

    /// The next line with its newline; empty at the end of the file.
    fn next<'a>(&mut self, line: &'a mut Vec<u8>) -> io::Result<&'a [u8]> {
        line.clear();
        self.0.read_until(b'\n', line)?;
        Ok(line)
    }
}

fn show(line: &[u8]) -> String {
    if line.is_empty() {
        return "(nothing)".into();
    }
    String::from_utf8_lossy(line.strip_suffix(b"\n").unwrap_or(line)).into_owned()
}

/// Read the files side by side; the difference, if there is one, as a text.
fn walk(paths: &[String], table: &mut Table) -> io::Result<(u64, Option<String>)> {
    let mut files: Vec<Lines> = paths.iter().map(|path| Lines::open(path)).collect();
    let (mut a, mut b, mut c) = (Vec::new(), Vec::new(), Vec::new());
    let mut lines = 0;
    loop {
        let line = files[0].next(&mut a)?;
        let answer = files[1].next(&mut b)?;
        let other = files.get_mut(2).map(|file| file.next(&mut c)).transpose()?;
        if line.is_empty() && answer.is_empty() && other.unwrap_or(&[]).is_empty() {
            return Ok((lines, None));
        }
        lines += 1;
        if other.is_some_and(|other| other != answer) || line.is_empty() || answer.is_empty() {
            let port = other.map_or(String::new(), |other| {
                format!("\n  port      {}", show(other))
            });
            let text = format!(
                "  input     {}\n  reference {}{port}",
                show(line),
                show(answer)
            );
            return Ok((lines, Some(text)));
        }
        table.take(
            line.strip_suffix(b"\n").unwrap_or(line),
            answer.strip_suffix(b"\n").unwrap_or(answer),
        );
    }
}

fn main() -> io::Result<ExitCode> {
    let mut paths: Vec<String> = std::env::args().skip(1).collect();
    let ask_whole = paths.first().is_some_and(|word| word == "--whole");
    if ask_whole {
        paths.remove(0);
    }
    if !(2..=3).contains(&paths.len()) {
        eprintln!("usage: tally [--whole] LINES ANSWERS [PORT]");
        return Ok(ExitCode::from(2));
    }
    let mut table = Table::new();
    let (lines, difference) = walk(&paths, &mut table)?;
    let whole = table.print();
    if let Some(text) = difference {
        println!("line {lines} differs\n{text}");
        return Ok(ExitCode::FAILURE);
    }
    if ask_whole && !whole {
        println!("not everything was visited");
        return Ok(ExitCode::FAILURE);
    }
    if paths.len() == 3 {
        println!("{lines} lines, every bit equal");
    }
    Ok(ExitCode::SUCCESS)
}
