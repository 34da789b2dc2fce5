//! Runs the ticks and buildings on standard input, in the line format of the program `ticks`, and answers each line as that program does.

use air_box::{AirBox, BuildRefusal, Choices, Input, Output, Refusal, Tick};
use std::io::{self, BufRead, BufWriter, Write};

/// A field: sixteen lowercase hex digits.
fn word(field: &[u8]) -> Option<u64> {
    let hex = |c: &u8| matches!(c, b'0'..=b'9' | b'a'..=b'f');
    if field.len() != 16 || !field.iter().all(hex) {
        return None;
    }
    u64::from_str_radix(std::str::from_utf8(field).ok()?, 16).ok()
}

/// A line that is well formed: the fourteen fields of a tick, or what a box is to be built with.
enum Line {
    Tick([u64; 14]),
    Building(Choices),
}

fn read(line: &[u8]) -> Option<Line> {
    let fields: Option<Vec<u64>> = line.split(|&c| c == b' ').map(word).collect();
    match fields?[..] {
        [start @ 1..=2, minimum, maximum] => Some(building([start, minimum, maximum, 1])),
        [start @ 1..=2, minimum, maximum, reading @ 1..=2] => {
            Some(building([start, minimum, maximum, reading]))
        }
        ref words @ [0..=2, .., 0..=7] => words.try_into().ok().map(Line::Tick),
        _ => None,
    }
}

/// The choices of a building line, whose start and reading are 1 or 2. A line that names no reading has the first.
fn building([start, minimum, maximum, reading]: [u64; 4]) -> Line {
    Line::Building(Choices {
        quiet: start == 2,
        design_minimum_flow: f64::from_bits(minimum),
        design_cooling_maximum_flow: f64::from_bits(maximum),
        second_reading: reading == 2,
    })
}

fn tick_of(words: &[u64; 14]) -> Tick {
    let real = |i: usize| f64::from_bits(words[i]);
    let flag = |bit: u64| words[13] & bit != 0;
    Tick {
        t: real(1),
        input: Input {
            zone_temperature: real(2),
            cooling_setpoint: real(3),
            heating_setpoint: real(4),
            window_status: flag(1),
            occupancy_status: flag(2),
            operating_mode: words[10] as i64,
            co2_setpoint: real(5),
            co2_concentration: real(6),
            discharge_air_temperature: real(7),
            supply_air_temperature: real(8),
            discharge_airflow: real(9),
            airflow_override_index: words[11] as i64,
            damper_override_index: words[12] as i64,
            supply_fan_status: flag(4),
        },
    }
}

fn print_built(out: &mut impl Write, answer: Result<(), BuildRefusal>) -> io::Result<()> {
    match answer {
        Err(reason) => writeln!(out, "refused {}", reason as u8),
        Ok(()) => writeln!(out, "built"),
    }
}

fn print(out: &mut impl Write, answer: Result<Output, Refusal>) -> io::Result<()> {
    match answer {
        Err(reason) => writeln!(out, "refused {}", reason as u8),
        Ok(o) => writeln!(
            out,
            "{:016x} {:016x} {:016x} {:016x} {:016x} {} {} {} {} {}",
            o.airflow_setpoint.to_bits(),
            o.damper_command.to_bits(),
            o.adjusted_population_flow.to_bits(),
            o.adjusted_area_flow.to_bits(),
            o.minimum_outdoor_airflow.to_bits(),
            o.zone_temperature_reset_request,
            o.zone_pressure_reset_request,
            o.low_airflow_alarm,
            o.airflow_sensor_alarm,
            o.leaking_damper_alarm
        ),
    }
}

fn main() -> io::Result<()> {
    let mut out = BufWriter::new(io::stdout().lock());
    let mut air_box = AirBox::plain();
    for line in io::stdin().lock().split(b'\n') {
        match read(&line?) {
            None => writeln!(out, "malformed")?,
            Some(Line::Building(choices)) => {
                let built = AirBox::build(choices);
                print_built(&mut out, built.map(|built| air_box = built))?;
            }
            Some(Line::Tick(words)) => {
                match words[0] {
                    1 => air_box = AirBox::plain(),
                    2 => air_box = AirBox::quiet(),
                    _ => {}
                }
                print(&mut out, air_box.tick(&tick_of(&words)))?;
            }
        }
    }
    out.flush()
}
