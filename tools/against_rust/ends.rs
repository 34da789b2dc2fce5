//! Lines in which a last bit tells the design flows of boxes of named sizes, and a second or a last bit the reading, from both starts.

use crate::scenes::CALM;
use crate::sizes::{ENDS, flows, high};
use crate::tick::{Building, Flows, Tick, USUAL};

/// Beside the ends of the ranges: the usual size, and minima about which a setpoint begins to count as one, whatever the maximum.
const OTHERS: [Flows; 5] = [USUAL, flows(0.05, 10.0), flows(0.0075, 10.0), flows(0.005, 0.1), flows(0.0075, 0.1)];

/// The ticks of four boxes of this size, a minute apart.
fn boxes(size: Flows) -> [Vec<Tick>; 4] {
    let limit = high(size);
    let fan_off = |flow: f64, airflow: i64| Tick { flow, airflow, status: 3, ..CALM };
    let starved = |airflow: i64| Tick { flow: -0.1, airflow, damper: 2, ..CALM };
    [
        // At the limit a first flow is not yet high.
        vec![fan_off(limit, 2)],
        // Above it it is, and stays so above the limit less 0.01. The setpoint is that of override 3.
        vec![fan_off(limit.next_up(), 3), fan_off((limit - 0.01).next_up(), 3), fan_off(limit - 0.01, 3)],
        // An open damper without flow under override 3; the damper's own command under override 2; the line over CO2; the line over the cooling loop.
        vec![
            starved(3),
            Tick { flow: 0.4 * size.maximum, airflow: 2, ..CALM },
            Tick { flow: 0.4 * size.maximum, co2: 794.0, ..CALM },
            Tick { flow: 0.4 * size.maximum, zone: 300.0, ..CALM },
        ],
        // A setpoint that counted as one goes down to the minimum, and is sampled there.
        vec![starved(2), starved(3), starved(3)],
    ]
}

/// The ticks of two boxes of this size: from a first tick with the fan off, and from the fan's stop at 60.
fn stops(size: Flows) -> [Vec<Tick>; 2] {
    let limit = high(size);
    let fan_off = |t: f64, flow: f64| Tick { t, flow, status: 3, ..CALM };
    [
        // Flow becomes high at the second tick, keeps high within its dead band, and has to become high again once below.
        vec![
            fan_off(0.0, limit),
            fan_off(60.0, limit.next_up()),
            fan_off(120.0, (limit - 0.01).next_up()),
            fan_off(180.0, limit - 0.01),
            fan_off(420.0, limit),
            fan_off(599.0, limit.next_up()),
            fan_off(600.0, limit.next_up()),
        ],
        // 599 and 600 seconds after the stop, in another mode, after flow was low again, and after a tick with the fan on.
        vec![
            Tick { flow: 0.0, ..CALM },
            fan_off(60.0, limit),
            fan_off(300.0, limit),
            fan_off(540.0, limit),
            fan_off(659.0, limit.next_up()),
            fan_off(660.0, limit.next_up()),
            Tick { mode: 2, ..fan_off(661.0, limit.next_up()) },
            fan_off(662.0, limit - 0.01),
            fan_off(663.0, limit.next_up()),
            Tick { t: 664.0, flow: limit.next_up(), ..CALM },
            fan_off(665.0, limit.next_up()),
        ],
    ]
}

/// The lines, without their newlines.
pub fn lines() -> Vec<Vec<u8>> {
    let mut lines = Vec::new();
    for flows in ENDS.into_iter().chain(OTHERS) {
        for start in [1, 2] {
            for ticks in boxes(flows) {
                lines.push(Building { start, flows, reading: None }.line());
                let minutes = (0..).map(|minute| 60.0 * f64::from(minute));
                lines.extend(ticks.into_iter().zip(minutes).map(|(tick, t)| Tick { t, ..tick }.line()));
            }
        }
    }
    for flows in [USUAL, ENDS[0]] {
        for (start, reading) in [(1, 1), (1, 2), (2, 1), (2, 2)] {
            for ticks in stops(flows) {
                lines.push(Building { start, flows, reading: Some(reading) }.line());
                lines.extend(ticks.iter().map(Tick::line));
            }
        }
    }
    // None of these builds a box, so the last one goes on: a plain one would show the sensor alarm.
    let not_built = [(1, USUAL, 0), (1, USUAL, 3), (0, USUAL, 2), (3, USUAL, 2), (1, flows(1.5, 0.5), 2)];
    lines.extend(not_built.map(|(start, flows, reading)| Building { start, flows, reading: Some(reading) }.line()));
    lines.push(Tick { t: 666.0, flow: 0.3, status: 3, ..CALM }.line());
    lines
}
