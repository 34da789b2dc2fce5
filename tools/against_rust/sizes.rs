//! The sizes of the boxes of a night, and what hangs on a size.

use crate::dice::Dice;
use crate::tick::{Flows, USUAL};

pub const fn flows(minimum: f64, maximum: f64) -> Flows {
    Flows { minimum, maximum }
}

pub const ENDS: [Flows; 5] = [flows(0.0, 0.1), flows(0.1, 0.1), flows(0.0, 10.0), flows(10.0, 10.0), flows(-0.0, 1.5)];
const COMMON: [Flows; 5] = [USUAL, flows(0.1, 0.3), flows(0.2, 0.6), flows(0.3, 1.0), flows(0.8, 2.4)];

/// A size that can be built.
pub fn good(dice: &mut Dice) -> Flows {
    let maximum = match dice.below(4) {
        0 => dice.between(0.1, 10.0),
        1 => dice.pick(&[0.1f64.next_up(), 10f64.next_down(), 1.5f64.next_up(), 1.5f64.next_down()]),
        _ => dice.between(0.1, 2.0),
    };
    match dice.below(10) {
        0 | 1 => dice.pick(&ENDS),
        2..5 => dice.pick(&COMMON),
        5 => flows(dice.beside_one_of(&[0.0, maximum, 0.5]).clamp(0.0, maximum), maximum),
        // Where a setpoint begins to count as one, and where it no longer does.
        6 => flows(dice.beside_one_of(&[0.005, 0.01]), maximum),
        _ => flows(dice.between(0.0, maximum), maximum),
    }
}

/// A size of which one number lies outside of its range, or both do. Now and then an odd number is so small that it can be built.
pub fn bad(dice: &mut Dice) -> Flows {
    let size = good(dice);
    let odd = dice.odd();
    match dice.below(6) {
        0 => flows(size.minimum, dice.pick(&[10f64.next_up(), 10.5, -size.maximum, 0.0, -0.0, odd])),
        1 => flows(0.0, dice.pick(&[0.1f64.next_down(), 0.0, -0.0, 5e-324, odd])),
        2 => flows(size.maximum.next_up(), size.maximum),
        3 => flows(dice.pick(&[-5e-324, -0.1, -size.maximum, 10.5, odd]), size.maximum),
        4 => flows(1.5, 0.5),
        _ => flows(odd, dice.odd()),
    }
}

/// Above this a flow becomes high, and it stays high above this less 0.01.
pub fn high(size: Flows) -> f64 {
    0.1 * size.maximum
}

/// Half way between the two: 0.145 at the usual size.
pub fn kept_high(size: Flows) -> f64 {
    0.145 + (high(size) - high(USUAL))
}

/// A flow that has to this size the relation which `flow` has to the usual one.
pub fn scaled(size: Flows, flow: f64) -> f64 {
    flow * (size.maximum / USUAL.maximum)
}

/// The airflow setpoint under override 1, 2 or 3.
pub fn setpoint(size: Flows, airflow_override: i64) -> f64 {
    [0.0, size.maximum, size.minimum][airflow_override as usize - 1]
}
