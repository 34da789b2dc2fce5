// What the published controller text takes from its parent module for writing files. None of it
// is reached by `ControllerState::output`, so nothing here does any work.

use crate::oracle::{Golden, InputSeries, Sample, ValueKind};

pub const COOLING_ONLY_CONTROLLER: &str = "cooling_only_controller";

pub fn r(_: f64) -> Sample {
    unreachable!()
}

pub fn i(_: i64) -> Sample {
    unreachable!()
}

pub fn input_r(_: &'static str, _: impl IntoIterator<Item = f64>) -> InputSeries {
    unreachable!()
}

pub fn input_b(_: &'static str, _: impl IntoIterator<Item = bool>) -> InputSeries {
    unreachable!()
}

pub fn input_i(_: &'static str, _: impl IntoIterator<Item = i64>) -> InputSeries {
    unreachable!()
}

#[allow(clippy::too_many_arguments)]
pub fn sequence_golden(
    _: &'static str,
    _: &'static str,
    _: ValueKind,
    _: Vec<f64>,
    _: Vec<Sample>,
    _: &'static str,
    _: &'static str,
    _: Vec<InputSeries>,
) -> Golden {
    unreachable!()
}
