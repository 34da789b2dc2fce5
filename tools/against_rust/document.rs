
// The tool's own lines: the seven helpers by the rules of document 01, with the signatures that the published callers need. The build puts
// them behind the published recurrences, whose own seven have other names there.

/// The answers along the readings, each from the one before it.
fn along<T>(readings: impl Iterator<Item = T>, start: bool, next: impl Fn(bool, T) -> bool) -> Vec<bool> {
    let mut previous = start;
    readings.map(|reading| {
        previous = next(previous, reading);
        previous
    })
    .collect()
}

pub(crate) fn clamp(value: f64, min: f64, max: f64) -> f64 {
    if value < min {
        min
    } else if value > max {
        max
    } else {
        value
    }
}

pub(crate) fn hysteresis(u: &[f64], u_low: f64, u_high: f64, pre_y_start: bool) -> Vec<bool> {
    along(u.iter(), pre_y_start, |on, &u| if on { u >= u_low } else { u > u_high })
}

pub(crate) fn less_hysteretic(u1: &[f64], u2: &[f64], h: f64, pre_y_start: bool) -> Vec<bool> {
    along(u1.iter().zip(u2), pre_y_start, |on, (&u1, &u2)| if on { u1 < u2 + h } else { u1 < u2 })
}

pub(crate) fn initial_sample_time(t_start: f64, period: f64) -> f64 {
    let periods = (t_start / period).floor();
    buildings_round_six(periods * period)
}

/// Past the range of i64 the cast gives the nearer end, and for NaN 0.
pub(crate) fn sample_index(t_now: f64, t0: f64, period: f64) -> i64 {
    let periods = (t_now - t0) / period;
    periods.floor() as i64
}

pub(crate) fn sample_due(t_now: f64, t0: f64, period: f64, last_index: i64) -> (bool, i64) {
    let index = sample_index(t_now, t0, period);
    (last_index < index, index)
}

pub(crate) fn sampler_output(t: f64, input: f64, period: f64, initialized: bool, t0: f64, last_index: i64, held: f64) -> f64 {
    let hold = initialized && !sample_due(t, t0, period, last_index).0;
    if hold { held } else { input }
}
