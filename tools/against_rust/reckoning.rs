//! The airflow sensor alarm reckoned straight from the words of the two readings, tick by tick, beside the texts that run.

use crate::tick::Tick;

/// What the words ask of the accepted ticks of a box so far.
pub struct Reckoning {
    second: bool,
    quiet: bool,
    /// Flow becomes high above this, and stays so above this less 0.01.
    limit: f64,
    high: bool,
    ticked: bool,
    /// Since when the fan has been off, in the first reading with flow high, and whether that was at the very first accepted tick.
    since: Option<(f64, bool)>,
}

impl Reckoning {
    pub fn new(second: bool, quiet: bool, maximum: f64) -> Reckoning {
        Reckoning { second, quiet, limit: 0.1 * maximum, high: false, ticked: false, since: None }
    }

    /// The alarm at the next accepted tick.
    pub fn alarm(&mut self, tick: &Tick) -> i64 {
        self.high = tick.flow > self.limit || (self.high && tick.flow > self.limit - 0.01);
        let fan_off = tick.status & 4 == 0;
        let here = (tick.t, !self.ticked);
        self.ticked = true;
        self.since = (fan_off && (self.second || self.high)).then_some(self.since.unwrap_or(here));
        let long = |(since, at_first): (f64, bool)| tick.t - since >= 600.0 || (at_first && !self.quiet);
        if self.since.is_some_and(long) && self.high && tick.mode == 1 { 3 } else { 0 }
    }
}
