//! What the lines behind the published text give: the ten outputs of a tick and the fields of the state, from a controller with its state; and
//! the box around it, which asks the questions.
#![allow(dead_code)]

use std::cell::Cell;

use crate::fields::Value;
use crate::reckoning::Reckoning;
use crate::tick::{Building, Flows, Tick, USUAL};

/// The place of the airflow sensor alarm among the integers of an answer.
const SENSOR: usize = 3;

/// The place of the damper command among its floats.
#[cfg(fields)]
const DAMPER: usize = 1;

/// What a box keeps that had no accepted tick.
#[cfg(fields)]
const NOTHING_KEPT: [Value; 5] = [Value::Flag(0), Value::Flag(0), Value::Flag(0), Value::Flag(0), Value::Whole(0)];

/// The ten outputs of an accepted tick, in the order in which they are printed.
#[repr(C)]
pub struct Answer {
    pub floats: [f64; 5],
    pub integers: [i64; 5],
}

impl Answer {
    /// The outputs by their bits.
    pub fn bits(&self) -> [Value; 10] {
        let [a, b, c, d, e] = self.floats.map(|x| Value::Float(x.to_bits()));
        let [f, g, h, i, j] = self.integers.map(Value::Whole);
        [a, b, c, d, e, f, g, h, i, j]
    }
}

/// The readings of a tick as the published record or as the port's, which have the same names.
macro_rules! input_of {
    ($record:ident, $tick:expr) => {
        $record {
            zone_temperature: $tick.zone,
            cooling_setpoint: $tick.cooling,
            heating_setpoint: $tick.heating,
            window_status: ($tick.status & 1 != 0).into(),
            occupancy_status: ($tick.status & 2 != 0).into(),
            operating_mode: $tick.mode,
            co2_setpoint: $tick.co2_setpoint,
            co2_concentration: $tick.co2,
            discharge_air_temperature: $tick.discharge,
            supply_air_temperature: $tick.supply,
            discharge_airflow: $tick.flow,
            airflow_override_index: $tick.airflow,
            damper_override_index: $tick.damper,
            supply_fan_status: ($tick.status & 4 != 0).into(),
        }
    };
}
pub(crate) use input_of;

/// A published controller with its state, plain or quiet.
pub trait Controller {
    fn answer(&mut self, tick: &Tick) -> Answer;
    #[cfg(fields)]
    fn paths(&self) -> Vec<String>;
    #[cfg(fields)]
    fn values(&self, values: &mut Vec<Value>);
}

thread_local! {
    /// The design flows of the box that takes a tick, for the sized text.
    static FLOWS: Cell<Flows> = const { Cell::new(USUAL) };
}

pub fn design_minimum_flow() -> f64 {
    FLOWS.get().minimum
}

pub fn design_cooling_maximum_flow() -> f64 {
    FLOWS.get().maximum
}

/// How controllers are made, plain and quiet.
pub type Starts = [fn() -> Box<dyn Controller>; 2];

/// A text as it is, the same with the two design flows of the box in place of its constants, and that with the second reading of the sensor alarm.
#[derive(Clone, Copy)]
pub struct Texts {
    pub usual: Starts,
    pub sized: Starts,
    pub second: Starts,
}

/// The texts of six modules.
#[allow(unused_macros)]
macro_rules! texts {
    ($plain:ident, $quiet:ident, $sized:ident, $sized_quiet:ident, $second:ident, $second_quiet:ident) => {
        crate::answer::Texts {
            usual: [$plain::fresh, $quiet::fresh],
            sized: [$sized::fresh, $sized_quiet::fresh],
            second: [$second::fresh, $second_quiet::fresh],
        }
    };
}
#[allow(unused_imports)]
pub(crate) use texts;

/// A controller, the time of its last accepted tick and what the box was built with.
pub struct AirBox {
    texts: Texts,
    controller: Box<dyn Controller>,
    /// One with the first reading, where a box was built with the second or with the usual flows: of the text as it is at the usual flows, else of
    /// the sized one. The two have to agree.
    beside: Option<Box<dyn Controller>>,
    /// The sensor alarm of a box with the second reading.
    reckoning: Option<Reckoning>,
    /// Which of the controller's fields are of the sensor alarm's delay.
    #[cfg(fields)]
    of_sensor_delay: Vec<bool>,
    /// What the box keeps of the last accepted tick, in the order of its paths.
    #[cfg(fields)]
    kept: [Value; 5],
    pub last: Option<f64>,
    pub quiet: bool,
    pub flows: Flows,
}

impl AirBox {
    /// Before any start word the box is a fresh plain one.
    pub fn new(texts: Texts) -> AirBox {
        let controller = texts.usual[0]();
        AirBox {
            texts,
            #[cfg(fields)]
            of_sensor_delay: controller.paths().iter().map(|path| path.starts_with("alarms.sensor_delay.")).collect(),
            controller,
            beside: None,
            reckoning: None,
            #[cfg(fields)]
            kept: NOTHING_KEPT,
            last: None,
            quiet: false,
            flows: USUAL,
        }
    }

    /// Whether the box has the second reading.
    pub fn second(&self) -> bool {
        self.reckoning.is_some()
    }

    /// Let a start word begin a fresh box.
    pub fn start(&mut self, word: u64) {
        if word != 0 {
            self.quiet = word == 2;
            self.flows = USUAL;
            self.controller = self.texts.usual[usize::from(self.quiet)]();
            self.beside = None;
            self.reckoning = None;
            #[cfg(fields)]
            {
                self.kept = NOTHING_KEPT;
            }
            self.last = None;
        }
    }

    /// Build a box with design flows and a reading of its own; or the number of the refusal, which leaves the box as it was.
    pub fn build(&mut self, building: &Building) -> usize {
        let number = building.refusal();
        if number == 0 {
            self.start(building.start);
            self.flows = building.flows;
            let start = usize::from(self.quiet);
            let usual = std::mem::replace(&mut self.controller, self.texts.sized[start]());
            self.beside = (self.flows == USUAL).then_some(usual);
            if building.second() {
                let first = std::mem::replace(&mut self.controller, self.texts.second[start]());
                self.beside.get_or_insert(first);
                self.reckoning = Some(Reckoning::new(true, self.quiet, self.flows.maximum));
            }
        }
        number
    }

    /// Ask the questions and, if all get a "yes", let the controller take the tick.
    pub fn tick(&mut self, tick: &Tick) -> Result<Answer, usize> {
        match tick.refusal(self.last) {
            0 => {
                self.last = Some(tick.t);
                FLOWS.set(self.flows);
                let answer = self.controller.answer(tick);
                #[cfg(fields)]
                self.keep(tick, &answer);
                self.hold(tick, &answer);
                Ok(answer)
            }
            number => Err(number),
        }
    }

    /// Stop unless the text beside gives the same outputs. The sensor alarm of the second reading has to be the reckoned one, and to show wherever
    /// that of the first does.
    fn hold(&mut self, tick: &Tick, answer: &Answer) {
        let Some(beside) = &mut self.beside else { return };
        let mut first = beside.answer(tick);
        if let Some(reckoning) = &mut self.reckoning {
            let alarm = answer.integers[SENSOR];
            assert!(alarm == reckoning.alarm(tick), "the second reading's alarm is not the reckoned one");
            assert!(alarm == 3 || first.integers[SENSOR] != 3, "the first reading shows the alarm and the second does not");
            first.integers[SENSOR] = alarm;
        }
        assert!(first.bits() == answer.bits(), "the text beside gives another output");
    }

    /// The paths of the controller's fields, and of those that the box adds.
    #[cfg(fields)]
    pub fn paths(&self) -> Vec<String> {
        let mut paths = self.controller.paths();
        let choices = ["quiet", "design_minimum_flow", "design_cooling_maximum_flow", "second_reading"];
        paths.push("last.time".into());
        paths.extend(choices.map(|name| format!("last.choices.{name}")));
        let kept = ["present", "fan", "flow_by_memory", "damper_by_memory", "mode"];
        paths.extend(kept.map(|name| format!("last.tick.{name}")));
        paths
    }

    /// What the box keeps of an accepted tick. A comparison with a dead band was decided by its memory where its two tests disagree: the Rust's
    /// `greater_hysteretic` and `less_hysteretic` make the one or the other, by the memory.
    #[cfg(fields)]
    fn keep(&mut self, tick: &Tick, answer: &Answer) {
        let limit = 0.1 * self.flows.maximum;
        let command = answer.floats[DAMPER];
        let flow_by_memory = (tick.flow > limit) != (tick.flow > limit - 0.01);
        let damper_by_memory = (command < 0.01) != (command < 0.01 + 0.5 * 0.01);
        let [present, fan, flow, damper] = [true, tick.status & 4 != 0, flow_by_memory, damper_by_memory].map(|flag| Value::Flag(flag.into()));
        self.kept = [present, fan, flow, damper, Value::Whole(tick.mode)];
    }

    /// Their values, in the same order.
    #[cfg(fields)]
    pub fn values(&self, values: &mut Vec<Value>) {
        let from = values.len();
        self.controller.values(values);
        self.hold_state(&values[from..]);
        let [minimum, maximum] = [self.flows.minimum, self.flows.maximum].map(|flow| Value::Float(flow.to_bits()));
        let [quiet, second] = [self.quiet, self.second()].map(|flag| Value::Flag(flag.into()));
        values.extend([Value::time(self.last), quiet, minimum, maximum, second]);
        values.extend(self.kept);
    }

    /// Stop unless the text beside has the same state, for the second reading but for the sensor alarm's delay.
    #[cfg(fields)]
    fn hold_state(&self, values: &[Value]) {
        let Some(beside) = &self.beside else { return };
        let mut first = Vec::new();
        beside.values(&mut first);
        let differs = |place: usize| values[place] != first[place] && !(self.second() && self.of_sensor_delay[place]);
        assert!(values.len() == first.len() && !(0..first.len()).any(differs), "the text beside has another state");
    }
}
