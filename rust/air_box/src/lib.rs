//! The proved controller of one cooling-only variable-volume air box, for Rust.
//!
//! A box is built with a quiet or a plain start and ticked in place. A tick gives ten outputs, or the reason why it was refused:
//!
//! ```
//! use air_box::{AirBox, Input, Output, Refusal, Tick};
//!
//! /// What firmware keeps of a box: the last accepted outputs stand until there are new ones.
//! struct Unit {
//!     air_box: AirBox,
//!     output: Option<Output>,
//!     lost: u32,
//! }
//!
//! impl Unit {
//!     fn run(&mut self, tick: &Tick) -> Result<(), Refusal> {
//!         let mut answer = self.air_box.tick(tick);
//!         let lost = matches!(answer, Err(Refusal::BeforeLast | Refusal::TooLongAfterLast));
//!         self.lost = if lost { self.lost + 1 } else { 0 };
//!         if self.lost == 3 {
//!             // Box and clock have lost each other: built afresh, the box takes this tick as its first.
//!             self.lost = 0;
//!             self.air_box = self.air_box.afresh();
//!             answer = self.air_box.tick(tick);
//!         }
//!         self.output = Some(answer?);
//!         Ok(())
//!     }
//! }
//!
//! let mut unit = Unit { air_box: AirBox::quiet(), output: None, lost: 0 };
//! let mut tick = Tick {
//!     t: 0.0,
//!     input: Input {
//!         zone_temperature: 296.5,
//!         cooling_setpoint: 297.0,
//!         heating_setpoint: 293.0,
//!         window_status: true,
//!         occupancy_status: true,
//!         operating_mode: 1,
//!         co2_setpoint: 900.0,
//!         co2_concentration: 600.0,
//!         discharge_air_temperature: 287.0,
//!         supply_air_temperature: 286.0,
//!         discharge_airflow: 0.45,
//!         airflow_override_index: 0,
//!         damper_override_index: 0,
//!         supply_fan_status: true,
//!     },
//! };
//! assert_eq!(unit.run(&tick), Ok(()));
//! tick.t = 60.0;
//! tick.input.zone_temperature = f64::NAN;
//! assert_eq!(unit.run(&tick), Err(Refusal::TemperatureOutOfRange));
//! assert_eq!(unit.output.expect("accepted before").desk_code(), 0);
//! ```
//!
//! # Time
//!
//! `t` is in whole seconds from any start that the caller chooses, from 0 to 2,147,483,648. It never goes back, and may stand still. Between two
//! accepted ticks it moves by at most 240; a tick a minute is what the controller is made for. Seconds counted from the box's own first tick are best: where
//! the first accepted `t` is no multiple of 120, temperature requests 2 and 3 may be kept back for up to half an hour.
//!
//! # Refusals
//!
//! A refused tick changes nothing. After bad readings for more than 240 seconds a clock that goes on gets [`Refusal::TooLongAfterLast`] for every tick,
//! however good it is, until the box is built afresh: a loop that only goes on leaves the box dead for the night. A clock that was set back gets
//! [`Refusal::BeforeLast`] until it has caught up. The lines above are the way out of both; they wait for three such refusals in a row, since a box that is
//! built at one false time far ahead would refuse the right times that follow. A fresh box has forgotten all: its alarms show 0 until they have waited
//! out their delays again.
//!
//! # Plain or quiet
//!
//! A real box takes the quiet start: every alarm, and every request above 1, then waits out its delay before it shows. Eight delays wait so: three of
//! the requests, and of the alarms those of the setpoint, of the two low airflows, of the sensor and of the leak. One more, the fan's arming, does not: with
//! either start a fan that is on at the first tick counts as having been on for the 30 minutes that arm the low airflow alarm. So with a quiet start low
//! airflow shows 5 minutes after power-up at the earliest, and with either start 35 minutes after a fan start that the box has seen. With a plain start a
//! fault that seems to stand at the first tick counts as having stood for long, and shows at once. It is the start of the published reference, for
//! comparing with it.
//!
//! A fresh box does not know where its damper stood, and with the fan on it takes minutes to bring its flow up: a sound one that is occupied may show low
//! airflow from minute 5 on. Right after power-up, or after a box was built afresh, low airflow is a fault only if it stays.
//!
//! # Size
//!
//! [`AirBox::quiet`] and [`AirBox::plain`] give a box with a design minimum of 0.5 and a cooling maximum of 1.5 cubic metres a second. A box of another size
//! is built with its own two flows, which stay with it:
//!
//! ```
//! use air_box::{AirBox, BuildRefusal, Choices};
//!
//! let choices = Choices { design_minimum_flow: 0.2, design_cooling_maximum_flow: 0.6, ..Choices::usual(true) };
//! let air_box = AirBox::build(choices)?;
//! assert_eq!(air_box.afresh().choices(), choices);
//! let too_large = Choices { design_cooling_maximum_flow: 12.0, ..choices };
//! assert_eq!(AirBox::build(too_large).unwrap_err(), BuildRefusal::DesignFlowsOutOfRange);
//! # Ok::<(), BuildRefusal>(())
//! ```
//!
//! The maximum and the minimum are the flows of overrides 2 and 3. The damper's loop takes setpoint and measured flow as shares of the maximum, and for the
//! alarms flow is high above a tenth of it.
//!
//! # Reading
//!
//! The airflow sensor alarm has two readings, of which a box is built with one, and keeps it. In the first, that of the published reference, the flow has
//! been high and the fan off, both at once, for 600 seconds. In the second the fan has been off for 600 seconds and the flow is high now, however short a
//! time. Both show the alarm in occupied mode alone, and with a plain start what stands at the very first tick counts as having stood for long. Nothing else
//! differs, and the second shows the alarm wherever the first does. A box has the first unless the second is named:
//!
//! ```
//! use air_box::{AirBox, BuildRefusal, Choices};
//!
//! let air_box = AirBox::build(Choices { second_reading: true, ..Choices::usual(true) })?;
//! assert!(air_box.afresh().choices().second_reading);
//! assert!(!AirBox::quiet().choices().second_reading);
//! # Ok::<(), BuildRefusal>(())
//! ```
//!
//! # Why there is no alarm
//!
//! A box tells why its airflow sensor alarm does not stand, and why its leaking damper alarm does not: the first of these reasons that is true of its last
//! accepted tick. For the sensor alarm: no tick yet, mode not 1, fan on, flow not high, held. For the leak alarm, which asks for no mode: no tick yet, fan
//! off, damper not closed, flow not high, held. Else the alarm stands. It may be asked at any time, and speaks
//! of the last accepted tick: a refused one changes none of it.
//!
//! ```
//! use air_box::{AirBox, NoAlarmReason};
//! # use air_box::{Input, Tick};
//! # let minute = |minute: u32, discharge_airflow: f64| Tick {
//! #     t: 60.0 * f64::from(minute),
//! #     input: Input {
//! #         zone_temperature: 296.5,
//! #         cooling_setpoint: 297.0,
//! #         heating_setpoint: 293.0,
//! #         window_status: true,
//! #         occupancy_status: true,
//! #         operating_mode: 1,
//! #         co2_setpoint: 900.0,
//! #         co2_concentration: 600.0,
//! #         discharge_air_temperature: 287.0,
//! #         supply_air_temperature: 286.0,
//! #         discharge_airflow,
//! #         airflow_override_index: 0,
//! #         damper_override_index: 0,
//! #         supply_fan_status: false,
//! #     },
//! # };
//!
//! // `minute` makes a tick of that minute in mode 1, with the fan off and with that flow
//! let mut air_box = AirBox::quiet();
//! assert_eq!(air_box.sensor_reason().reason, NoAlarmReason::NoTick);
//! air_box.tick(&minute(0, 0.3)).expect("accepted");
//! air_box.tick(&minute(1, 0.145)).expect("accepted");
//! let why = air_box.sensor_reason();
//! assert_eq!(why.reason, NoAlarmReason::Held { seconds_lacking: 540 });
//! assert!(why.flow_by_memory); // it is high since it was, not by itself
//! assert_eq!(air_box.leak_reason().reason.to_string(), "fan off");
//! ```
//!
//! Held is an alarm for which all is there but the 600 seconds. They run from the accepted tick at which flow high with the fan off last began, in whatever
//! mode; with the second reading from the one at which the fan last stopped; for the leak from the one at which fan on, damper closed and flow high last came
//! together. With a quiet start the first tick counts as such a beginning. With a plain start what is there from the first tick on is never held.
//!
//! # What it needs
//!
//! x86-64 with the System V ABI; doubles rounded to nearest, exceptions masked, small numbers not flushed to zero. Nothing is allocated, and no `std` is used.
//! The records that cross the boundary lie as `include/air_box.h` has them, where more is said; `docs/RULES.md` has the rules in full.

#![no_std]

use core::error::Error;
use core::fmt;
use core::mem::{offset_of, size_of, MaybeUninit};

/// What is chosen when a box is built, and stays with it. Airflows in cubic metres a second.
#[repr(C)]
#[derive(Clone, Copy, Debug, PartialEq)]
pub struct Choices {
    /// True: a quiet start. False: a plain one.
    pub quiet: bool,
    /// From 0.0 to the cooling maximum; 0.5 where none was chosen. -0.0 is a minimum of 0 and is used as it came.
    pub design_minimum_flow: f64,
    /// From 0.1 to 10.0; 1.5 where none was chosen.
    pub design_cooling_maximum_flow: f64,
    /// True: the second reading of the airflow sensor alarm. False: the first, as where none was chosen.
    pub second_reading: bool,
}

impl Choices {
    /// Those of a box for which only the start is chosen: a design minimum of 0.5, a cooling maximum of 1.5 and the first reading.
    pub const fn usual(quiet: bool) -> Choices {
        Choices {
            quiet,
            design_minimum_flow: 0.5,
            design_cooling_maximum_flow: 1.5,
            second_reading: false,
        }
    }
}

/// Why a box was not built, with its number. The ends of a range belong to it.
#[derive(Clone, Copy, Debug, PartialEq, Eq, Hash)]
#[repr(u8)]
pub enum BuildRefusal {
    /// The cooling maximum is not from 0.1 to 10.0, or the design minimum not from 0.0 to the maximum.
    DesignFlowsOutOfRange = 8,
}

impl fmt::Display for BuildRefusal {
    fn fmt(&self, f: &mut fmt::Formatter<'_>) -> fmt::Result {
        f.write_str("the cooling maximum is not from 0.1 to 10 cubic metres a second, or the design minimum not from 0 to the maximum")
    }
}

impl Error for BuildRefusal {}

/// The readings and settings of a tick. What lies outside of a range is refused; flags, the mode and the override indices are never refused.
#[repr(C)]
#[derive(Clone, Copy, Debug, PartialEq)]
pub struct Input {
    /// Kelvin, from 150.0 to 450.0, as all five temperatures.
    pub zone_temperature: f64,
    pub cooling_setpoint: f64,
    pub heating_setpoint: f64,
    /// True: windows closed, the normal state. False: open, which makes the outdoor airflows and the minimum flow 0.
    pub window_status: bool,
    /// True: there are people in the zone. False makes the outdoor airflows and the minimum flow 0, as open windows do.
    pub occupancy_status: bool,
    /// 1 occupied, 2 cool-down, 3 setup. 4 warm-up, 5 setback, 6 freeze protection, 7 unoccupied and any number outside of 1 to 7 are treated alike.
    pub operating_mode: i64,
    /// Parts per million, from 0.0 to 10000.0, as is the concentration. From 200 below it up to it the minimum flow rises to the cooling maximum.
    pub co2_setpoint: f64,
    pub co2_concentration: f64,
    /// Of the air that leaves the box.
    pub discharge_air_temperature: f64,
    /// Of the air that comes to it.
    pub supply_air_temperature: f64,
    /// Cubic metres a second, from -10.0 to 10.0.
    pub discharge_airflow: f64,
    /// 1 makes the airflow setpoint 0, 2 the cooling maximum, 3 the design minimum; any other number is no override.
    pub airflow_override_index: i64,
    /// 1 closes the damper, 2 opens it; any other number is no override.
    pub damper_override_index: i64,
    /// True: the supply fan runs.
    pub supply_fan_status: bool,
}

/// A tick: its time in whole seconds, and what it carries.
#[repr(C)]
#[derive(Clone, Copy, Debug, PartialEq)]
pub struct Tick {
    pub t: f64,
    pub input: Input,
}

/// The ten outputs of an accepted tick. Airflows in cubic metres a second; requests are from 0 to 3, 3 the strongest.
/// No real output is ever infinite or NaN, whatever the ticks carried; each lies in the range that stands beside it.
#[repr(C)]
#[derive(Clone, Copy, Debug, PartialEq)]
pub struct Output {
    /// From 0 to the box's cooling maximum.
    pub airflow_setpoint: f64,
    /// From 0, closed, to 1, open.
    pub damper_command: f64,
    /// From 0 to 0.005, for the people.
    pub adjusted_population_flow: f64,
    /// From 0 to 0.006, for the floor.
    pub adjusted_area_flow: f64,
    /// From 0 to 0.01375.
    pub minimum_outdoor_airflow: f64,
    /// For colder supply air.
    pub zone_temperature_reset_request: i64,
    /// For more duct pressure.
    pub zone_pressure_reset_request: i64,
    /// 2: the flow is below half of its setpoint. 3: below 70 percent. Else 0.
    pub low_airflow_alarm: i64,
    /// 3: flow is measured while the fan is off. Else 0.
    pub airflow_sensor_alarm: i64,
    /// 4: flow is measured while the fan is on and the damper closed. Else 0.
    pub leaking_damper_alarm: i64,
}

impl Output {
    /// The desk code of the three alarms. 34 leaves open whether `low_airflow_alarm` stands too; every other code tells all three.
    pub fn desk_code(&self) -> u8 {
        desk_code(
            self.low_airflow_alarm,
            self.airflow_sensor_alarm,
            self.leaking_damper_alarm,
        )
    }
}

/// Why a tick was refused: the question that got the first "no", whose number it is. The ends of a range belong to it.
#[derive(Clone, Copy, Debug, PartialEq, Eq, Hash)]
#[repr(u8)]
pub enum Refusal {
    /// `t` is no whole number, or not finite.
    NotWholeSeconds = 1,
    /// `t` is not from 0 to 2,147,483,648.
    TimeOutOfRange = 2,
    /// `t` is before that of the last accepted tick.
    BeforeLast = 3,
    /// `t` is more than 240 after that of the last accepted tick. A clock that goes on is refused so until the box is built afresh.
    TooLongAfterLast = 4,
    /// One of the five temperatures is not from 150.0 to 450.0.
    TemperatureOutOfRange = 5,
    /// A CO2 value is not from 0.0 to 10000.0.
    Co2OutOfRange = 6,
    /// The airflow is not from -10.0 to 10.0.
    AirflowOutOfRange = 7,
}

impl fmt::Display for Refusal {
    fn fmt(&self, f: &mut fmt::Formatter<'_>) -> fmt::Result {
        f.write_str(match self {
            Refusal::NotWholeSeconds => "the time is no whole number of seconds",
            Refusal::TimeOutOfRange => "the time is not from 0 to 2147483648",
            Refusal::BeforeLast => "the time is before that of the last accepted tick",
            Refusal::TooLongAfterLast => {
                "more than 240 seconds after the last accepted tick: build the box afresh"
            }
            Refusal::TemperatureOutOfRange => "a temperature is not from 150 to 450 kelvin",
            Refusal::Co2OutOfRange => "a CO2 value is not from 0 to 10000 parts per million",
            Refusal::AirflowOutOfRange => "the airflow is not from -10 to 10 cubic metres a second",
        })
    }
}

impl Error for Refusal {}

/// Why an alarm does not stand, or that it stands. None of the numbers is that of a refusal or a desk code, 0 apart, which there says that nothing is wrong,
/// and here that the alarm stands.
#[derive(Clone, Copy, Debug, PartialEq, Eq, Hash)]
pub enum NoAlarmReason {
    /// 0. In the outputs of the last accepted tick the alarm is not 0.
    AlarmStands,
    /// 60. No tick was accepted yet.
    NoTick,
    /// 61. The mode is not 1; of the sensor alarm alone.
    NotOccupied,
    /// 62. Of the sensor alarm alone.
    FanOn,
    /// 63. Of the leak alarm alone.
    FanOff,
    /// 64. Of the leak alarm alone.
    DamperNotClosed,
    /// 65.
    FlowNotHigh,
    /// 66. All is there, but for less than 600 seconds; so many of them, from 1 to 600, are lacking at the last accepted tick.
    ///
    /// It is displayed as `held`, without them.
    Held { seconds_lacking: u16 },
}

impl NoAlarmReason {
    /// The number of the reason, as the header has it.
    pub const fn number(self) -> u8 {
        match self {
            NoAlarmReason::AlarmStands => 0,
            NoAlarmReason::NoTick => 60,
            NoAlarmReason::NotOccupied => 61,
            NoAlarmReason::FanOn => 62,
            NoAlarmReason::FanOff => 63,
            NoAlarmReason::DamperNotClosed => 64,
            NoAlarmReason::FlowNotHigh => 65,
            NoAlarmReason::Held { .. } => 66,
        }
    }

    fn from_archive(number: u8, seconds_lacking: u16) -> NoAlarmReason {
        match number {
            0 => NoAlarmReason::AlarmStands,
            60 => NoAlarmReason::NoTick,
            61 => NoAlarmReason::NotOccupied,
            62 => NoAlarmReason::FanOn,
            63 => NoAlarmReason::FanOff,
            64 => NoAlarmReason::DamperNotClosed,
            65 => NoAlarmReason::FlowNotHigh,
            _ => NoAlarmReason::Held { seconds_lacking },
        }
    }
}

impl fmt::Display for NoAlarmReason {
    fn fmt(&self, f: &mut fmt::Formatter<'_>) -> fmt::Result {
        f.write_str(match self {
            NoAlarmReason::AlarmStands => "the alarm stands",
            NoAlarmReason::NoTick => "no tick yet",
            NoAlarmReason::NotOccupied => "mode not 1",
            NoAlarmReason::FanOn => "fan on",
            NoAlarmReason::FanOff => "fan off",
            NoAlarmReason::DamperNotClosed => "damper not closed",
            NoAlarmReason::FlowNotHigh => "flow not high",
            NoAlarmReason::Held { .. } => "held",
        })
    }
}

/// Why there is no airflow sensor alarm, after the last accepted tick. The flag stands beside every reason; before the first accepted tick it is false.
#[derive(Clone, Copy, Debug, PartialEq, Eq, Hash)]
pub struct SensorReason {
    pub reason: NoAlarmReason,
    /// Memory decided whether the flow is high: with the other memory the comparison would have given the other answer.
    pub flow_by_memory: bool,
}

/// Why there is no leaking damper alarm, after the last accepted tick. The flags stand beside every reason; before the first accepted tick they are false.
#[derive(Clone, Copy, Debug, PartialEq, Eq, Hash)]
pub struct LeakReason {
    pub reason: NoAlarmReason,
    /// Memory decided whether the damper is closed.
    pub damper_by_memory: bool,
    /// Memory decided whether the flow is high.
    pub flow_by_memory: bool,
}

/// `SensorReason` as it crosses the boundary.
#[repr(C)]
struct SensorRecord {
    reason: u8,
    seconds_lacking: u16,
    flow_by_memory: bool,
}

/// `LeakReason` likewise.
#[repr(C)]
struct LeakRecord {
    reason: u8,
    seconds_lacking: u16,
    damper_by_memory: bool,
    flow_by_memory: bool,
}

/// What the record holds beside the controller's state. Only the archive reads what it keeps of the last accepted tick.
#[repr(C)]
#[derive(Clone, Copy)]
struct Last {
    present: bool,
    time: f64,
    choices: Choices,
    tick: [MaybeUninit<u64>; 2],
}

/// The record that stands for a box. Only the archive reads its state, whose padding may be unwritten.
#[repr(C)]
#[derive(Clone, Copy)]
struct Record {
    state: [MaybeUninit<u64>; 103],
    last: Last,
}

const _: () =
    assert!(size_of::<Record>() == 888 && size_of::<Tick>() == 112 && size_of::<Output>() == 80);
const _: () = assert!(
    offset_of!(Record, last) == 824
        && offset_of!(Last, time) == 8
        && offset_of!(Last, choices) == 16
        && offset_of!(Last, tick) == 48
);
const _: () = assert!(
    size_of::<Choices>() == 32
        && offset_of!(Choices, design_minimum_flow) == 8
        && offset_of!(Choices, design_cooling_maximum_flow) == 16
        && offset_of!(Choices, second_reading) == 24
);
const _: () = assert!(
    size_of::<SensorRecord>() == 6
        && offset_of!(SensorRecord, seconds_lacking) == 2
        && offset_of!(SensorRecord, flow_by_memory) == 4
);
const _: () = assert!(
    size_of::<LeakRecord>() == 6
        && offset_of!(LeakRecord, seconds_lacking) == 2
        && offset_of!(LeakRecord, damper_by_memory) == 4
        && offset_of!(LeakRecord, flow_by_memory) == 5
);

extern "C" {
    fn air_box_fresh(quiet: bool) -> Record;
    fn air_box_build(record: *mut Record, choices: Choices) -> u8;
    fn air_box_tick(record: *mut Record, tick: *const Tick, output: *mut Output) -> u8;
    fn air_box_sensor_reason(record: *const Record) -> SensorRecord;
    fn air_box_leak_reason(record: *const Record) -> LeakRecord;
    fn air_box_desk_code(low_airflow: i64, airflow_sensor: i64, leaking_damper: i64) -> u8;
}

/// A cooling-only air box, of the choices with which it was built. It may be cloned; the clone goes its own way.
#[derive(Clone)]
pub struct AirBox(Record);

impl AirBox {
    /// A box that has had no tick, with these choices.
    pub fn build(choices: Choices) -> Result<AirBox, BuildRefusal> {
        let mut record = MaybeUninit::zeroed();
        // Of zeros a box may be built. A refusal leaves them, and they are dropped.
        match unsafe { air_box_build(record.as_mut_ptr(), choices) } {
            0 => Ok(AirBox(unsafe { record.assume_init() })),
            _ => Err(BuildRefusal::DesignFlowsOutOfRange),
        }
    }

    /// A box that has had no tick, with the choices of this one.
    pub fn afresh(&self) -> AirBox {
        AirBox::build(self.choices()).expect("choices that built a box")
    }

    /// What the box was built with.
    pub fn choices(&self) -> Choices {
        self.0.last.choices
    }

    /// A box that has had no tick, with a quiet start: the one that a real box takes. Else it has the usual choices.
    pub fn quiet() -> AirBox {
        AirBox(unsafe { air_box_fresh(true) })
    }

    /// A box that has had no tick, with a plain start and else the usual choices.
    pub fn plain() -> AirBox {
        AirBox(unsafe { air_box_fresh(false) })
    }

    /// One tick: the ten outputs, or the refusal, which leaves the box as it was.
    pub fn tick(&mut self, tick: &Tick) -> Result<Output, Refusal> {
        let mut output = MaybeUninit::zeroed();
        // The records are whole and apart, and the box was made by the archive. Zeros are an output.
        let number = unsafe { air_box_tick(&mut self.0, tick, output.as_mut_ptr()) };
        match number {
            0 => Ok(unsafe { output.assume_init() }),
            1 => Err(Refusal::NotWholeSeconds),
            2 => Err(Refusal::TimeOutOfRange),
            3 => Err(Refusal::BeforeLast),
            4 => Err(Refusal::TooLongAfterLast),
            5 => Err(Refusal::TemperatureOutOfRange),
            6 => Err(Refusal::Co2OutOfRange),
            _ => Err(Refusal::AirflowOutOfRange),
        }
    }

    /// Why there is no airflow sensor alarm, after the last accepted tick.
    pub fn sensor_reason(&self) -> SensorReason {
        let told = unsafe { air_box_sensor_reason(&self.0) };
        SensorReason {
            reason: NoAlarmReason::from_archive(told.reason, told.seconds_lacking),
            flow_by_memory: told.flow_by_memory,
        }
    }

    /// Why there is no leaking damper alarm, after the last accepted tick.
    pub fn leak_reason(&self) -> LeakReason {
        let told = unsafe { air_box_leak_reason(&self.0) };
        LeakReason {
            reason: NoAlarmReason::from_archive(told.reason, told.seconds_lacking),
            damper_by_memory: told.damper_by_memory,
            flow_by_memory: told.flow_by_memory,
        }
    }
}

impl fmt::Debug for AirBox {
    fn fmt(&self, f: &mut fmt::Formatter<'_>) -> fmt::Result {
        let last = self.0.last;
        f.debug_struct("AirBox")
            .field("last_time", &last.present.then_some(last.time))
            .field("choices", &last.choices)
            .finish_non_exhaustive()
    }
}

/// The desk code of three alarms, by the first rule that fits: 34 for leak 4, 12 and 13 for low airflow 2 and 3, 23 for sensor 3, else 0.
pub fn desk_code(low_airflow: i64, airflow_sensor: i64, leaking_damper: i64) -> u8 {
    unsafe { air_box_desk_code(low_airflow, airflow_sensor, leaking_damper) }
}
