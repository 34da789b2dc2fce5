//! What a user of the wrapper relies on: refusals change nothing and say why, a box past its time is built afresh, the starts differ, sizes and their
//! ranges, the two readings, the desk codes, the reasons why there is no alarm.

use air_box::{
    desk_code, AirBox, BuildRefusal, Choices, Input, LeakReason, NoAlarmReason, Output, Refusal,
    SensorReason, Tick,
};

fn at(t: f64) -> Tick {
    Tick {
        t,
        input: Input {
            zone_temperature: 296.0,
            cooling_setpoint: 297.0,
            heating_setpoint: 293.0,
            window_status: true,
            occupancy_status: true,
            operating_mode: 1,
            co2_setpoint: 894.0,
            co2_concentration: 600.0,
            discharge_air_temperature: 288.0,
            supply_air_temperature: 287.0,
            discharge_airflow: 0.75,
            airflow_override_index: 2,
            damper_override_index: 0,
            supply_fan_status: true,
        },
    }
}

fn sized(design_minimum_flow: f64, design_cooling_maximum_flow: f64) -> Choices {
    Choices {
        design_minimum_flow,
        design_cooling_maximum_flow,
        ..Choices::usual(false)
    }
}

/// The number that a positive one becomes by so many steps of its last bit.
fn beside(x: f64, steps: i64) -> f64 {
    f64::from_bits(x.to_bits().wrapping_add_signed(steps))
}

#[test]
fn the_ends_of_the_design_flows_belong_to_them() {
    let ends = [(0.0, 0.1), (0.1, 0.1), (0.0, 10.0), (10.0, 10.0)];
    let within = [
        (5e-324, beside(0.1, 1)),
        (beside(10.0, -1), 10.0),
        (beside(1.5, -1), 1.5),
        (-0.0, beside(10.0, -1)),
    ];
    for (minimum, maximum) in ends.into_iter().chain(within) {
        let choices = sized(minimum, maximum);
        assert_eq!(AirBox::build(choices).expect("in range").choices(), choices);
    }
}

#[test]
fn design_flows_out_of_range_are_refused() {
    let outside = [
        (0.0, beside(0.1, -1)),
        (0.5, beside(10.0, 1)),
        (-5e-324, 1.5),
        (beside(1.5, 1), 1.5),
        (1.5, 0.5),
        (0.0, 0.0),
        (-1.0, -1.0),
    ];
    let odd = [f64::NAN, -f64::NAN, f64::INFINITY, f64::NEG_INFINITY];
    let maxima = odd.map(|maximum| (0.5, maximum));
    let minima = odd.map(|minimum| (minimum, 1.5));
    for (minimum, maximum) in outside.into_iter().chain(maxima).chain(minima) {
        let refusal = AirBox::build(sized(minimum, maximum)).expect_err("out of range");
        assert_eq!(refusal, BuildRefusal::DesignFlowsOutOfRange);
    }
    assert_eq!(BuildRefusal::DesignFlowsOutOfRange as u8, 8);
    let error: Box<dyn std::error::Error> = Box::new(BuildRefusal::DesignFlowsOutOfRange);
    assert!(error.to_string().contains("not from 0.1 to 10"));
}

#[test]
fn overrides_give_the_design_flows_as_they_came() {
    let setpoint = |minimum: f64, maximum: f64, index: i64| {
        let mut tick = at(0.0);
        tick.input.airflow_override_index = index;
        let mut air_box = AirBox::build(sized(minimum, maximum)).expect("in range");
        air_box.tick(&tick).expect("accepted").airflow_setpoint
    };
    assert_eq!((setpoint(0.2, 0.6, 2), setpoint(0.2, 0.6, 3)), (0.6, 0.2));
    assert_eq!(setpoint(-0.0, 1.5, 3).to_bits(), (-0.0f64).to_bits());
}

#[test]
fn a_box_built_without_design_flows_has_the_usual_ones() {
    let usual = |quiet: bool| Choices {
        quiet,
        design_minimum_flow: 0.5,
        design_cooling_maximum_flow: 1.5,
        second_reading: false,
    };
    assert_eq!(AirBox::plain().choices(), usual(false));
    let quiet = AirBox::quiet().choices();
    assert_eq!(quiet, usual(true));
    assert_eq!([false, true].map(Choices::usual), [false, true].map(usual));
    let (mut built, mut fresh) = (AirBox::build(quiet).expect("usual"), AirBox::quiet());
    for minute in 0..60 {
        let mut tick = at(f64::from(minute) * 60.0);
        tick.input.discharge_airflow = f64::from(minute % 7) * 0.3;
        tick.input.airflow_override_index = i64::from(minute / 10);
        assert_eq!(built.tick(&tick), fresh.tick(&tick));
    }
}

#[test]
fn the_size_stays_with_the_box() {
    let choices = Choices {
        quiet: true,
        ..sized(0.2, 0.6)
    };
    let mut air_box = AirBox::build(choices).expect("in range");
    air_box.tick(&at(0.0)).expect("accepted");
    assert_eq!(air_box.choices(), choices);
    assert_eq!(air_box.tick(&at(300.0)), Err(Refusal::TooLongAfterLast));
    assert_eq!(air_box.choices(), choices);
    air_box = air_box.afresh();
    let output = air_box.tick(&at(300.0)).expect("accepted");
    assert_eq!((output.airflow_setpoint, air_box.choices()), (0.6, choices));
}

/// What boxes of this start, with the first and with the second reading, give for the same ticks with the fan off: a time, a mode and a flow each.
fn both_readings<const N: usize>(quiet: bool, ticks: [(f64, i64, f64); N]) -> [[Output; N]; 2] {
    [false, true].map(|second_reading| {
        let choices = Choices {
            second_reading,
            ..Choices::usual(quiet)
        };
        let mut air_box = AirBox::build(choices).expect("the usual size");
        ticks.map(|(t, mode, flow)| {
            let mut tick = at(t);
            tick.input.operating_mode = mode;
            tick.input.discharge_airflow = flow;
            tick.input.supply_fan_status = false;
            air_box.tick(&tick).expect("accepted")
        })
    })
}

fn sensor_alarms<const N: usize>(outputs: [Output; N]) -> [i64; N] {
    outputs.map(|output| output.airflow_sensor_alarm)
}

#[test]
fn two_ticks_tell_the_readings_apart() {
    let [first, second] = both_readings(false, [(0.0, 1, 0.0), (60.0, 1, 0.3)]);
    assert_eq!(sensor_alarms(first), [0, 0]);
    assert_eq!(sensor_alarms(second), [0, 3]);
    assert_eq!(second[1].desk_code(), 23);
    for (first, mut second) in first.into_iter().zip(second) {
        second.airflow_sensor_alarm = first.airflow_sensor_alarm;
        assert_eq!(first, second);
    }
}

#[test]
fn the_second_reading_asks_for_the_flow_and_the_mode_of_now() {
    let ticks = [
        (0.0, 1, 0.3),
        (60.0, 2, 0.3),
        (120.0, 1, 0.1),
        (180.0, 1, 0.3),
    ];
    let [first, second] = both_readings(false, ticks);
    assert_eq!(sensor_alarms(first), [3, 0, 0, 0]);
    assert_eq!(sensor_alarms(second), [3, 0, 0, 3]);
}

#[test]
fn with_a_quiet_start_the_second_reading_waits_from_the_first_tick() {
    let ticks = [
        (0.0, 1, 0.0),
        (240.0, 1, 0.3),
        (480.0, 1, 0.3),
        (599.0, 1, 0.3),
        (600.0, 1, 0.3),
        (839.0, 1, 0.3),
        (840.0, 1, 0.3),
    ];
    let [first, second] = both_readings(true, ticks);
    assert_eq!(sensor_alarms(first), [0, 0, 0, 0, 0, 0, 3]);
    assert_eq!(sensor_alarms(second), [0, 0, 0, 0, 3, 3, 3]);
}

#[test]
fn the_reading_stays_with_the_box() {
    for second_reading in [false, true] {
        let choices = Choices {
            second_reading,
            ..sized(0.2, 0.6)
        };
        let mut air_box = AirBox::build(choices).expect("in range");
        air_box.tick(&at(0.0)).expect("accepted");
        assert_eq!(air_box.choices(), choices);
        assert_eq!(air_box.tick(&at(300.0)), Err(Refusal::TooLongAfterLast));
        air_box = air_box.afresh();
        air_box.tick(&at(300.0)).expect("accepted");
        assert_eq!(air_box.choices(), choices);
    }
}

#[test]
fn first_tick_with_override_two() {
    let output = AirBox::plain().tick(&at(0.0)).expect("accepted");
    assert_eq!(
        (output.airflow_setpoint, output.damper_command),
        (1.5, 0.25)
    );
}

#[test]
fn refusals_give_their_reason_and_change_nothing() {
    let mut air_box = AirBox::plain();
    air_box.tick(&at(1000.0)).expect("accepted");
    let mut beside = air_box.clone();
    assert_eq!(air_box.tick(&at(0.5)), Err(Refusal::NotWholeSeconds));
    assert_eq!(air_box.tick(&at(-1.0)), Err(Refusal::TimeOutOfRange));
    assert_eq!(air_box.tick(&at(999.0)), Err(Refusal::BeforeLast));
    assert_eq!(air_box.tick(&at(1241.0)), Err(Refusal::TooLongAfterLast));
    let mut cold = at(1060.0);
    cold.input.zone_temperature = f64::NAN;
    assert_eq!(air_box.tick(&cold), Err(Refusal::TemperatureOutOfRange));
    for t in [1240.0, 1300.0, 1540.0] {
        assert_eq!(air_box.tick(&at(t)), beside.tick(&at(t)));
    }
}

#[test]
fn low_alarm_after_power_up_and_after_a_fan_start() {
    let first = |mut air_box: AirBox, fan_on_from: f64| {
        (0..60).map(|minute| minute as f64 * 60.0).find(|&t| {
            let mut tick = at(t);
            tick.input.discharge_airflow = 0.0;
            tick.input.supply_fan_status = t >= fan_on_from;
            air_box.tick(&tick).expect("accepted").low_airflow_alarm != 0
        })
    };
    // A fan that is on at the first tick is armed there, with either start.
    assert_eq!(first(AirBox::plain(), 0.0), Some(0.0));
    assert_eq!(first(AirBox::quiet(), 0.0), Some(300.0));
    // One that comes on later is armed after 1800 seconds.
    assert_eq!(first(AirBox::plain(), 60.0), Some(2160.0));
    assert_eq!(first(AirBox::quiet(), 60.0), Some(2160.0));
}

#[test]
fn desk_codes() {
    let alarms = [
        (2, 3, 4),
        (0, 0, 4),
        (2, 3, 0),
        (3, 3, 0),
        (0, 3, 0),
        (0, 0, 0),
        (4, 2, 3),
        (7, -1, 12),
    ];
    let codes = alarms.map(|(low, sensor, leak)| desk_code(low, sensor, leak));
    assert_eq!(codes, [34, 34, 12, 13, 23, 0, 0, 0]);
}

#[test]
fn an_output_has_its_desk_code() {
    let mut tick = at(0.0);
    tick.input.discharge_airflow = 0.0;
    let output = AirBox::plain().tick(&tick).expect("accepted");
    assert_eq!((output.low_airflow_alarm, output.desk_code()), (2, 12));
}

#[test]
fn the_leak_comes_first() {
    let mut tick = at(0.0);
    tick.input.airflow_override_index = 3;
    tick.input.damper_override_index = 1;
    tick.input.discharge_airflow = 0.3;
    let output = AirBox::plain().tick(&tick).expect("accepted");
    let alarms = (output.low_airflow_alarm, output.leaking_damper_alarm);
    assert_eq!((alarms, output.desk_code()), ((3, 4), 34));
}

/// A tick that only the alarms of this test look at: the fan, the mode and the flow, the damper overridden by this index.
fn alarm_tick(t: f64, fan: bool, mode: i64, flow: f64, damper: i64) -> Tick {
    let mut tick = at(t);
    tick.input.supply_fan_status = fan;
    tick.input.operating_mode = mode;
    tick.input.discharge_airflow = flow;
    tick.input.damper_override_index = damper;
    tick
}

fn held(seconds_lacking: u16) -> NoAlarmReason {
    NoAlarmReason::Held { seconds_lacking }
}

/// The reasons of the box after each of these ticks, of the alarm that is asked.
fn after_each<const N: usize>(
    mut air_box: AirBox,
    ticks: [Tick; N],
    asked: fn(&AirBox) -> NoAlarmReason,
) -> [NoAlarmReason; N] {
    ticks.map(|tick| {
        air_box.tick(&tick).expect("accepted");
        asked(&air_box)
    })
}

fn sensor(air_box: &AirBox) -> NoAlarmReason {
    air_box.sensor_reason().reason
}

fn leak(air_box: &AirBox) -> NoAlarmReason {
    air_box.leak_reason().reason
}

#[test]
fn a_box_without_a_tick_says_so() {
    let second = AirBox::build(Choices {
        second_reading: true,
        ..sized(0.2, 0.6)
    });
    for mut air_box in [
        AirBox::quiet(),
        AirBox::plain(),
        second.expect("in range"),
        AirBox::quiet().afresh(),
    ] {
        for _ in 0..2 {
            let sensor = SensorReason {
                reason: NoAlarmReason::NoTick,
                flow_by_memory: false,
            };
            let leak = LeakReason {
                reason: NoAlarmReason::NoTick,
                damper_by_memory: false,
                flow_by_memory: false,
            };
            assert_eq!(
                (air_box.sensor_reason(), air_box.leak_reason()),
                (sensor, leak)
            );
            air_box.tick(&at(0.5)).expect_err("refused");
        }
    }
}

#[test]
fn the_first_reason_of_the_sensor_alarm_that_is_true() {
    let ticks = [
        alarm_tick(0.0, true, 2, 0.0, 0),
        alarm_tick(60.0, true, 1, 0.0, 0),
        alarm_tick(120.0, false, 1, 0.0, 0),
        alarm_tick(180.0, false, 1, 0.3, 0),
        // The mode is left aside in the ten minutes.
        alarm_tick(300.0, false, 2, 0.3, 0),
        alarm_tick(540.0, false, 1, 0.3, 0),
        alarm_tick(779.0, false, 1, 0.3, 0),
        alarm_tick(780.0, false, 1, 0.3, 0),
    ];
    let reasons = [
        NoAlarmReason::NotOccupied,
        NoAlarmReason::FanOn,
        NoAlarmReason::FlowNotHigh,
        held(600),
        NoAlarmReason::NotOccupied,
        held(240),
        held(1),
        NoAlarmReason::AlarmStands,
    ];
    for air_box in [AirBox::quiet(), AirBox::plain()] {
        assert_eq!(after_each(air_box, ticks, sensor), reasons);
    }
}

#[test]
fn the_first_reason_of_the_leak_alarm_that_is_true() {
    let ticks = [
        alarm_tick(0.0, false, 7, 0.3, 2),
        alarm_tick(60.0, true, 7, 0.0, 2),
        alarm_tick(120.0, true, 7, 0.0, 1),
        alarm_tick(180.0, true, 7, 0.3, 1),
        alarm_tick(419.0, true, 1, 0.3, 1),
        alarm_tick(659.0, true, 7, 0.3, 1),
        alarm_tick(780.0, true, 7, 0.3, 1),
    ];
    let reasons = [
        NoAlarmReason::FanOff,
        NoAlarmReason::DamperNotClosed,
        NoAlarmReason::FlowNotHigh,
        held(600),
        held(361),
        held(121),
        NoAlarmReason::AlarmStands,
    ];
    for air_box in [AirBox::quiet(), AirBox::plain()] {
        assert_eq!(after_each(air_box, ticks, leak), reasons);
    }
}

#[test]
fn what_is_there_from_the_first_tick_on_is_held_with_a_quiet_start_alone() {
    let reasons = |air_box: AirBox| {
        let off = [0.0, 60.0].map(|t| alarm_tick(t, false, 1, 0.3, 1));
        let on = [0.0, 60.0].map(|t| alarm_tick(t, true, 1, 0.3, 1));
        (
            after_each(air_box.clone(), off, sensor),
            after_each(air_box, on, leak),
        )
    };
    let waits = [held(600), held(540)];
    assert_eq!(reasons(AirBox::quiet()), (waits, waits));
    let stands = [NoAlarmReason::AlarmStands; 2];
    assert_eq!(reasons(AirBox::plain()), (stands, stands));
}

#[test]
fn with_the_second_reading_the_seconds_run_from_the_fans_stop() {
    let ticks = [
        alarm_tick(0.0, true, 1, 0.0, 0),
        alarm_tick(60.0, false, 1, 0.0, 0),
        alarm_tick(240.0, false, 1, 0.3, 0),
        alarm_tick(480.0, false, 1, 0.3, 0),
        alarm_tick(659.0, false, 1, 0.0, 0),
        alarm_tick(660.0, false, 1, 0.3, 0),
    ];
    let reasons = [false, true].map(|second_reading| {
        let choices = Choices {
            second_reading,
            ..Choices::usual(true)
        };
        let air_box = AirBox::build(choices).expect("the usual size");
        after_each(air_box, ticks, sensor)
    });
    let (fan_on, not_high) = (NoAlarmReason::FanOn, NoAlarmReason::FlowNotHigh);
    let first = [fan_on, not_high, held(600), held(360), not_high, held(600)];
    let stands = NoAlarmReason::AlarmStands;
    let second = [fan_on, not_high, held(420), held(180), not_high, stands];
    assert_eq!(reasons, [first, second]);
}

#[test]
fn a_refused_tick_changes_no_reason() {
    let mut air_box = AirBox::quiet();
    air_box
        .tick(&alarm_tick(0.0, false, 1, 0.3, 0))
        .expect("accepted");
    air_box
        .tick(&alarm_tick(60.0, false, 1, 0.145, 0))
        .expect("accepted");
    let before = (air_box.sensor_reason(), air_box.leak_reason());
    assert_eq!(
        (before.0.reason, before.0.flow_by_memory),
        (held(540), true)
    );
    for t in [0.5, -1.0, 59.0, 301.0] {
        air_box
            .tick(&alarm_tick(t, true, 2, 0.0, 0))
            .expect_err("refused");
        assert_eq!((air_box.sensor_reason(), air_box.leak_reason()), before);
    }
    // Nor is a fan that was on at refused ticks a fall.
    air_box
        .tick(&alarm_tick(120.0, false, 1, 0.145, 0))
        .expect("accepted");
    assert_eq!(sensor(&air_box), held(480));
}

#[test]
fn each_flag_is_of_its_own_dead_band() {
    // Flow is high above 0.15 and stays so above 0.14.
    let flags = |before: f64, flow: f64| {
        let mut air_box = AirBox::quiet();
        for (t, flow) in [(0.0, before), (60.0, flow)] {
            air_box
                .tick(&alarm_tick(t, true, 1, flow, 1))
                .expect("accepted");
        }
        let leak = air_box.leak_reason();
        assert_eq!(air_box.sensor_reason().flow_by_memory, leak.flow_by_memory);
        (leak.reason, leak.damper_by_memory, leak.flow_by_memory)
    };
    let not_high = NoAlarmReason::FlowNotHigh;
    assert_eq!(flags(0.3, 0.3), (held(540), false, false));
    assert_eq!(flags(0.3, 0.145), (held(540), false, true));
    assert_eq!(flags(0.3, 0.139), (not_high, false, false));
    assert_eq!(flags(0.0, 0.145), (not_high, false, true));
    assert_eq!(flags(0.0, 0.3), (held(600), false, false));
    // A command from 0.01 to below 0.015 is closed where it was: the damper's loop opens slowly from 0.
    let mut air_box = AirBox::quiet();
    let mut by_memory = 0;
    for second in 0..1200 {
        let mut tick = alarm_tick(f64::from(second), true, 7, 0.0, 0);
        tick.input.airflow_override_index = 0;
        tick.input.discharge_airflow = -0.01;
        let command = air_box.tick(&tick).expect("accepted").damper_command;
        let leak = air_box.leak_reason();
        let band = (0.01..0.015).contains(&command);
        assert_eq!((leak.damper_by_memory, leak.flow_by_memory), (band, false));
        by_memory += u32::from(band);
    }
    assert!(by_memory > 0);
}

#[test]
fn reasons_have_numbers_and_words() {
    let reasons = [
        (NoAlarmReason::AlarmStands, 0, "the alarm stands"),
        (NoAlarmReason::NoTick, 60, "no tick yet"),
        (NoAlarmReason::NotOccupied, 61, "mode not 1"),
        (NoAlarmReason::FanOn, 62, "fan on"),
        (NoAlarmReason::FanOff, 63, "fan off"),
        (NoAlarmReason::DamperNotClosed, 64, "damper not closed"),
        (NoAlarmReason::FlowNotHigh, 65, "flow not high"),
        (held(540), 66, "held"),
    ];
    for (reason, number, words) in reasons {
        assert_eq!((reason.number(), &*reason.to_string()), (number, words));
    }
}

#[test]
fn a_box_past_its_time_takes_ticks_again_once_built_afresh() {
    let mut air_box = AirBox::quiet();
    air_box.tick(&at(0.0)).expect("accepted");
    for t in [241.0, 300.0, 36_000.0] {
        assert_eq!(air_box.tick(&at(t)), Err(Refusal::TooLongAfterLast));
    }
    air_box = air_box.afresh();
    air_box.tick(&at(36_060.0)).expect("accepted");
}

#[test]
fn a_refusal_is_an_error_that_says_why() {
    let refusal: Box<dyn std::error::Error> =
        Box::new(AirBox::plain().tick(&at(0.5)).expect_err("refused"));
    assert_eq!(
        refusal.to_string(),
        "the time is no whole number of seconds"
    );
    assert_eq!(Refusal::AirflowOutOfRange as u8, 7);
}

#[test]
fn debug_shows_the_last_time_and_the_choices() {
    const CHOICES: &str =
        "choices: Choices { quiet: true, design_minimum_flow: 0.5, design_cooling_maximum_flow: 1.5, second_reading: false }";
    let mut air_box = AirBox::quiet();
    let fresh = format!("AirBox {{ last_time: None, {CHOICES}, .. }}");
    assert_eq!(format!("{air_box:?}"), fresh);
    air_box.tick(&at(60.0)).expect("accepted");
    let ticked = format!("AirBox {{ last_time: Some(60.0), {CHOICES}, .. }}");
    assert_eq!(format!("{air_box:?}"), ticked);
}
