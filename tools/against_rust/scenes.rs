//! The scenes of which a night is made. Each one brings the box near some of its thresholds.

use crate::Night;
use crate::dice::Dice;
use crate::sizes;
use crate::tick::{Flows, LAST_SECOND, Tick, USUAL};

/// An ordinary occupied hour of a box of the usual size. The temperatures are exact in binary, so that differences are too.
pub const CALM: Tick = Tick {
    start: 0,
    t: 0.0,
    zone: 296.0,
    cooling: 297.0,
    heating: 293.0,
    co2_setpoint: 894.0,
    co2: 600.0,
    discharge: 288.0,
    supply: 287.0,
    flow: 0.5,
    mode: 1,
    airflow: 0,
    damper: 0,
    status: 7,
};

const FAN: u64 = 4;

/// Such an hour of a box of this size.
fn calm(size: Flows) -> Tick {
    Tick { flow: sizes::scaled(size, CALM.flow), ..CALM }
}

pub fn play(night: &mut Night) {
    if night.life == 0 {
        night.restart();
    }
    night.life -= 1;
    // Half of the scenes begin from what the one before has left.
    if night.dice.one_in(2) {
        night.now = calm(night.size);
    }
    if night.builds && night.dice.one_in(if night.second { 3 } else { 12 }) {
        return late_flow(night);
    }
    match night.dice.below(19) {
        0 | 1 => sensor(night),
        2 | 3 => leak(night),
        4 | 5 => starved(night),
        6 => hot(night),
        7 | 8 => setpoint_change(night),
        9 => outdoor_air(night),
        10 => supply_side(night),
        11 => loop_dial(night),
        12 => damper_dial(night),
        17 => zero_gate(night),
        13 => range_ends(night),
        14 => numbers(night),
        15 => zero_and_end_of_time(night),
        16 => noise(night),
        _ => wander(night),
    }
}

/// One tick in four, a flow at or beside an edge of the flow's dead band.
fn at_the_band(size: Flows, now: &mut Tick, dice: &mut Dice) {
    if dice.one_in(4) {
        let high = sizes::high(size);
        now.flow = dice.beside_one_of(&[high, high - 0.01, sizes::kept_high(size), sizes::scaled(size, 0.3)]);
    }
}

/// Fan off and flow high, now and then at the edges of the flow's dead band.
fn sensor(night: &mut Night) {
    night.now.status &= !FAN;
    night.now.mode = 1;
    let size = night.size;
    let [far, above] = [0.3, 0.16].map(|flow| sizes::scaled(size, flow));
    night.now.flow = night.dice.pick(&[far, above, sizes::high(size).next_up(), 10.0]);
    let shaky = night.dice.one_in(2);
    let seconds = night.dice.between(700.0, 1500.0);
    night.run(seconds, |now, dice| {
        if shaky {
            at_the_band(size, now, dice);
        }
        if shaky && dice.one_in(8) {
            now.mode = dice.pick(&[1, 1, 1, 2]);
            now.status ^= dice.pick(&[0, 0, FAN]);
        }
    });
}

/// The fan stops, or is off at a first tick, without high flow; the flow becomes high about ten minutes later, or now and then before. This is what
/// the two readings of the sensor alarm see differently.
fn late_flow(night: &mut Night) {
    night.now.mode = 1;
    for _ in 0..2 {
        if night.last.is_some() || night.dice.one_in(4) {
            night.now.status |= FAN;
            let step = night.dice.pick(&[0.0, 1.0, 60.0]);
            night.step(step);
        }
        night.now.status &= !FAN;
        night.now.flow = flow_not_high(night);
        let step = night.dice.pick(&[0.0, 1.0, 60.0, 240.0]);
        night.step(step);
        let wait = night.dice.pick(&[0.0, 60.0, 598.0, 599.0, 600.0, 601.0]);
        wait_for_flow(night, wait);
        for _ in 0..3 {
            night.now.flow = flow_high(night);
            night.step(1.0);
        }
        come_and_go(night);
    }
}

fn flow_not_high(night: &mut Night) -> f64 {
    let high = sizes::high(night.size);
    night.dice.pick(&[0.0, high - 0.01, (high - 0.01).next_down(), -0.1])
}

fn flow_high(night: &mut Night) -> f64 {
    night.dice.pick(&[sizes::high(night.size).next_up(), sizes::scaled(night.size, 0.3), 10.0])
}

/// So many seconds with the fan off; in some of these waits the flow is high for a while.
fn wait_for_flow(night: &mut Night, seconds: f64) {
    let early = night.dice.one_in(3);
    let mut gone = 0.0;
    while gone < seconds {
        let stride: f64 = night.dice.pick(&[60.0, 120.0, 240.0, 240.0]);
        let step = stride.min(seconds - gone);
        if early {
            night.now.flow = if night.dice.one_in(2) { flow_high(night) } else { flow_not_high(night) };
        }
        night.step(step);
        gone += step;
    }
}

/// Flow out of its dead band and back, another mode, the fan on for a tick.
fn come_and_go(night: &mut Night) {
    for _ in 0..6 {
        let high = sizes::high(night.size);
        night.now.flow = match night.dice.below(4) {
            0 => night.dice.beside_one_of(&[high, high - 0.01, sizes::kept_high(night.size)]),
            1 => flow_not_high(night),
            _ => flow_high(night),
        };
        night.now.mode = night.dice.pick(&[1, 1, 1, 2]);
        night.now.status &= !FAN;
        if night.dice.one_in(12) {
            night.now.status |= FAN;
        }
        let step = night.dice.pick(&[0.0, 1.0, 60.0]);
        night.step(step);
    }
    night.now.mode = 1;
}

/// Fan on, damper shut by its override and flow high.
fn leak(night: &mut Night) {
    night.now.status |= FAN;
    night.now.damper = 1;
    night.now.airflow = night.dice.pick(&[0, 3, 3, 1, 2]);
    let size = night.size;
    let [far, above] = [0.3, 0.16].map(|flow| sizes::scaled(size, flow));
    night.now.flow = night.dice.pick(&[far, above, size.maximum, sizes::high(size).next_up()]);
    let shaky = night.dice.one_in(2);
    let seconds = night.dice.between(700.0, 2500.0);
    night.run(seconds, |now, dice| {
        if shaky {
            at_the_band(size, now, dice);
        }
        if shaky && dice.one_in(8) {
            now.damper = dice.pick(&[1, 1, 0, 2]);
            now.status ^= dice.pick(&[0, 0, FAN]);
        }
    });
}

/// Fan on and less flow than the setpoint asks for, damper open.
fn starved(night: &mut Night) {
    night.now.status = 7;
    night.now.mode = 1;
    night.now.airflow = night.dice.pick(&[2, 3]);
    night.now.damper = night.dice.pick(&[2, 2, 0]);
    let setpoint = sizes::setpoint(night.size, night.now.airflow);
    let sized = night.size != USUAL;
    let (half, seventy) = (0.5 * setpoint, 0.7 * setpoint);
    night.now.flow = night.dice.pick(&[0.0, 0.4, 0.6, 0.6, 0.69, 0.8]) * setpoint;
    let shaky = night.dice.one_in(2);
    let seconds = night.dice.between(600.0, 3600.0);
    night.run(seconds, |now, dice| {
        if shaky && dice.one_in(4) {
            let edges = [half, half + 0.01, seventy, seventy + 0.01, 0.0, -0.0];
            now.flow = dice.beside_one_of(&edges);
        }
        if shaky && dice.one_in(10) {
            now.damper = dice.pick(&[2, 2, 1, 0]);
            now.mode = dice.pick(&[1, 1, 1, 3]);
        }
        // The other setpoint may be one that counts only where it counted before.
        if sized && dice.one_in(10) {
            now.airflow = 5 - now.airflow;
        }
    });
}

/// A zone above its cooling setpoint by the request thresholds.
fn hot(night: &mut Night) {
    night.now.cooling = night.dice.pick(&[297.0, 296.5, 295.25]);
    let edges = [1.75, 2.0, 2.75, 3.0, 2.25, 3.25, 5.0];
    let seconds = night.dice.between(300.0, 2500.0);
    let steady = night.dice.one_in(2);
    night.now.zone = night.now.cooling + night.dice.pick(&edges);
    night.run(seconds, |now, dice| {
        if !steady && dice.one_in(4) {
            let above = dice.pick(&edges);
            now.zone = dice.beside(now.cooling + above);
        }
    });
}

/// A setpoint that moves on the sampling grid, followed to the end of the suppression window.
fn setpoint_change(night: &mut Night) {
    let change = night.dice.pick(&[0.125, 0.25, 0.25, 0.5, 1.0, -0.5, -2.0]);
    let apart = night
        .dice
        .pick(&[0.0, 0.5, 1.0, 2.25, 2.5, 3.125, 3.25, 3.5, 4.0, 10.0]);
    night.now.cooling = 297.0;
    night.now.zone = 297.0 + change + apart;
    for _ in 0..4 {
        step_to_grid(night, 0.0);
    }
    night.now.cooling = night.dice.beside(297.0 + change);
    step_to_grid(night, 0.0);
    let before_end = (540.0 * apart).min(1800.0).floor() - 1.0;
    let mut gone = 0.0;
    while gone < before_end {
        let stride: f64 = night.dice.pick(&[60.0, 120.0, 240.0, 240.0]);
        let step = stride.min(before_end - gone);
        if night.dice.one_in(20) {
            night.now.cooling += 1.0;
        }
        night.step(step);
        gone += step;
    }
    for _ in 0..4 {
        night.step(1.0);
    }
}

/// To the next multiple of 120 s, or so many seconds beside it.
fn step_to_grid(night: &mut Night, beside: f64) {
    let last = night.last.unwrap_or(night.first);
    night.step(120.0 - last % 120.0 + beside);
}

/// CO2 about its line, window and occupancy switched.
fn outdoor_air(night: &mut Night) {
    let setpoints = [894.0, 894.0, 200.0, 199.5, 100.0, 0.0, -0.0, 10000.0];
    night.now.co2_setpoint = night.dice.pick(&setpoints);
    night.now.mode = 1;
    night.run(900.0, |now, dice| {
        let end = now.co2_setpoint;
        if dice.one_in(2) {
            let edges = [
                end - 200.0,
                end,
                end - 150.0,
                end - 100.0,
                0.0,
                -0.0,
                5e-324,
                10000.0,
            ];
            now.co2 = dice.beside_one_of(&edges).max(-0.0);
        }
        if dice.one_in(4) {
            now.status ^= dice.pick(&[1, 2, 3]);
            now.mode = dice.pick(&[1, 1, 1, 2]);
        }
    });
}

/// Supply and discharge air about the zone's temperature, the zone being cooled.
fn supply_side(night: &mut Night) {
    night.now = Tick {
        zone: 300.0,
        cooling: 294.0,
        ..calm(night.size)
    };
    night.now.mode = night.dice.pick(&[1, 1, 2, 3]);
    night.run(1500.0, |now, dice| {
        if dice.one_in(2) {
            now.supply = dice.beside_one_of(&[now.zone, now.zone - 0.25, 287.0]);
        }
        if dice.one_in(2) {
            now.discharge = dice.beside_one_of(&[now.zone, now.zone + 0.25, 288.0]);
        }
    });
}

/// Both loops set to a wanted output: a loop that is switched on takes minus its proportional part
/// as integrator, so the output is a tenth of how far the error has moved since.
fn loop_dial(night: &mut Night) {
    let zone = 295.0;
    night.now = Tick {
        zone,
        cooling: 300.0,
        heating: 290.0,
        supply: 280.0,
        ..calm(night.size)
    };
    night.now.mode = night.dice.pick(&[1, 2, 3]);
    step_to_grid(night, 0.0);
    let (cold, warm) = (
        night.dice.pick(&[0.5, 1.0, 4.0]),
        night.dice.pick(&[0.5, 1.0, 4.0]),
    );
    night.now.cooling = zone - cold;
    if night.dice.one_in(2) {
        night.now.heating = zone + warm;
    }
    step_to_grid(night, -1.0);
    let wanted = [0.0, 0.01, 0.018, 0.05, 0.94, 0.95, 1.0, 0.5];
    for _ in 0..8 {
        let cooling = night.dice.pick(&wanted);
        night.now.cooling = night.dice.beside(zone - cold - 10.0 * cooling);
        if night.now.heating > zone {
            let heating = cooling + night.dice.pick(&[-0.01, 0.0, 0.01, 0.05]);
            night.now.heating = night.dice.beside(zone + warm + 10.0 * heating);
        }
        let step = night.dice.pick(&[0.0, 0.0, 1.0, 1.0, 30.0, 120.0]);
        night.step(step);
    }
}

/// A loop that is off and close to zero is cut to zero after 30 s. This shows only in whether
/// heating or cooling wins a later tie, so the tie is set up here: one loop is cut, the other free.
fn zero_gate(night: &mut Night) {
    let swapped = night.dice.one_in(2);
    let set = |night: &mut Night, cut: f64, free: f64| {
        let (cooling, heating) = if swapped { (free, cut) } else { (cut, free) };
        night.now.cooling = night.now.zone - cooling;
        night.now.heating = night.now.zone + heating;
    };
    night.now = calm(night.size);
    night.now.supply = 280.0;
    night.now.mode = night.dice.pick(&[1, 2, 3]);
    set(night, -5.0, -5.0);
    night.step(60.0);
    set(night, 0.0625, 0.0625);
    night.step(60.0);
    set(night, 4.0, 1.0);
    night.step(115.0);
    // Where the two integrators are now; an output is this and a tenth of the error.
    let cut = -0.00625 + 0.1 / 900.0 * 4.0 * 115.0;
    let free = -0.00625 + 0.1 / 900.0 * 115.0;
    let near_zero = night.dice.pick(&[0.005, 0.0095, 0.0105]);
    set(night, 10.0 * (near_zero - cut), 0.0);
    night.step(1.0);
    let kept = night.dice.pick(&[0.005, 0.0175, 0.0185]);
    set(night, 10.0 * (kept - cut), 10.0 * (0.0125 - free));
    let wait = night.dice.pick(&[28.0, 29.0, 30.0, 31.0]);
    night.step(wait);
    set(night, 10.0 * (0.1 - cut), 10.0 * (0.1 - free));
    night.step(1.0);
}

/// A damper set to a wanted command: the fan's rise at setpoint 0 leaves 0.01 and half of the flow's
/// share of the maximum in the integrator, and with the flow at its setpoint the command then stands
/// still there. The largest boxes take no flow that high.
fn damper_dial(night: &mut Night) {
    let size = night.size;
    night.now = calm(night.size);
    night.now.airflow = 1;
    night.now.status &= !FAN;
    night.step(60.0);
    let command = night.dice.pick(&[0.0, 0.01, 0.01, 0.015, 0.94, 0.95, 1.0]);
    night.now.flow = night.dice.beside(2.0 * size.maximum * (command - 0.01)).min(10.0);
    if command == 0.01 {
        // At the usual size a third of this is the last bit of 0.01.
        night.now.flow = sizes::scaled(size, 5.2e-18) * night.dice.pick(&[-2.0, -1.0, 0.0, 1.0, 2.0]);
    }
    night.now.status |= FAN;
    night.step(1.0);
    night.now.airflow = night.dice.pick(&[1, 2, 3, 3]);
    let setpoint = sizes::setpoint(size, night.now.airflow);
    night.now.flow = setpoint;
    let shaky = night.dice.one_in(2);
    night.run(900.0, |now, dice| {
        if shaky && dice.one_in(3) {
            let step = sizes::scaled(size, 0.015);
            now.flow = dice.beside_one_of(&[setpoint, setpoint - step, setpoint + step]);
        }
    });
}

/// Readings at the ends of their ranges, subnormal ones among them.
fn range_ends(night: &mut Night) {
    let temperatures = [150.0, 450.0, 150f64.next_up(), 450f64.next_down(), 300.0];
    let carbon = [0.0, -0.0, 5e-324, 10000.0, 10000f64.next_down(), 1e-310];
    let flows = [
        -10.0,
        10.0,
        0.0,
        -0.0,
        5e-324,
        -5e-324,
        1e-310,
        10f64.next_down(),
    ];
    night.run(1200.0, |now, dice| {
        let which = dice.below(5);
        if dice.one_in(3) {
            *crate::temperature(now, which) = dice.pick(&temperatures);
        }
        if dice.one_in(4) {
            now.co2 = dice.pick(&carbon);
            now.co2_setpoint = dice.pick(&carbon);
        }
        if dice.one_in(3) {
            now.flow = dice.pick(&flows);
        }
    });
    night.now = calm(night.size);
}

/// Modes and overrides of any number.
fn numbers(night: &mut Night) {
    night.run(900.0, |now, dice| match dice.below(4) {
        0 => now.mode = dice.number(),
        1 => now.airflow = dice.number(),
        2 => now.damper = dice.number(),
        _ => now.status = dice.below(8),
    });
    night.now = calm(night.size);
}

/// Zeros of both signs at time zero, or the last seconds that are taken.
fn zero_and_end_of_time(night: &mut Night) {
    night.restart();
    night.life = 1;
    night.first = 0.0;
    if night.dice.one_in(2) {
        night.first = LAST_SECOND - night.dice.below(1500) as f64;
    }
    for _ in 0..8 {
        night.now.status ^= night.dice.pick(&[0, 0, FAN]);
        night.now.flow = night.dice.pick(&[0.0, -0.0, sizes::scaled(night.size, CALM.flow), 5e-324, -5e-324]);
        night.step(0.0);
    }
    night.run(1500.0, |_, _| {});
}

/// Readings of any bits, most of which are refused.
fn noise(night: &mut Night) {
    for _ in 0..12 {
        night.now = calm(night.size);
        for _ in 0..1 + night.dice.below(2) {
            let odd = if night.dice.one_in(2) {
                night.dice.odd()
            } else {
                f64::from_bits(night.dice.word())
            };
            match night.dice.below(8) {
                5 => night.now.co2 = odd,
                6 => night.now.co2_setpoint = odd,
                7 => night.now.flow = odd,
                which => *crate::temperature(&mut night.now, which) = odd,
            }
        }
        night.step(60.0);
    }
    night.now = calm(night.size);
}

/// Everything drifts.
fn wander(night: &mut Night) {
    let [least, step, most] = [-0.1, 0.2, 1.8].map(|flow| sizes::scaled(night.size, flow).min(10.0));
    night.run(6000.0, |now, dice| {
        now.zone = (now.zone + dice.between(-0.5, 0.5)).clamp(285.0, 310.0);
        now.flow = (now.flow + dice.between(-step, step)).clamp(least, most);
        now.co2 = (now.co2 + dice.between(-60.0, 60.0)).clamp(400.0, 1200.0);
        now.discharge = (now.discharge + dice.between(-0.5, 0.5)).clamp(285.0, 305.0);
        now.supply = (now.supply + dice.between(-0.5, 0.5)).clamp(285.0, 305.0);
        match dice.below(30) {
            0 => now.cooling = dice.between(294.0, 299.0),
            1 => now.heating = dice.between(290.0, 297.0),
            2 => now.status = dice.below(8),
            3 => now.mode = dice.pick(&[1, 1, 1, 2, 3, 4]),
            4 => now.airflow = dice.pick(&[0, 0, 1, 2, 3]),
            5 => now.damper = dice.pick(&[0, 0, 1, 2]),
            _ => {}
        }
    });
}
