//! The port's archive: its records as `include/air_box.h` declares them, and its functions.
#![allow(dead_code)]

use std::mem::offset_of;

use crate::answer::{Answer, input_of};
use crate::fields::{Fields, Place, Value, fields_of};
use crate::tick::{Building, Tick};

macro_rules! c_struct {
    ($record:ident { $($name:ident: $type:ty,)* }) => {
        #[repr(C)]
        #[derive(Clone, Copy)]
        pub struct $record { $(pub $name: $type),* }
    };
}

/// A struct of the header, with its fields. A flag is a byte here.
macro_rules! record {
    // A time or none is one field, not two.
    (AirBoxOptionalTime $fields:tt) => { c_struct! { AirBoxOptionalTime $fields } };
    ($record:ident $fields:tt) => {
        c_struct! { $record $fields }
        fields_of! { $record $fields }
    };
}

// Written by the build from the header: each struct, and its assertions of sizes and offsets.
include!(env!("PORT_RECORDS"));

// The archive writes its output where the driver has an answer.
const _: () = assert!(size_of::<Answer>() == size_of::<AirBoxOutput>());
const _: () = assert!(offset_of!(Answer, integers) == offset_of!(AirBoxOutput, zone_temperature_reset_request));

impl Fields for AirBoxOptionalTime {
    fn places(path: &str, at: usize, places: &mut Vec<Place>) {
        let time = at + offset_of!(AirBoxOptionalTime, time);
        places.push(Place::new(path, [at].into_iter().chain(time..time + 8)));
    }

    fn values(&self, values: &mut Vec<Value>) {
        values.push(match self.present {
            0 => Value::time(None),
            1 => Value::time(Some(self.time)),
            odd => Value::Flag(odd),
        });
    }
}

unsafe extern "C" {
    fn air_box_fresh(quiet: bool) -> AirBox;
    fn air_box_build(record: *mut AirBox, choices: AirBoxChoices) -> u8;
    fn air_box_tick(record: *mut AirBox, tick: *const AirBoxTick, output: *mut Answer) -> u8;
}

impl AirBox {
    pub fn fresh(quiet: bool) -> AirBox {
        unsafe { air_box_fresh(quiet) }
    }

    /// 0, and the box is the one that was asked for; or the number of the refusal.
    pub fn build(&mut self, building: &Building) -> u8 {
        let choices = AirBoxChoices {
            quiet: u8::from(building.start == 2),
            design_minimum_flow: building.flows.minimum,
            design_cooling_maximum_flow: building.flows.maximum,
            second_reading: building.second().into(),
        };
        unsafe { air_box_build(self, choices) }
    }

    /// Every byte of the record, padding among them.
    pub fn bytes(&self) -> &[u8] {
        unsafe { std::slice::from_raw_parts((&raw const *self).cast(), size_of::<AirBox>()) }
    }

    /// 0, or the number of the refusal; the output is written only by an accepted tick.
    pub fn tick(&mut self, tick: &AirBoxTick, output: &mut Answer) -> u8 {
        unsafe { air_box_tick(self, tick, output) }
    }
}

pub fn port_tick(tick: &Tick) -> AirBoxTick {
    AirBoxTick { t: tick.t, input: input_of!(AirBoxInput, tick) }
}
