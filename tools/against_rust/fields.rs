//! The fields of a record one by one, each by its path and its bits. Shared by the programs, each of which uses a part of it.
#![allow(dead_code, unused_macros, unused_imports)]

use std::collections::HashMap;
use std::fmt;
use std::ops::Range;

/// What a field holds, as bits. A flag is a byte, so that a flag that is neither 0 nor 1 is seen.
#[derive(Clone, Copy, PartialEq)]
pub enum Value {
    Flag(u8),
    Whole(i64),
    Float(u64),
    Time(Option<u64>),
}

impl Value {
    /// A time or none. The number beside an absent time has no meaning and is dropped here.
    pub fn time(time: Option<f64>) -> Value {
        Value::Time(time.map(f64::to_bits))
    }
}

impl fmt::Display for Value {
    fn fmt(&self, f: &mut fmt::Formatter<'_>) -> fmt::Result {
        match self {
            Value::Flag(byte) => write!(f, "flag {byte}"),
            Value::Whole(number) => write!(f, "whole number {number}"),
            Value::Float(bits) => write!(f, "float {bits:016x}"),
            Value::Time(None) => write!(f, "no time"),
            Value::Time(Some(bits)) => write!(f, "time {bits:016x}"),
        }
    }
}

/// Where a field stands: its path from the whole record, and the bytes of the record that hold it.
pub struct Place {
    pub path: String,
    pub bytes: Vec<usize>,
}

impl Place {
    pub fn new(path: &str, bytes: impl IntoIterator<Item = usize>) -> Place {
        Place { path: path.into(), bytes: bytes.into_iter().collect() }
    }
}

/// A record or a single field. Both lists have one entry for each field, in the same order.
pub trait Fields {
    fn places(path: &str, at: usize, places: &mut Vec<Place>);
    fn values(&self, values: &mut Vec<Value>);
}

/// The places of a whole record.
pub fn places<T: Fields>() -> Vec<Place> {
    let mut places = Vec::new();
    T::places("", 0, &mut places);
    places
}

/// `outer.inner`, or `inner` alone at the top.
pub fn below(path: &str, name: &str) -> String {
    if path.is_empty() { name.into() } else { format!("{path}.{name}") }
}

fn bytes_of<T>(at: usize) -> Range<usize> {
    at..at + size_of::<T>()
}

macro_rules! single_fields {
    ($($type:ty: $value:expr;)*) => { $(
        impl Fields for $type {
            fn places(path: &str, at: usize, places: &mut Vec<Place>) {
                places.push(Place::new(path, bytes_of::<$type>(at)));
            }
            fn values(&self, values: &mut Vec<Value>) {
                let value: fn($type) -> Value = $value;
                values.push(value(*self));
            }
        }
    )* };
}
single_fields! {
    bool: |flag| Value::Flag(u8::from(flag));
    u8: Value::Flag;
    u16: |number| Value::Whole(number.into());
    i64: Value::Whole;
    f64: |number| Value::Float(number.to_bits());
    Option<f64>: Value::time;
}

/// The fields of a record, from the list of their names and types. The pattern has no `..`: a name that is left out does not compile.
macro_rules! fields_of {
    ($record:ident { $($name:ident: $type:ty,)* }) => {
        impl crate::fields::Fields for $record {
            fn places(path: &str, at: usize, places: &mut Vec<crate::fields::Place>) {
                $(<$type as crate::fields::Fields>::places(
                    &crate::fields::below(path, stringify!($name)),
                    at + std::mem::offset_of!($record, $name),
                    places,
                );)*
            }
            fn values(&self, values: &mut Vec<crate::fields::Value>) {
                let $record { $($name),* } = self;
                $(crate::fields::Fields::values($name, values);)*
            }
        }
    };
}
pub(crate) use fields_of;

/// The fields of two sides, paired by their paths.
pub struct Pairs(Vec<(String, usize, usize)>);

impl Pairs {
    /// Fails where a path stands on one side only, or twice on one side.
    pub fn new(left: Vec<String>, right: Vec<String>) -> Result<Pairs, String> {
        let mut places = HashMap::new();
        for (place, path) in right.into_iter().enumerate() {
            if places.insert(path.clone(), place).is_some() {
                return Err(format!("{path} stands twice"));
            }
        }
        let mut pairs = Vec::new();
        for (place, path) in left.into_iter().enumerate() {
            match places.remove(&path) {
                Some(other) => pairs.push((path, place, other)),
                None => return Err(format!("{path} has no field beside it, or stands twice")),
            }
        }
        match places.into_keys().min() {
            Some(path) => Err(format!("{path} has no field beside it")),
            None => Ok(Pairs(pairs)),
        }
    }

    pub fn len(&self) -> usize {
        self.0.len()
    }

    /// The paths whose values differ, with both values.
    pub fn differing<'a>(&'a self, left: &'a [Value], right: &'a [Value]) -> impl Iterator<Item = (&'a str, Value, Value)> {
        let both = self.0.iter().map(|(path, l, r)| (path.as_str(), left[*l], right[*r]));
        both.filter(|(_, l, r)| l != r)
    }
}
