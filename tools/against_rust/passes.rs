//! The time of sides that do the same over the same input: of each the quickest pass, the sides taking turns.

use std::{hint::black_box, time::Instant};

/// Nanoseconds of one pass.
fn time<T>(side: fn(&[T]) -> u64, input: &[T]) -> f64 {
    let start = Instant::now();
    black_box(side(black_box(input)));
    start.elapsed().as_nanos() as f64
}

/// Nanoseconds of each side's quickest pass of so many rounds.
pub fn quickest<T, const SIDES: usize>(sides: [fn(&[T]) -> u64; SIDES], input: &[T], rounds: usize) -> [f64; SIDES] {
    let mut best = [f64::MAX; SIDES];
    for _ in 0..rounds {
        for (best, side) in best.iter_mut().zip(sides) {
            *best = best.min(time(side, input));
        }
    }
    best
}
