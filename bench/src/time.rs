//! Times of calls: rounds in which the sides take turns, and the middle of many.

use crate::call::Made;
use std::hint::black_box;
use std::time::Instant;

/// Memories of a round: few enough to stay in the nearest cache.
const COPIES: usize = 4;

/// Nanoseconds of one call: the quartiles of many rounds.
#[derive(Clone, Copy)]
pub struct Time {
    pub low: f64,
    pub median: f64,
    pub high: f64,
}

impl Time {
    fn of(mut times: Vec<f64>) -> Time {
        times.sort_by(f64::total_cmp);
        let at = |part: usize| times[part * (times.len() - 1) / 4];
        Time { low: at(1), median: at(2), high: at(3) }
    }

    fn less(self, other: f64) -> Time {
        Time { low: self.low - other, median: self.median - other, high: self.high - other }
    }
}

/// A round makes one call on each of a few equal memories; these are restored before it, outside the measured part.
fn round(memory: &[u8], copies: &mut [Vec<u8>], call: &mut Made) -> f64 {
    for copy in copies.iter_mut() {
        copy.copy_from_slice(memory);
    }
    let begun = Instant::now();
    for copy in copies.iter_mut() {
        black_box(call(black_box(copy)));
    }
    begun.elapsed().as_nanos() as f64 / copies.len() as f64
}

/// The times of some calls on one memory, in turns round by round. `idle` is what a round takes that does nothing; it is taken off.
pub fn turns(memory: &[u8], rounds: usize, idle: f64, mut calls: Vec<Made>) -> Vec<Time> {
    let mut copies = vec![memory.to_vec(); COPIES];
    let mut times = vec![Vec::with_capacity(rounds); calls.len()];
    for _ in 0..rounds {
        for (times, call) in times.iter_mut().zip(&mut calls) {
            times.push(round(memory, &mut copies, call));
        }
    }
    times.into_iter().map(|times| Time::of(times).less(idle)).collect()
}
