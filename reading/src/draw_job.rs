//! The operation that a begin asks for, drawn.

use crate::client::Job;
use crate::draw_step::Memo;
use crate::layout::Set;
use crate::lehmer::Raw;
use crate::mood::{draw_set, Mood};
use crate::no::LIMIT;
use crate::plan::Change;
use crate::yard::Yard;

/// From 3 below the sequencer's count to the count.
fn near_count(raw: &Raw, yard: &Yard) -> u64 {
    let count = yard.sequencer.next.min(LIMIT);
    (count + u64::from(raw.of(8, 4))).saturating_sub(3)
}

/// Positions at the log's end and past it; those that would end the log only in a tall run.
fn far(raw: &Raw, mood: &Mood) -> u64 {
    match raw.of(9, 8) {
        0 => LIMIT + 1 + u64::from(raw.of(8, 1000)),
        1 => u64::MAX,
        2 | 3 if mood.tall => LIMIT,
        4..=7 if mood.tall => LIMIT - 1 - u64::from(raw.of(8, 2)),
        2 | 3 => LIMIT + 1,
        _ => u64::from(raw.of(8, 32)),
    }
}

/// Mostly small, or where appends are, or where the last operation was.
fn position(raw: &Raw, yard: &Yard, mood: &Mood, memo: &Memo) -> u64 {
    match raw.of(7, 16) {
        0..=2 => u64::from(raw.of(8, 8)),
        3 | 4 => u64::from(raw.of(8, 16)),
        5 => u64::from(raw.of(8, 256)),
        6..=9 => near_count(raw, yard),
        10..=14 => memo.at,
        _ => far(raw, mood),
    }
}

/// A fill's: more often where appends are.
fn fill_position(raw: &Raw, yard: &Yard, mood: &Mood, memo: &Memo) -> u64 {
    if raw.of(62, 2) == 0 {
        near_count(raw, yard)
    } else {
        position(raw, yard, mood, memo)
    }
}

/// A trim's: now and then above the sequencer's count, where nothing was written, and rarely the log's last.
fn trim_position(raw: &Raw, yard: &Yard, mood: &Mood, memo: &Memo) -> u64 {
    match (raw.of(62, 4), raw.of(9, 16)) {
        (0, 0) => LIMIT - 1,
        (0, _) => (yard.sequencer.next + 1 + u64::from(raw.of(8, 8))).min(LIMIT - 1),
        _ => position(raw, yard, mood, memo),
    }
}

/// A prune's: smaller.
fn prune_position(raw: &Raw, yard: &Yard, mood: &Mood) -> u64 {
    match raw.of(7, 16) {
        0..=11 => u64::from(raw.of(8, 6)),
        12..=14 => near_count(raw, yard),
        _ => far(raw, mood),
    }
}

/// Mostly short; empty, as long as the yard's pages may be, or somewhat longer.
fn data(raw: &Raw, yard: &Yard) -> Vec<u8> {
    let most = yard.held.units_shape().payload() as u32;
    let length = match raw.of(10, 8) {
        0 => raw.of(11, most + 8),
        1 => 0,
        2 => most,
        _ => 1 + raw.of(11, 8),
    };
    (0..length as usize).map(|i| (raw.of(24 + i % 32, 256) as usize + i / 32) as u8).collect()
}

/// None, the units that have stopped, one or two, or any numbers.
fn drops(raw: &Raw, yard: &Yard) -> Vec<u8> {
    match raw.of(12, 16) {
        0..=3 => vec![],
        4..=9 => yard.stopped.iter().copied().collect(),
        10..=12 => vec![1 + raw.of(13, 8) as u8],
        13 | 14 => vec![1 + raw.of(13, 8) as u8, 1 + raw.of(14, 8) as u8],
        _ => (0..raw.of(13, 9) as usize).map(|i| raw.of(14 + i, 10) as u8).collect(),
    }
}

/// Any units, 0 and 9 among them, in any order.
fn odd_set(raw: &Raw) -> Set {
    (0..raw.of(23, 5) as usize).map(|i| raw.of(56 + i, 10) as u8).collect()
}

fn new_sets(raw: &Raw) -> Vec<Set> {
    match raw.of(22, 16) {
        0..=10 => vec![],
        11..=13 => vec![draw_set(raw, 24)],
        14 => (0..1 + raw.of(23, 4) as usize).map(|i| draw_set(raw, 24 + 3 * i)).collect(),
        _ => vec![odd_set(raw)],
    }
}

/// Of 32 jobs, how many are of each kind, in the order append, read, fill, trim, prune; the rest reorganise.
const CALM: [u32; 5] = [11, 9, 4, 2, 1];
const BUSY: [u32; 5] = [29, 1, 1, 0, 0];

/// Where the last operation met a sealed unit, mostly a reorganise.
fn kind(raw: &Raw, mood: &Mood, memo: &Memo) -> usize {
    if memo.sealed() && raw.of(60, 4) != 0 {
        return 5;
    }
    let shares = if mood.busy { BUSY } else { CALM };
    let mut left = raw.of(6, 32);
    let mut kind = 0;
    while kind < 5 && left >= shares[kind] {
        left -= shares[kind];
        kind += 1;
    }
    kind
}

pub fn draw_job(raw: &Raw, yard: &Yard, mood: &Mood, memo: &Memo) -> Job {
    match kind(raw, mood, memo) {
        0 => Job::Append(data(raw, yard)),
        1 => Job::Read(position(raw, yard, mood, memo)),
        2 => Job::Fill(fill_position(raw, yard, mood, memo)),
        3 => Job::Trim(trim_position(raw, yard, mood, memo)),
        4 => Job::Prune(prune_position(raw, yard, mood)),
        _ => Job::Reorganise(Change { drops: drops(raw, yard), sets: new_sets(raw) }),
    }
}
