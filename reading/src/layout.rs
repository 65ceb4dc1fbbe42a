//! A layout, when it is good, and where a position belongs.

use crate::no::LIMIT;
use crate::shape::Shape;
use std::collections::BTreeSet;

pub type Set = Vec<u8>;

#[derive(Clone, Debug, PartialEq, Eq)]
pub struct Range {
    pub start: u64,
    pub uses: u8,
}

#[derive(Clone, Debug, PartialEq, Eq)]
pub struct Layout {
    pub epoch: u32,
    /// The kind of all units of the yard: 0 small, 1 large.
    pub shape: u8,
    pub sets: Vec<Set>,
    pub ranges: Vec<Range>,
}

pub const UNITS: u8 = 8;
pub const SET_UNITS: usize = 4;
pub const SETS: usize = 16;
pub const RANGES: usize = 8;

pub fn strictly_rising<T: PartialOrd>(items: &[T]) -> bool {
    items.windows(2).all(|pair| pair[0] < pair[1])
}

/// 1 to 4 units of the yard, rising.
pub fn good_set(set: &[u8]) -> bool {
    (1..=SET_UNITS).contains(&set.len()) && strictly_rising(set) && set.iter().all(|unit| (1..=UNITS).contains(unit))
}

impl Layout {
    /// All units in its sets, in rising number.
    pub fn units(&self) -> BTreeSet<u8> {
        self.sets.iter().flatten().copied().collect()
    }

    pub fn good(&self) -> bool {
        let starts: Vec<u64> = self.ranges.iter().map(|range| range.start).collect();
        let used: usize = self.ranges.iter().map(|range| usize::from(range.uses)).sum();
        self.epoch >= 1
            && Shape::of(self.shape).is_some()
            && (1..=SETS).contains(&self.sets.len())
            && (1..=RANGES).contains(&self.ranges.len())
            && self.sets.iter().all(|set| good_set(set))
            && starts.first() == Some(&0)
            && strictly_rising(&starts)
            && starts.iter().all(|start| *start < LIMIT)
            && self.ranges.iter().all(|range| range.uses >= 1)
            && used == self.sets.len()
    }

    /// The shape of all units of the yard, in a good layout.
    pub fn units_shape(&self) -> Shape {
        Shape::of(self.shape).expect("a good layout names one")
    }

    /// The number of p's set, counted from 0, in a good layout.
    pub fn set_number(&self, p: u64) -> usize {
        let last = self.ranges.iter().rposition(|range| range.start <= p).expect("the first range starts at 0");
        let before: usize = self.ranges[..last].iter().map(|range| usize::from(range.uses)).sum();
        let range = &self.ranges[last];
        before + ((p - range.start) % u64::from(range.uses)) as usize
    }

    /// The units of p's set, head first.
    pub fn set_of(&self, p: u64) -> &Set {
        &self.sets[self.set_number(p)]
    }

    pub fn last_start(&self) -> u64 {
        self.ranges.last().map_or(0, |range| range.start)
    }
}
