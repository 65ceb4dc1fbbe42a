//! What a reorganise makes of the layout it fetched.

use crate::layout::{good_set, Layout, Range, Set, RANGES, SETS, UNITS};
use crate::no::{self, unless, No, LIMIT};
use crate::unit::Edges;

/// As many units as a reorganise has room to drop.
pub const DROPS: usize = UNITS as usize;

/// Units to drop, and new sets if wanted.
#[derive(Clone, Debug, PartialEq, Eq)]
pub struct Change {
    pub drops: Vec<u8>,
    pub sets: Vec<Set>,
}

/// The new layout before its new range, if any, has a start: old ranges and sets thinned out, and the new sets apart.
#[derive(Clone, Debug, PartialEq, Eq)]
pub struct Plan {
    thinned: Layout,
    new: Vec<Set>,
}

/// 15, 10, 13, 14, in this order.
pub fn plan(held: &Layout, change: &Change) -> Result<Plan, No> {
    let epoch = held.epoch.checked_add(1).ok_or(no::EPOCHS_SPENT)?;
    let in_new_set = |unit: &u8| change.sets.iter().any(|set| set.contains(unit));
    let bad_drop = |unit: &u8| !(1..=UNITS).contains(unit) || in_new_set(unit);
    let bad = change.drops.iter().any(bad_drop) || change.sets.iter().any(|set| !good_set(set));
    unless(bad, no::LAYOUT)?;

    let kept = |set: &Set| -> Set { set.iter().filter(|unit| !change.drops.contains(unit)).copied().collect() };
    let sets: Vec<Set> = held.sets.iter().map(kept).collect();
    unless(sets.iter().any(Vec::is_empty), no::SET_LOST)?;

    let ranges = held.ranges.len() + usize::from(!change.sets.is_empty());
    unless(sets.len() + change.sets.len() > SETS || ranges > RANGES, no::LAYOUT_FULL)?;

    Ok(Plan { thinned: Layout { epoch, shape: held.shape, sets, ranges: held.ranges.clone() }, new: change.sets.clone() })
}

impl Plan {
    pub fn epoch(&self) -> u32 {
        self.thinned.epoch
    }

    /// Every unit of the new layout, in rising number.
    pub fn units(&self) -> Vec<u8> {
        let mut units = self.thinned.units();
        units.extend(self.new.iter().flatten());
        units.into_iter().collect()
    }

    /// The new layout once the largest of all edges are known, and where the sequencer starts: at the new range's start, or at the written edge.
    pub fn with_edges(self, edges: Edges) -> Result<(Layout, u64), No> {
        let Plan { thinned: mut layout, new } = self;
        if new.is_empty() {
            return Ok((layout, edges.written));
        }
        let start = edges.edge.max(layout.last_start() + 1);
        unless(start >= LIMIT, no::SPENT)?;
        layout.ranges.push(Range { start, uses: new.len() as u8 });
        layout.sets.extend(new);
        Ok((layout, start))
    }

    /// Shortcut: each old set takes back what it had in an earlier layout.
    pub fn put_back(&mut self, earlier: &Layout, drops: &[u8]) {
        for (set, was) in self.thinned.sets.iter_mut().zip(&earlier.sets) {
            *set = was.iter().filter(|unit| !drops.contains(unit)).copied().collect();
        }
    }
}
