//! What a step tests before anything else: the memories, layouts and table that it is lent.

use crate::layout::Layout;
use crate::memory;
use crate::no::{self, unless, No};
use crate::unit::Unit;
use crate::yard::LETTERS;

/// Eight unit memories in order, the held layout, those that busy clients have fetched, the table's places and its count of letters.
pub struct Lent<'a> {
    pub memories: &'a [Vec<u8>],
    pub held: &'a Layout,
    pub fetched: &'a [Layout],
    pub places: usize,
    pub count: usize,
}

/// 1, 10, 16; else the units.
pub fn test(lent: &Lent) -> Result<Vec<Unit>, No> {
    let fits = |i: usize, unit: &Unit| usize::from(unit.number) == i + 1 && unit.shape.byte() == lent.held.shape;
    let unit = |(i, bytes): (usize, &Vec<u8>)| memory::decode(bytes).filter(|unit| fits(i, unit));
    let units = lent.memories.iter().enumerate().map(unit).collect::<Option<Vec<Unit>>>().ok_or(no::MEMORY)?;
    unless(units.len() != 8, no::MEMORY)?;
    unless(!lent.held.good() || !lent.fetched.iter().all(Layout::good), no::LAYOUT)?;
    unless(lent.places != LETTERS || lent.count > LETTERS, no::BAG_FULL)?;
    Ok(units)
}
