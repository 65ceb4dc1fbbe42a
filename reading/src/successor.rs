//! What the holder installs.

use crate::layout::Layout;
use crate::no::{self, unless, No};

/// The part's items stand in the whole, in the same order.
fn is_sublist(part: &[u8], whole: &[u8]) -> bool {
    let mut left = whole.iter();
    part.iter().all(|unit| left.any(|other| other == unit))
}

/// The yard's shape stays. The same starts and set numbers, each old set replaced by a non-empty sublist of itself; then at most one more range,
/// starting above the last old start.
pub fn lawful(old: &Layout, new: &Layout) -> bool {
    let ranges = old.ranges.len();
    let one_more = new.ranges.len() == ranges + 1 && new.ranges[ranges].start > old.last_start();
    let none_more = new.ranges.len() == ranges && new.sets.len() == old.sets.len();
    old.shape == new.shape
        && (one_more || none_more)
        && new.ranges[..ranges] == old.ranges[..]
        && new.sets.len() >= old.sets.len()
        && old.sets.iter().zip(&new.sets).all(|(was, is)| !is.is_empty() && is_sublist(is, was))
}

/// The holder's answer to an offer.
pub fn offer(held: &mut Layout, offered: &Layout) -> Result<(), No> {
    unless(!offered.good(), no::LAYOUT)?;
    unless(held.epoch.checked_add(1) != Some(offered.epoch), no::OVERTAKEN)?;
    unless(!lawful(held, offered), no::SUCCESSOR)?;
    *held = offered.clone();
    Ok(())
}
