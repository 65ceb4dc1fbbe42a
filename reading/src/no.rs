//! The numbers a machine may answer.

pub type No = u8;

pub const FINE: No = 0;
pub const MEMORY: No = 1;
pub const POSITION: No = 2;
pub const PAGE: No = 3;
pub const SEALED: No = 4;
pub const TRIMMED: No = 5;
pub const WRITTEN: No = 6;
pub const UNWRITTEN: No = 7;
pub const FULL: No = 8;
pub const SPENT: No = 9;
pub const LAYOUT: No = 10;
pub const OVERTAKEN: No = 11;
pub const SUCCESSOR: No = 12;
pub const SET_LOST: No = 13;
pub const LAYOUT_FULL: No = 14;
pub const EPOCHS_SPENT: No = 15;
pub const BAG_FULL: No = 16;
pub const NOBODY: No = 17;
pub const BUSY: No = 18;
pub const NUMBERS_SPENT: No = 19;
pub const UNKNOWN: No = 20;
/// A file that is no play.
pub const PLAY: No = 22;

/// Positions lie below it; a prune and a sequencer's count may stand at it.
pub const LIMIT: u64 = 1 << 40;

/// Fails with `no` where it applies.
pub fn unless(applies: bool, no: No) -> Result<(), No> {
    if applies {
        Err(no)
    } else {
        Ok(())
    }
}

/// The number of a result: 0 where it is fine.
pub fn number_of<T>(result: &Result<T, No>) -> No {
    match result {
        Ok(_) => FINE,
        Err(no) => *no,
    }
}
