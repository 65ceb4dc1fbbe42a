//! Reads that might reach their units at this moment, by the layout in force and by older ones, held against the history.

use crate::demand::History;
use crate::layout::Layout;
use crate::letter::Reply;
use crate::no;
use crate::yard::Yard;

/// The layouts that readers may still hold, newest last.
pub struct Audit {
    laid: Vec<Layout>,
}

impl Audit {
    /// Positions that are looked at.
    pub const POSITIONS: u64 = 32;

    pub fn new(yard: &Yard) -> Audit {
        Audit { laid: vec![yard.held.clone()] }
    }

    /// To be called after each step.
    pub fn look(&mut self, yard: &Yard, history: &mut History) -> Result<(), String> {
        if self.laid.last() != Some(&yard.held) {
            self.laid.push(yard.held.clone());
        }
        for layout in self.laid.iter().rev().take(3) {
            for p in 0..Audit::POSITIONS {
                let (reply, mut note) = yard.would_read(layout, p);
                // the read comes after what was reported in the step just taken
                note.when += 1;
                match reply {
                    Reply::Shown(page) => history.read(p, no::FINE, Some(&page), note)?,
                    Reply::Refused(number) => history.read(p, number, None, note)?,
                    _ => {}
                }
            }
        }
        Ok(())
    }
}
