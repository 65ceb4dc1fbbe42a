//! The sequencer: epoch and next position.

use crate::no::{self, unless, No, LIMIT};

#[derive(Clone, Debug, PartialEq, Eq)]
pub struct Sequencer {
    pub epoch: u32,
    pub next: u64,
}

impl Sequencer {
    pub fn fresh() -> Sequencer {
        Sequencer { epoch: 1, next: 0 }
    }

    pub fn token(&mut self, epoch: u32) -> Result<u64, No> {
        unless(epoch != self.epoch, no::SEALED)?;
        unless(self.next >= LIMIT, no::SPENT)?;
        self.next += 1;
        Ok(self.next - 1)
    }

    pub fn start(&mut self, epoch: u32, count: u64) -> Result<(), No> {
        unless(count > LIMIT, no::POSITION)?;
        unless(epoch <= self.epoch, no::SEALED)?;
        *self = Sequencer { epoch, next: count };
        Ok(())
    }

    pub fn forget(&mut self) {
        self.next = 0;
    }
}
