//! Random calls, of several tempers: a log that fills up, one that turns over, one at the end of all positions.

use crate::random::Random;
use reading::no::LIMIT;
use reading::shape::Shape;
use reading::unit::Unit;
use reading::unit_call::{Call, Outputs};

/// How often each call is made, and what numbers it bears.
pub struct Weather {
    pub name: &'static str,
    /// The floor that a sequence begins with.
    pub floor: u64,
    /// Shares of fresh, write, read, trim, prune, seal and edges.
    pub shares: [u64; 7],
    /// Of a thousand epochs or positions, how many are chosen without a look at the unit.
    pub wild: u64,
}

pub const WEATHERS: [Weather; 6] = [
    Weather { name: "filling", floor: 0, shares: [1, 1200, 400, 150, 10, 15, 30], wild: 0 },
    Weather { name: "turning over", floor: 70_000, shares: [1, 500, 150, 100, 100, 20, 30], wild: 0 },
    Weather { name: "trimming", floor: 0, shares: [1, 250, 150, 500, 10, 10, 30], wild: 0 },
    Weather { name: "near the end", floor: LIMIT - 150, shares: [0, 600, 200, 150, 15, 10, 30], wild: 20 },
    Weather { name: "wild", floor: 0, shares: [10, 400, 200, 150, 60, 60, 60], wild: 150 },
    Weather { name: "crossing 2^32", floor: (1 << 32) - 60, shares: [0, 600, 200, 100, 10, 10, 30], wild: 0 },
];

const EPOCHS: [u32; 6] = [0, 1, 2, 1 << 31, u32::MAX - 1, u32::MAX];
const FAR: [u64; 10] = [0, 1, 255, 256, LIMIT - 2, LIMIT - 1, LIMIT, LIMIT + 1, u64::MAX - 1, u64::MAX];
/// Lengths that are one too many in a shape, and those that a byte, or two, would cut to those of a page.
const LONG: [usize; 8] = [33, 81, 255, 256, 256 + 32, 6168, 65536, 65536 + 7];

impl Weather {
    /// The next call on a unit.
    pub fn call(&self, random: &mut Random, unit: &Unit) -> Call {
        let mut share = random.below(self.shares.iter().sum());
        let mut which = 0;
        while share >= self.shares[which] {
            share -= self.shares[which];
            which += 1;
        }
        let epoch = self.epoch(random, unit);
        let position = self.position(random, unit);
        match which {
            0 => Call::Fresh {
                number: random.one_of(&[0, 1, 2, 3, 4, 5, 6, 7, 8, 9, 256 + 1, u32::MAX]),
                shape: random.one_of(&[0, 0, 0, 1, 1, 1, 2, 255]),
            },
            1 => {
                let (kind, data) = page(random, unit.shape);
                Call::Write { epoch, position, kind, data }
            }
            2 => Call::Read { epoch, position },
            3 => Call::Trim { epoch, position },
            4 => Call::Prune { epoch, position: self.floor_to_be(random, unit) },
            5 => Call::Seal { epoch: self.sealed_to_be(random, unit) },
            _ => Call::Edges,
        }
    }

    fn epoch(&self, random: &mut Random, unit: &Unit) -> u32 {
        match random.below(1000) {
            n if n < self.wild => random.one_of(&EPOCHS),
            n if n > 960 => unit.sealed.saturating_sub(random.below(2) as u32),
            _ => unit.sealed.saturating_add(1 + random.below(2) as u32),
        }
    }

    fn sealed_to_be(&self, random: &mut Random, unit: &Unit) -> u32 {
        if random.chance(self.wild) {
            return random.one_of(&EPOCHS);
        }
        unit.sealed.saturating_add(random.below(3) as u32).saturating_sub(1)
    }

    /// A position at, beside or between what the unit has, at its floor or at its edge.
    fn position(&self, random: &mut Random, unit: &Unit) -> u64 {
        if random.chance(self.wild) {
            return if random.chance(200) { random.next() } else { random.one_of(&FAR) };
        }
        let held = unit.cells.keys().nth(random.below(unit.cells.len() as u64 + 1) as usize);
        let near = match (random.below(4), held) {
            (0, _) => unit.floor,
            (1, _) => unit.edge(),
            (2, Some(position)) => return *position,
            (_, Some(position)) => *position,
            (_, None) => unit.floor,
        };
        near.saturating_add(random.below(8)).saturating_sub(2)
    }

    fn floor_to_be(&self, random: &mut Random, unit: &Unit) -> u64 {
        if random.chance(self.wild) {
            return random.one_of(&FAR);
        }
        match random.below(8) {
            0 => self.position(random, unit),
            1 => unit.floor,
            _ => unit.floor.saturating_add(random.below(12)).saturating_sub(1),
        }
    }
}

/// A kind and bytes to write: mostly a page that a unit takes.
fn page(random: &mut Random, shape: Shape) -> (u8, Vec<u8>) {
    match random.below(40) {
        0 => (random.next() as u8, Vec::new()),
        1 => (random.one_of(&[0, 1, 2, 3, 4, 255]), any_bytes(random, shape.payload() + 8)),
        2 => (1, vec![7; random.one_of(&LONG)]),
        3..=9 => (2, Vec::new()),
        _ => (1, any_bytes(random, shape.payload())),
    }
}

/// Up to `most` bytes, with zeros at the end and in the middle more often than chance has them.
fn any_bytes(random: &mut Random, most: usize) -> Vec<u8> {
    let count = random.below(most as u64 + 1) as usize;
    match random.below(4) {
        0 => vec![0; count],
        1 => random.bytes(count).iter().map(|byte| byte & 0x81).collect(),
        _ => random.bytes(count),
    }
}

/// What stands in the outputs before a call.
pub fn outputs(random: &mut Random) -> Outputs {
    Outputs { kind: random.next() as u8, start: random.next(), length: random.next(), edge: random.next(), written: random.next() }
}
