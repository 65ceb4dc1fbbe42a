//! The marked examples 1 to 9, of any side that a unit is called on, in both shapes. Each starts with a fresh unit 1.

use crate::memory::SIZE;
use crate::no::{self, No, LIMIT};
use crate::shape::Shape;
use crate::unit_call::{After, Call, Outputs, Side};

/// A memory, and the side that is called on it.
struct Unit {
    side: Side,
    memory: Vec<u8>,
    /// The numbers in which the shapes differ, as the examples have them.
    longest: usize,
    slots: u64,
}

impl Unit {
    fn fresh(side: Side, shape: Shape) -> Unit {
        let (longest, slots) = match shape {
            Shape::Small => (32, 128),
            Shape::Large => (80, 64),
        };
        let mut unit = Unit { side, memory: vec![0x5A; SIZE], longest, slots };
        assert_eq!(unit.call(Call::Fresh { number: 1, shape: shape.byte() }).answer, no::FINE);
        unit
    }

    fn call(&mut self, call: Call) -> After {
        let after = (self.side)(&self.memory, &call, Outputs::UNTOUCHED);
        self.memory.clone_from(&after.memory);
        after
    }

    fn write(&mut self, epoch: u32, position: u64, bytes: usize) -> No {
        self.call(Call::Write { epoch, position, kind: 1, data: vec![b'x'; bytes] }).answer
    }

    fn junk(&mut self, position: u64) -> No {
        self.call(Call::Write { epoch: 1, position, kind: 2, data: Vec::new() }).answer
    }

    fn read(&mut self, position: u64) -> No {
        self.call(Call::Read { epoch: 1, position }).answer
    }

    fn trim(&mut self, position: u64) -> No {
        self.call(Call::Trim { epoch: 1, position }).answer
    }

    fn prune(&mut self, position: u64) -> No {
        self.call(Call::Prune { epoch: 1, position }).answer
    }

    fn seal(&mut self, epoch: u32) -> No {
        self.call(Call::Seal { epoch }).answer
    }

    /// Both edges, by the edge request, which leaves every byte.
    fn edges(&mut self) -> (u64, u64) {
        let before = self.memory.clone();
        let after = self.call(Call::Edges);
        assert_eq!((after.answer, &after.memory), (no::FINE, &before));
        (after.outputs.edge, after.outputs.written)
    }
}

fn an_unwritten_position(unit: &mut Unit) {
    assert_eq!(unit.read(0), 7);
}

fn a_data_page_of_length_0(unit: &mut Unit) {
    assert_eq!(unit.write(1, 0, 0), 0);
    let seen = unit.call(Call::Read { epoch: 1, position: 0 });
    assert_eq!((seen.answer, seen.outputs.kind, seen.outputs.length), (0, 1, 0));
    assert_eq!(unit.junk(0), 6);
}

fn epoch_0(unit: &mut Unit) {
    assert_eq!(unit.write(0, 0, 1), 4);
}

fn the_last_position(unit: &mut Unit) {
    assert_eq!(unit.write(1, LIMIT - 1, 1), 0);
    assert_eq!(unit.write(1, LIMIT, 1), 2);
    assert_eq!(unit.write(1, LIMIT, unit.longest + 1), 2);
}

/// The refused one first, which leaves the unit fresh.
fn the_longest_page(unit: &mut Unit) {
    assert_eq!(unit.write(1, 0, unit.longest + 1), 3);
    assert_eq!(unit.write(1, 0, unit.longest), 0);
}

fn sealing(unit: &mut Unit) {
    assert_eq!(unit.seal(1), 0);
    assert_eq!(unit.edges(), (0, 0));
    assert_eq!(unit.write(1, 0, 1), 4);
    assert_eq!(unit.write(2, 0, 1), 0);
    assert_eq!(unit.seal(1), 0);
    assert_eq!(unit.seal(0), 4);
}

fn trimming(unit: &mut Unit) {
    assert_eq!(unit.trim(5), 0);
    assert_eq!(unit.write(1, 5, 1), 5);
    assert_eq!(unit.edges(), (6, 0));
}

fn a_full_unit(unit: &mut Unit) {
    for position in 0..unit.slots {
        assert_eq!(unit.write(1, position, 1), 0);
    }
    assert_eq!(unit.write(1, unit.slots, 1), 8);
    assert_eq!(unit.write(1, 0, 1), 6);
    assert_eq!(unit.prune(1), 0);
    assert_eq!(unit.write(1, unit.slots, 1), 0);
    assert_eq!(unit.read(0), 5);
}

fn pruning(unit: &mut Unit) {
    assert_eq!(unit.prune(3), 0);
    assert_eq!(unit.prune(2), 0);
    assert_eq!(unit.memory[8..16], 3u64.to_le_bytes());
    assert_eq!(unit.edges(), (3, 3));
}

/// In the order in which they are marked.
const EXAMPLES: [fn(&mut Unit); 9] = [
    an_unwritten_position,
    a_data_page_of_length_0,
    epoch_0,
    the_last_position,
    the_longest_page,
    sealing,
    trimming,
    a_full_unit,
    pruning,
];

/// Panics where the side answers an example otherwise.
pub fn hold(side: Side) {
    for shape in Shape::ALL {
        EXAMPLES.into_iter().for_each(|example| example(&mut Unit::fresh(side, shape)));
    }
}
