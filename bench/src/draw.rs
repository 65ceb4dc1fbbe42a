//! Memories and calls drawn at random: good ones, and ones with something wrong in them.

use crate::call::Call;
use crate::random::Random;
use crate::unit::{page, shape, slots, u32_at, u64_at, HEADER, MEMORY, PAYLOAD, POSITIONS};
use reading::memory::encode;
use reading::shape::Shape;
use reading::unit::{Cell, Unit};
use std::collections::BTreeMap;

const EPOCHS: [u32; 5] = [0, 1, 7, u32::MAX - 1, u32::MAX];

/// The memory of a unit with such slots.
fn printed<const SLOT: usize>(number: u8, sealed: u32, floor: u64, cells: BTreeMap<u64, Cell>) -> Vec<u8> {
    let shape = Shape::of(shape(SLOT)).expect("slots of one of the shapes");
    encode(&Unit { number, shape, sealed, floor, cells })
}

/// The bytes of a data page: of any length, with zeros and bytes of 255 more often than chance has them.
fn data<const SLOT: usize>(random: &mut Random) -> Vec<u8> {
    let lengths = [0, 1, 7, 8, 9, page(SLOT) - 1, page(SLOT), random.below(page(SLOT) as u64 + 1) as usize];
    let length = random.one_of(&lengths);
    match random.below(4) {
        0 => vec![0; length],
        1 => vec![255; length],
        _ => random.bytes(length),
    }
}

/// A good memory.
pub fn memory<const SLOT: usize>(random: &mut Random) -> Vec<u8> {
    let all = slots(SLOT) as u64;
    let floors = [0, 0, 3, (1 << 32) - all, POSITIONS - 2 * all, POSITIONS - 5, POSITIONS, random.below(POSITIONS)];
    let floor = random.one_of(&floors);
    let counts = [0, 1, all / 2, all - 1, all, all, random.below(all + 1)];
    let most = random.one_of(&counts);
    let gaps = 1 + random.below(3);
    let mut cells = BTreeMap::new();
    let mut position = floor + random.below(gaps);
    while (cells.len() as u64) < most && position < POSITIONS {
        let cell = match random.one_of(&[1, 1, 1, 1, 2, 3, 4]) {
            1 => Cell::data(&data::<SLOT>(random)),
            2 => Cell::JUNK,
            3 => Cell::Trimmed,
            _ => Cell::Stray,
        };
        cells.insert(position, cell);
        position += 1 + random.below(gaps);
    }
    printed::<SLOT>(1 + random.below(8) as u8, random.one_of(&EPOCHS), floor, cells)
}

/// A good memory with half of its slots used, by data of every length in turn.
pub fn half_full<const SLOT: usize>() -> Vec<u8> {
    let bytes = |index: usize| vec![index as u8 | 1; index % (page(SLOT) + 1)];
    let cells = (0..slots(SLOT) / 2).map(|index| (3 * index as u64, Cell::data(&bytes(index))));
    printed::<SLOT>(1, 0, 0, cells.collect())
}

/// Where the last used slot of a memory begins, or the first slot where none is used.
fn last<const SLOT: usize>(memory: &[u8]) -> usize {
    HEADER + usize::from(memory[16]).clamp(1, slots(SLOT)) * SLOT - SLOT
}

/// Changes something in a memory, mostly where good memory has but one choice.
pub fn damage<const SLOT: usize>(random: &mut Random, memory: &mut Vec<u8>) {
    let slot = HEADER + random.below(slots(SLOT) as u64) as usize * SLOT;
    let byte = random.below(SLOT as u64) as usize;
    let past = PAYLOAD + usize::from(memory[slot + 9]);
    let last = last::<SLOT>(memory);
    match random.below(10) {
        0 => memory[random.below(HEADER as u64) as usize] ^= 1 << random.below(8),
        1 => memory[slot + random.below(PAYLOAD as u64) as usize] ^= 1 << random.below(8),
        2 => memory[slot + 8] = random.below(6) as u8,
        3 => memory[slot + 9] = random.one_of(&[0, 1, 8, page(SLOT) as u8, page(SLOT) as u8 + 1, 64, 128, 255]),
        // the byte just behind a payload, or the last one
        4 => memory[slot + past.min(SLOT - 1)] = 1,
        5 => memory[slot + byte] = random.next() as u8,
        // one slot more or less, or two alike
        6 => memory[16] = memory[16].wrapping_add(random.one_of(&[1, 255])),
        7 => memory.copy_within(slot..slot + SLOT, HEADER),
        8 => {
            let position = random.one_of(&[0, POSITIONS - 1, POSITIONS, POSITIONS + 1, 1 << 63, u64::MAX]);
            memory[last..last + 8].copy_from_slice(&position.to_le_bytes());
        }
        _ => memory.resize(random.one_of(&[0, 1, HEADER, MEMORY - 1, MEMORY + 1, 2 * MEMORY]), 0),
    }
}

/// A position of a slot, beside it, or at an end.
fn position<const SLOT: usize>(random: &mut Random, memory: &[u8]) -> u64 {
    let at = HEADER + random.below(slots(SLOT) as u64) as usize * SLOT;
    let last = u64_at(memory, last::<SLOT>(memory));
    let near = [u64_at(memory, at), u64_at(memory, 8), last, POSITIONS, random.next()];
    random.one_of(&near).wrapping_add(random.below(4)).wrapping_sub(1)
}

/// A call that this memory could well be asked for.
pub fn call<const SLOT: usize>(random: &mut Random, memory: &[u8]) -> Call {
    let (sealed, position) = match memory.len() {
        MEMORY => (u32_at(memory, 4), position::<SLOT>(random, memory)),
        _ => (0, random.next()),
    };
    let epochs =
        [sealed.saturating_add(1), sealed.saturating_add(1), sealed.saturating_add(1), sealed, random.one_of(&EPOCHS)];
    let epoch = random.one_of(&epochs);
    match random.below(7) {
        0 | 1 => {
            let kind = random.one_of(&[1, 1, 1, 1, 2, 2, 0, 3]);
            let data = match random.below(8) {
                0 => random.bytes(page(SLOT) + 1),
                1 => random.bytes(page(SLOT) + 256),
                _ if kind == 1 => data::<SLOT>(random),
                _ => Vec::new(),
            };
            Call::Write { epoch, position, kind, data }
        }
        2 => Call::Read { epoch, positions: vec![position] },
        3 => Call::Trim { epoch, position },
        4 => Call::Prune { epoch, position },
        5 => Call::Seal { epoch: epoch.wrapping_sub(random.below(2) as u32) },
        _ => Call::Edges,
    }
}
