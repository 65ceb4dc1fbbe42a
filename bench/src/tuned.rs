//! The version tuned by hand: slots as words, four a turn and no early exit; zeros by many sums side by side; a place by the
//! edge or by halving.

use crate::unit::{names_unit, page, slots, u32_at, u64_at, Header, Version, HEADER, MEMORY, PAYLOAD, POSITIONS};

pub struct Tuned;

/// Words of a payload, at most, in a slot of any shape.
const WORDS: usize = 10;
/// Rows of the table below: a power of two above all lengths, so that any number finds a row by its lowest bits.
const LENGTHS: usize = 128;

/// A row for each length of a payload: the bytes of a slot that must be zero behind it are 255, the others 0.
#[repr(align(64))]
struct Rows<const SLOT: usize>([[u8; SLOT]; LENGTHS]);

impl<const SLOT: usize> Rows<SLOT> {
    const PAST: Rows<SLOT> = {
        let mut rows = [[0; SLOT]; LENGTHS];
        let mut length = 0;
        while length < LENGTHS {
            let mut byte = PAYLOAD + length;
            while byte < SLOT {
                rows[length][byte] = 255;
                byte += 1;
            }
            length += 1;
        }
        Rows(rows)
    };
}

/// What the slots tested so far have that good ones do not, as sums: all 0 where they are good.
struct Faults {
    past: [u64; WORDS],
    fields: u32,
    /// The position of the last slot.
    last: i64,
}

impl Faults {
    fn see<const SLOT: usize>(&mut self, slot: &[u8; SLOT]) {
        // signed, so that what is below position 0 has a number too
        let position = u64_at(slot, 0) as i64;
        let tag = u64_at(slot, 8);
        // the length of data, and something large for every other tag
        let length = tag.wrapping_sub(1).rotate_right(8);
        let good = (length <= page(SLOT) as u64) | (2..=4).contains(&tag);
        self.fields += u32::from(!(good & (self.last < position)));
        self.last = position;
        let rows: &'static Rows<SLOT> = &Rows::PAST;
        let row = &rows.0[length as usize % LENGTHS];
        for word in 0..page(SLOT) / 8 {
            let at = PAYLOAD + 8 * word;
            self.past[word] |= u64_at(slot, at) & u64_at(row, at);
        }
    }
}

/// The edge behind these slots, and nothing where they are not all good.
fn edge<const SLOT: usize>(slots: &[[u8; SLOT]], floor: u64) -> Option<u64> {
    let mut faults = Faults { past: [0; WORDS], fields: 0, last: floor as i64 - 1 };
    let (fours, rest) = slots.as_chunks::<4>();
    for four in fours {
        for slot in four {
            faults.see(slot);
        }
    }
    for slot in rest {
        faults.see(slot);
    }
    // positions rise, so that the last one is the largest
    let edge = faults.last.wrapping_add(1) as u64;
    let past = faults.past.iter().fold(0, |all, past| all | past);
    (faults.fields == 0 && edge <= POSITIONS && past == 0).then_some(edge)
}

/// The sum of the bytes by `|`, `LANES` of them side by side; and the bytes that are left.
fn lanes<const LANES: usize>(bytes: &[u8]) -> (u8, &[u8]) {
    let mut sums = [0; LANES];
    let (turns, rest) = bytes.as_chunks::<LANES>();
    for turn in turns {
        for (sum, byte) in sums.iter_mut().zip(turn) {
            *sum |= byte;
        }
    }
    (sums.iter().fold(0, |all, sum| all | sum), rest)
}

/// All bytes, by `|`. What is left behind the last turn is summed with some bytes before it once more.
pub fn sum(bytes: &[u8]) -> u8 {
    let (most, rest) = lanes::<128>(bytes);
    if let (false, Some(last)) = (rest.is_empty(), bytes.last_chunk::<128>()) {
        return most | lanes::<128>(last).0;
    }
    let (more, rest) = lanes::<16>(rest);
    rest.iter().fold(most | more, |all, byte| all | byte)
}

impl<const SLOT: usize> Version<SLOT> for Tuned {
    fn check(mem: &[u8]) -> Option<Header> {
        if mem.len() != MEMORY {
            return None;
        }
        let floor = u64_at(mem, 8);
        // with the six zeros: any other byte makes it too large
        let count = u64_at(mem, 16);
        if !names_unit(SLOT, u32_at(mem, 0)) || floor > POSITIONS || count > slots(SLOT) as u64 {
            return None;
        }
        let count = count as usize;
        let (used, unused) = mem[HEADER..].split_at(count * SLOT);
        let edge = edge::<SLOT>(used.as_chunks().0, floor)?;
        (sum(unused) == 0).then(|| Header { sealed: u32_at(mem, 4), floor, count, edge })
    }

    fn place(mem: &[u8], header: &Header, position: u64) -> usize {
        if position >= header.edge {
            return header.count;
        }
        let slots = mem[HEADER..HEADER + header.count * SLOT].as_chunks::<SLOT>().0;
        slots.partition_point(|slot| u64_at(slot, 0) < position)
    }
}
