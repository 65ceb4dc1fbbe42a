//! A unit's memory and rules, once for all Rust versions: they differ in how they test the memory and find a place in it.
//!
//! All is written over `SLOT`, the bytes of a slot; what else a slot's shape says follows from it.

pub const MEMORY: usize = 6168;
pub const HEADER: usize = 24;
/// Bytes of a slot, small and large.
pub const SMALL: usize = 48;
pub const LARGE: usize = 96;
/// Where a slot's payload begins in it.
pub const PAYLOAD: usize = 16;
pub const POSITIONS: u64 = 1 << 40;

/// Bytes of a page, at most.
pub const fn page(slot: usize) -> usize {
    slot - PAYLOAD
}

pub const fn slots(slot: usize) -> usize {
    (MEMORY - HEADER) / slot
}

/// The byte that names the shape of a unit with such slots, in its memory.
pub const fn shape(slot: usize) -> u8 {
    if slot == LARGE { 1 } else { 0 }
}

/// Whether a memory's first four bytes name a unit with such slots.
pub fn names_unit(slot: usize, name: u32) -> bool {
    let first = 1 + 256 * u32::from(shape(slot));
    (first..first + 8).contains(&name)
}

/// What good memory says of its unit.
pub struct Header {
    pub sealed: u32,
    pub floor: u64,
    pub count: usize,
    /// The first position above the floor and all slots.
    pub edge: u64,
}

/// A way to test a memory, and to find a place in a good one.
pub trait Version<const SLOT: usize> {
    /// Nothing where the memory is not good.
    fn check(mem: &[u8]) -> Option<Header>;

    /// How many of the used slots stand before a position.
    fn place(mem: &[u8], header: &Header, position: u64) -> usize;
}

pub fn u16_at(bytes: &[u8], at: usize) -> u16 {
    u16::from_le_bytes(bytes[at..at + 2].try_into().unwrap())
}

pub fn u32_at(bytes: &[u8], at: usize) -> u32 {
    u32::from_le_bytes(bytes[at..at + 4].try_into().unwrap())
}

pub fn u64_at(bytes: &[u8], at: usize) -> u64 {
    u64::from_le_bytes(bytes[at..at + 8].try_into().unwrap())
}

/// The kind of a slot that is trimmed and was never written.
pub const STRAY: u8 = 4;

/// Whether a slot of this kind is trimmed.
fn gone(kind: u8) -> bool {
    kind == 3 || kind == STRAY
}

/// The first position above the floor and all slots that were written: the stray ones at the end are passed over.
fn written<const SLOT: usize>(mem: &[u8], header: &Header) -> u64 {
    let used = &mem[HEADER..HEADER + header.count * SLOT];
    let last = used.rchunks_exact(SLOT).find(|slot| slot[8] != STRAY);
    last.map_or(header.floor, |slot| u64_at(slot, 0) + 1)
}

/// Where the slot of a position stands or would stand, and its kind where there is one.
fn find<V: Version<SLOT>, const SLOT: usize>(mem: &[u8], header: &Header, position: u64) -> (usize, Option<u8>) {
    let before = V::place(mem, header, position);
    let at = HEADER + before * SLOT;
    let held = before < header.count && u64_at(mem, at) == position;
    (at, held.then(|| mem[at + 8]))
}

/// Puts a slot in its place and counts it.
fn insert<const SLOT: usize>(mem: &mut [u8], at: usize, header: &Header, position: u64, kind: u8, data: &[u8]) {
    mem.copy_within(at..HEADER + header.count * SLOT, at + SLOT);
    let slot = &mut mem[at..at + SLOT];
    slot.fill(0);
    slot[..8].copy_from_slice(&position.to_le_bytes());
    slot[8] = kind;
    slot[9] = data.len() as u8;
    slot[PAYLOAD..PAYLOAD + data.len()].copy_from_slice(data);
    mem[16..18].copy_from_slice(&(header.count as u16 + 1).to_le_bytes());
}

pub fn write<V: Version<SLOT>, const SLOT: usize>(
    mem: &mut [u8],
    epoch: u32,
    position: u64,
    kind: u8,
    data: &[u8],
) -> u8 {
    let Some(header) = V::check(mem) else { return 1 };
    if position >= POSITIONS {
        return 2;
    }
    let good = (kind == 1 && data.len() <= page(SLOT)) || (kind == 2 && data.is_empty());
    if !good {
        return 3;
    }
    if epoch <= header.sealed {
        return 4;
    }
    let (at, held) = find::<V, SLOT>(mem, &header, position);
    if position < header.floor || held.is_some_and(gone) {
        return 5;
    }
    if held.is_some() {
        return 6;
    }
    if header.count == slots(SLOT) {
        return 8;
    }
    insert::<SLOT>(mem, at, &header, position, kind, data);
    0
}

pub fn read<V: Version<SLOT>, const SLOT: usize>(
    mem: &[u8],
    epoch: u32,
    position: u64,
    kind: &mut u8,
    start: &mut u64,
    length: &mut u64,
) -> u8 {
    let Some(header) = V::check(mem) else { return 1 };
    if position >= POSITIONS {
        return 2;
    }
    if epoch <= header.sealed {
        return 4;
    }
    let (at, held) = find::<V, SLOT>(mem, &header, position);
    if position < header.floor || held.is_some_and(gone) {
        return 5;
    }
    let Some(held) = held else { return 7 };
    *kind = held;
    *start = (at + PAYLOAD) as u64;
    *length = u64::from(mem[at + 9]);
    0
}

pub fn trim<V: Version<SLOT>, const SLOT: usize>(mem: &mut [u8], epoch: u32, position: u64) -> u8 {
    let Some(header) = V::check(mem) else { return 1 };
    if position >= POSITIONS {
        return 2;
    }
    if epoch <= header.sealed {
        return 4;
    }
    if position < header.floor {
        return 0;
    }
    let (at, held) = find::<V, SLOT>(mem, &header, position);
    if let Some(held) = held {
        if !gone(held) {
            mem[at + 8..at + SLOT].fill(0);
            mem[at + 8] = 3;
        }
        return 0;
    }
    if header.count == slots(SLOT) {
        return 8;
    }
    insert::<SLOT>(mem, at, &header, position, STRAY, &[]);
    0
}

pub fn prune<V: Version<SLOT>, const SLOT: usize>(mem: &mut [u8], epoch: u32, position: u64) -> u8 {
    let Some(header) = V::check(mem) else { return 1 };
    if position > POSITIONS {
        return 2;
    }
    if epoch <= header.sealed {
        return 4;
    }
    if position > header.floor {
        let passed = V::place(mem, &header, position);
        let left = header.count - passed;
        let end = HEADER + header.count * SLOT;
        mem.copy_within(HEADER + passed * SLOT..end, HEADER);
        mem[HEADER + left * SLOT..end].fill(0);
        mem[8..16].copy_from_slice(&position.to_le_bytes());
        mem[16..18].copy_from_slice(&(left as u16).to_le_bytes());
    }
    0
}

pub fn seal<V: Version<SLOT>, const SLOT: usize>(mem: &mut [u8], epoch: u32, edge: &mut u64, to: &mut u64) -> u8 {
    let Some(header) = V::check(mem) else { return 1 };
    if epoch < header.sealed {
        return 4;
    }
    mem[4..8].copy_from_slice(&epoch.to_le_bytes());
    *edge = header.edge;
    *to = written::<SLOT>(mem, &header);
    0
}

pub fn edges<V: Version<SLOT>, const SLOT: usize>(mem: &[u8], edge: &mut u64, to: &mut u64) -> u8 {
    let Some(header) = V::check(mem) else { return 1 };
    *edge = header.edge;
    *to = written::<SLOT>(mem, &header);
    0
}
