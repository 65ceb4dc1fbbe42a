//! Unit memory: 6,168 bytes, little-endian.

use crate::layout::UNITS;
use crate::no::{self, unless, No, LIMIT};
use crate::shape::{Shape, PAYLOAD};
use crate::unit::{Cell, Unit};
use std::collections::BTreeMap;

pub const HEADER: usize = 24;
pub const SIZE: usize = 6168;

/// The fresh unit that a memory of this length may become, of the shape that the byte names.
pub fn fresh(length: usize, number: u32, shape: u8) -> Result<Unit, No> {
    unless(length != SIZE, no::MEMORY)?;
    let shape = Shape::of(shape).ok_or(no::LAYOUT)?;
    unless(!(1..=UNITS.into()).contains(&number), no::NOBODY)?;
    Ok(Unit::fresh(number as u8, shape))
}

/// Where the payload of a used position stands in a unit's memory.
pub fn payload_at(unit: &Unit, position: u64) -> usize {
    HEADER + unit.cells.range(..position).count() * unit.shape.slot() + PAYLOAD
}

/// The bytes of a unit's memory.
pub fn encode(unit: &Unit) -> Vec<u8> {
    let mut memory = Vec::with_capacity(SIZE);
    memory.extend([unit.number, unit.shape.byte(), 0, 0]);
    memory.extend(unit.sealed.to_le_bytes());
    memory.extend(unit.floor.to_le_bytes());
    memory.extend((unit.cells.len() as u16).to_le_bytes());
    memory.extend([0; 6]);
    for (position, cell) in &unit.cells {
        let (kind, payload): (u8, &[u8]) = match cell {
            Cell::Holds(page) => (page.kind(), page.bytes()),
            Cell::Trimmed => (3, &[]),
            Cell::Stray => (4, &[]),
        };
        memory.extend(position.to_le_bytes());
        memory.extend([kind, payload.len() as u8, 0, 0, 0, 0, 0, 0]);
        memory.extend(payload);
        memory.resize(memory.len() + unit.shape.payload() - payload.len(), 0);
    }
    memory.resize(SIZE, 0);
    memory
}

fn number(bytes: &[u8]) -> u64 {
    bytes.iter().rev().fold(0, |n, b| n * 256 + u64::from(*b))
}

fn all_zero(bytes: &[u8]) -> bool {
    bytes.iter().all(|b| *b == 0)
}

/// One used slot: none where it is not good by itself.
fn slot(bytes: &[u8], shape: Shape) -> Option<(u64, Cell)> {
    let (position, kind, length) = (number(&bytes[..8]), bytes[8], usize::from(bytes[9]));
    let payload = &bytes[PAYLOAD..];
    if position >= LIMIT || length > shape.payload() || !all_zero(&bytes[10..PAYLOAD]) || !all_zero(&payload[length..])
    {
        return None;
    }
    match kind {
        1 => Some((position, Cell::data(&payload[..length]))),
        2 if length == 0 => Some((position, Cell::JUNK)),
        3 if length == 0 => Some((position, Cell::Trimmed)),
        4 if length == 0 => Some((position, Cell::Stray)),
        _ => None,
    }
}

/// The unit of a good memory; none where the memory is not good.
pub fn decode(memory: &[u8]) -> Option<Unit> {
    if memory.len() != SIZE {
        return None;
    }
    let (header, slots) = memory.split_at(HEADER);
    let (unit, shape) = (header[0], Shape::of(header[1])?);
    let (floor, count) = (number(&header[8..16]), number(&header[16..18]) as usize);
    if !(1..=UNITS).contains(&unit)
        || !all_zero(&header[2..4])
        || floor > LIMIT
        || count > shape.slots()
        || !all_zero(&header[18..])
    {
        return None;
    }
    let (used, unused) = slots.split_at(count * shape.slot());
    let mut cells = BTreeMap::new();
    let mut lowest = floor;
    for bytes in used.chunks(shape.slot()) {
        let (position, cell) = slot(bytes, shape)?;
        if position < lowest {
            return None;
        }
        lowest = position + 1;
        cells.insert(position, cell);
    }
    all_zero(unused).then(|| Unit { number: unit, shape, sealed: number(&header[4..8]) as u32, floor, cells })
}
