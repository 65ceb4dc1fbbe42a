//! A layout as bytes: its epoch, a byte for the yard's shape, and sections in fixed order, each after its one-byte count.

use crate::bytes::Reader;
use crate::layout::{Layout, Range, Set, RANGES, SETS, SET_UNITS, UNITS};

/// The bytes of the largest layout: epoch, shape, units, sets and ranges.
pub const BYTES: usize = 4 + 1 + (1 + UNITS as usize) + (1 + SETS * (1 + SET_UNITS)) + (1 + RANGES * 9);

/// The section of sets.
pub fn encode_sets(sets: &[Set]) -> Vec<u8> {
    let mut bytes = vec![sets.len() as u8];
    for set in sets {
        bytes.push(set.len() as u8);
        bytes.extend(set);
    }
    bytes
}

/// The bytes of a layout, good or not: `units` is what its unit section says.
pub fn encode_with(layout: &Layout, units: &[u8]) -> Vec<u8> {
    let mut bytes = layout.epoch.to_le_bytes().to_vec();
    bytes.push(layout.shape);
    bytes.push(units.len() as u8);
    bytes.extend(units);
    bytes.extend(encode_sets(&layout.sets));
    bytes.push(layout.ranges.len() as u8);
    for range in &layout.ranges {
        bytes.extend(range.start.to_le_bytes());
        bytes.push(range.uses);
    }
    bytes
}

/// What the unit section of a good layout says.
pub fn unit_section(layout: &Layout) -> Vec<u8> {
    layout.units().into_iter().collect()
}

pub fn encode(layout: &Layout) -> Vec<u8> {
    encode_with(layout, &unit_section(layout))
}

fn sets(reader: &mut Reader) -> Option<Vec<Set>> {
    (0..reader.byte()?).map(|_| reader.counted()).collect()
}

fn range(reader: &mut Reader) -> Option<Range> {
    Some(Range { start: reader.number(8)?, uses: reader.byte()? })
}

/// The good layout that these bytes are; none where they are not one.
pub fn decode(bytes: &[u8]) -> Option<Layout> {
    let mut reader = Reader { left: bytes };
    let epoch = reader.number(4)? as u32;
    let shape = reader.byte()?;
    let named = reader.counted()?;
    let sets = sets(&mut reader)?;
    let ranges = (0..reader.byte()?).map(|_| range(&mut reader)).collect::<Option<Vec<_>>>()?;
    let layout = Layout { epoch, shape, sets, ranges };
    (reader.left.is_empty() && named == unit_section(&layout) && layout.good()).then_some(layout)
}

/// New sets, good or not: a section of sets and nothing else. No bytes are no sets.
pub fn decode_sets(bytes: &[u8]) -> Option<Vec<Set>> {
    if bytes.is_empty() {
        return Some(Vec::new());
    }
    let mut reader = Reader { left: bytes };
    let sets = sets(&mut reader)?;
    reader.left.is_empty().then_some(sets)
}
