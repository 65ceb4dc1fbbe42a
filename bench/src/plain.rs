//! The version that one writes first: slot by slot, zeros by `iter().all(..)`, and a walk to find a place.

use crate::unit::{names_unit, page, slots, u16_at, u32_at, u64_at, Header, Version, HEADER, MEMORY, PAYLOAD, POSITIONS};

pub struct Plain;

fn zeros(bytes: &[u8]) -> bool {
    bytes.iter().all(|byte| *byte == 0)
}

fn good_page(slot: &[u8]) -> bool {
    let (kind, length) = (slot[8], usize::from(slot[9]));
    (1..=4).contains(&kind)
        && length <= page(slot.len())
        && (kind == 1 || length == 0)
        && zeros(&slot[10..PAYLOAD])
        && zeros(&slot[PAYLOAD + length..])
}

impl<const SLOT: usize> Version<SLOT> for Plain {
    fn check(mem: &[u8]) -> Option<Header> {
        if mem.len() != MEMORY {
            return None;
        }
        let floor = u64_at(mem, 8);
        let count = usize::from(u16_at(mem, 16));
        if !names_unit(SLOT, u32_at(mem, 0)) || floor > POSITIONS || count > slots(SLOT) || !zeros(&mem[18..HEADER]) {
            return None;
        }
        let (used, unused) = mem[HEADER..].split_at(count * SLOT);
        let mut edge = floor;
        for slot in used.chunks_exact(SLOT) {
            let position = u64_at(slot, 0);
            if position < edge || position >= POSITIONS || !good_page(slot) {
                return None;
            }
            edge = position + 1;
        }
        zeros(unused).then(|| Header { sealed: u32_at(mem, 4), floor, count, edge })
    }

    fn place(mem: &[u8], header: &Header, position: u64) -> usize {
        let used = &mem[HEADER..HEADER + header.count * SLOT];
        used.chunks_exact(SLOT).position(|slot| u64_at(slot, 0) >= position).unwrap_or(header.count)
    }
}
