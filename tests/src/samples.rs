//! Units to try calls on: fresh, with pages of each kind, half full, full, pruned, ended, sealed for good.

use reading::no::LIMIT;
use reading::shape::Shape;
use reading::unit::{Cell, Unit};
use reading::unit_call::Call;

/// What is in the slot with this index: data of many lengths, junk, trimmed and stray.
fn mixed(shape: Shape, index: u64) -> Cell {
    let longest = shape.payload() as u64;
    match index % 10 {
        3 | 8 => Cell::JUNK,
        4 => Cell::Trimmed,
        9 => Cell::Stray,
        _ => {
            let bytes = (0..(index * longest / 32) % (longest + 1)).map(|byte| 255 - 3 * byte as u8);
            Cell::data(&bytes.collect::<Vec<u8>>())
        }
    }
}

/// The samples of both shapes.
pub fn units() -> Vec<(String, Unit)> {
    let named = |shape| move |(name, unit)| (format!("{shape:?}, {name}"), unit);
    Shape::ALL.into_iter().flat_map(|shape| of_shape(shape).into_iter().map(named(shape))).collect()
}

fn of_shape(shape: Shape) -> Vec<(&'static str, Unit)> {
    let all = shape.slots() as u64;
    let mixed = |index| mixed(shape, index);
    let full_page = || Cell::data(&vec![0xFF; shape.payload()]);
    let unit = |number, sealed, floor, cells: Vec<(u64, Cell)>| Unit {
        number,
        shape,
        sealed,
        floor,
        cells: cells.into_iter().collect(),
    };
    vec![
        ("fresh", unit(1, 0, 0, vec![])),
        ("one empty page", unit(2, 0, 0, vec![(0, Cell::data(&[]))])),
        (
            "pages of each kind",
            unit(3, 1, 5, vec![(5, Cell::JUNK), (7, full_page()), (8, Cell::Trimmed), (9, Cell::Stray), (300, mixed(1))]),
        ),
        ("half full", unit(4, 1, 3, (0..all / 2).map(|i| (3 + 2 * i, mixed(i))).collect())),
        ("nearly full", unit(4, 6, 0, (0..all - 1).map(|i| (2 * i, mixed(i))).collect())),
        ("full of data", unit(5, 0, 0, (0..all).map(|i| (i, full_page())).collect())),
        ("full and mixed", unit(6, 2, 10, (0..all).map(|i| (10 + 3 * i, mixed(i))).collect())),
        ("full of trimmed", unit(7, 0, 1, (0..all).map(|i| (1 + i, Cell::Trimmed)).collect())),
        ("full of stray", unit(7, 0, 1, (0..all).map(|i| (1 + i, Cell::Stray)).collect())),
        ("stray behind what was written", unit(2, 0, 0, vec![(3, Cell::Trimmed), (4, Cell::Stray), (LIMIT - 1, Cell::Stray)])),
        ("pruned", unit(8, 0, 1 << 33, vec![])),
        ("pruned to the end", unit(1, 3, LIMIT, vec![])),
        ("at the last position", unit(2, 0, LIMIT - 2, vec![(LIMIT - 1, full_page())])),
        ("sealed up to the last epoch but one", unit(3, u32::MAX - 1, 0, (0..9).map(|i| (i, mixed(i))).collect())),
        ("sealed for good", unit(4, u32::MAX, 0, (0..9).map(|i| (i, mixed(i))).collect())),
    ]
}

/// A call of each sort that a unit like this could well take, besides fresh ones.
pub fn probes(unit: &Unit) -> Vec<Call> {
    let epoch = unit.sealed.saturating_add(1);
    let edge = unit.edge();
    let last = unit.cells.keys().next_back().copied().unwrap_or(unit.floor);
    let first = unit.cells.keys().next().copied().unwrap_or(unit.floor);
    vec![
        Call::Read { epoch, position: first },
        Call::Read { epoch, position: last },
        Call::Write { epoch, position: edge, kind: 1, data: b"beside what stands".to_vec() },
        Call::Write { epoch, position: last.saturating_sub(1), kind: 2, data: Vec::new() },
        Call::Trim { epoch, position: first },
        Call::Trim { epoch, position: edge },
        Call::Prune { epoch, position: first + 1 },
        Call::Seal { epoch },
        Call::Edges,
    ]
}
