//! A memory from before there were two shapes: the library of that version made `old/unit-3.memory` by the calls below, and kept
//! nothing in the three bytes behind the unit's number. It reads as a small unit, and the same calls still leave those bytes but
//! for one: a position that was trimmed and never written had kind 3 in those days, and has 4 now.

use reading::memory::{decode, encode, SIZE};
use reading::shape::Shape;
use reading::unit::{Cell, Page, Unit};
use reading::unit_call::{Call, Outputs, Side};
use station_tests::compare::{agree, SIDES};
use station_tests::samples::probes;
use std::collections::BTreeMap;

const OLD: &[u8; SIZE] = include_bytes!("../old/unit-3.memory");

/// Bytes for the page at a position: of each length in turn, from none to a whole page.
fn bytes(position: u64) -> Vec<u8> {
    (0..position % 33).map(|byte| (11 * position + 7 * byte) as u8).collect()
}

fn write(epoch: u32, position: u64, kind: u8, data: Vec<u8>) -> Call {
    Call::Write { epoch, position, kind, data }
}

/// The calls that made it, after a fresh unit 3: pages from 0 to 129, junk at each seventh, pruned to 10 on the way, sealed at 1,
/// then three trims, of data, of junk and of a position never written.
fn calls() -> Vec<Call> {
    let page = |position| match position % 7 {
        6 => write(1, position, 2, Vec::new()),
        _ => write(1, position, 1, bytes(position)),
    };
    let mut calls: Vec<Call> = (0..100).map(page).collect();
    calls.push(Call::Prune { epoch: 1, position: 10 });
    calls.extend((100..130).map(page));
    calls.push(Call::Seal { epoch: 1 });
    calls.extend([12, 13, 1 << 33].map(|position| Call::Trim { epoch: 2, position }));
    calls
}

/// The unit that the rules say they leave.
fn expected() -> Unit {
    let page = |position| match position {
        12 | 13 => (position, Cell::Trimmed),
        _ if position % 7 == 6 => (position, Cell::JUNK),
        _ => (position, Cell::data(&bytes(position))),
    };
    let mut cells: BTreeMap<u64, Cell> = (10..130).map(page).collect();
    cells.insert(1 << 33, Cell::Trimmed);
    Unit { number: 3, shape: Shape::Small, sealed: 1, floor: 10, cells }
}

#[test]
fn an_old_memory_is_a_small_unit() {
    assert_eq!(OLD[..4], [3, 0, 0, 0]);
    assert_eq!(decode(OLD), Some(expected()));
    assert_eq!(encode(&expected()), OLD);
}

#[test]
fn its_pages_are_read() {
    for (position, cell) in &expected().cells {
        let seen = agree("the old memory", OLD, &Call::Read { epoch: 2, position: *position }, Outputs::UNTOUCHED);
        match cell {
            Cell::Holds(Page::Data(data)) => {
                assert_eq!((seen.answer, seen.outputs.kind), (0, 1), "read {position}");
                let start = seen.outputs.start as usize;
                assert_eq!(&OLD[start..start + seen.outputs.length as usize], data, "read {position}");
            }
            Cell::Holds(Page::Junk) => {
                assert_eq!((seen.answer, seen.outputs.kind, seen.outputs.length), (0, 2, 0), "read {position}")
            }
            Cell::Trimmed | Cell::Stray => assert_eq!(seen.answer, 5, "read {position}"),
        }
    }
}

#[test]
fn it_goes_on_as_a_small_unit() {
    for call in probes(&expected()) {
        agree("the old memory", OLD, &call, Outputs::UNTOUCHED);
    }
    let long = |length| write(2, 1000, 1, vec![1; length]);
    assert_eq!(agree("the old memory", OLD, &long(32), Outputs::UNTOUCHED).answer, 0);
    assert_eq!(agree("the old memory", OLD, &long(33), Outputs::UNTOUCHED).answer, 3);
}

/// Nothing in it says that the last position was never written, so it counts as written.
#[test]
fn its_stray_trim_counts_as_written() {
    let told = agree("the old memory", OLD, &Call::Edges, Outputs::UNTOUCHED).outputs;
    assert_eq!((told.edge, told.written), ((1 << 33) + 1, (1 << 33) + 1));
}

#[test]
fn the_same_calls_leave_the_same_bytes_but_for_the_stray_trim() {
    let made = |side: Side| {
        let fresh = side(&[0x5A; SIZE], &Call::Fresh { number: 3, shape: 0 }, Outputs::UNTOUCHED).memory;
        calls().iter().fold(fresh, |memory, call| {
            let after = side(&memory, call, Outputs::UNTOUCHED);
            assert_eq!(after.answer, 0, "{call:?}");
            after.memory
        })
    };
    let mut expected = expected();
    expected.cells.insert(1 << 33, Cell::Stray);
    for side in SIDES {
        assert!(made(side) == encode(&expected), "the calls leave other bytes now");
    }
}
