//! The corners of every argument, on every sample of a unit: all of them together, so that several refusals apply at once.

use reading::memory::encode;
use reading::no::LIMIT;
use reading::unit::Unit;
use reading::unit_call::{Call, Outputs};
use station_tests::compare::agree;
use station_tests::samples::units;

/// Extreme epochs, and those around the sealed one.
fn epochs(unit: &Unit) -> Vec<u32> {
    let mut epochs = vec![0, 1, 2, u32::MAX - 1, u32::MAX];
    epochs.extend([unit.sealed.saturating_sub(1), unit.sealed, unit.sealed.saturating_add(1)]);
    epochs.sort();
    epochs.dedup();
    epochs
}

/// Extreme positions, and those around the floor, the edge and some slots.
fn positions(unit: &Unit) -> Vec<u64> {
    let mut near = vec![0, 256, 1 << 32, LIMIT, unit.floor, unit.edge()];
    near.extend(unit.cells.keys().step_by(37).copied());
    let mut positions: Vec<u64> = near.iter().flat_map(|p| [p.saturating_sub(1), *p, p + 1]).collect();
    positions.extend([2 * LIMIT, u64::MAX - 1, u64::MAX]);
    positions.sort();
    positions.dedup();
    positions
}

/// Makes the calls on every sample, for each of its epochs and positions.
fn everywhere(calls: impl Fn(u32, u64) -> Vec<Call>) {
    for (name, unit) in units() {
        let memory = encode(&unit);
        for epoch in epochs(&unit) {
            for position in positions(&unit) {
                for call in calls(epoch, position) {
                    agree(&name, &memory, &call, Outputs::UNTOUCHED);
                }
            }
        }
    }
}

#[test]
fn reads_trims_and_prunes() {
    everywhere(|epoch, position| {
        vec![Call::Read { epoch, position }, Call::Trim { epoch, position }, Call::Prune { epoch, position }]
    });
}

#[test]
fn writes() {
    let pages: [(u8, usize); 12] =
        [(1, 0), (1, 1), (1, 32), (1, 33), (1, 80), (1, 81), (1, 256), (2, 0), (2, 1), (2, 33), (0, 0), (3, 0)];
    everywhere(|epoch, position| {
        let write = |(kind, length)| Call::Write { epoch, position, kind, data: vec![0xC3; length] };
        pages.map(write).to_vec()
    });
}

#[test]
fn seals() {
    for (name, unit) in units() {
        for epoch in epochs(&unit) {
            agree(&name, &encode(&unit), &Call::Seal { epoch }, Outputs::UNTOUCHED);
        }
    }
}

/// Whatever a unit holds and however it is sealed, and not a byte of it changes.
#[test]
fn edges() {
    for (name, unit) in units() {
        let after = agree(&name, &encode(&unit), &Call::Edges, Outputs::UNTOUCHED);
        let told = (after.outputs.edge, after.outputs.written);
        assert_eq!((after.answer, told), (0, (unit.edge(), unit.written_edge())), "{name}");
        assert!(after.memory == encode(&unit), "{name}: asked for its edges, and changed");
    }
}

#[test]
fn fresh_numbers() {
    for (name, unit) in units() {
        for number in (0..300).chain([1 << 16 | 1, 1 << 24 | 1, 1 << 31 | 1, u32::MAX]) {
            for shape in [0, 1] {
                let after = agree(&name, &encode(&unit), &Call::Fresh { number, shape }, Outputs::UNTOUCHED);
                assert_eq!(after.answer, if (1..=8).contains(&number) { 0 } else { 17 }, "fresh {number}");
            }
        }
    }
}

#[test]
fn fresh_shapes() {
    for (name, unit) in units() {
        for shape in 0..=255 {
            for number in [0, 1, 8, 9] {
                let after = agree(&name, &encode(&unit), &Call::Fresh { number, shape }, Outputs::UNTOUCHED);
                let expected = match (shape, number) {
                    (2.., _) => 10,
                    (_, 0 | 9) => 17,
                    _ => 0,
                };
                assert_eq!(after.answer, expected, "fresh {number} in shape {shape}");
            }
        }
    }
}

#[test]
fn every_kind_and_length() {
    for (name, unit) in units() {
        let memory = encode(&unit);
        let (epoch, position) = (unit.sealed.saturating_add(1), unit.edge());
        for kind in 0..=255 {
            for length in (0..=88).chain([255, 256, 257, 288, 6168, 65536, 65568]) {
                // long data of a kind that is none is tried for every sixteenth kind
                if length > 88 && kind > 4 && kind % 16 != 0 {
                    continue;
                }
                let data = (0..length).map(|byte| byte as u8).collect();
                agree(&name, &memory, &Call::Write { epoch, position, kind, data }, Outputs::UNTOUCHED);
            }
        }
    }
}
