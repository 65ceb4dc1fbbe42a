//! Memories of every other length are refused with 1, and not a byte of them or of the outputs changes.

use reading::memory::{encode, SIZE};
use reading::unit_call::{Call, Outputs};
use station_tests::compare::agree;
use station_tests::samples::{probes, units};

const LENGTHS: [usize; 20] =
    [0, 1, 8, 16, 23, 24, 25, 71, 72, 119, 120, 6072, 6120, 6167, 6169, 6264, 2 * 6168, 65536, 65536 + 6168, 1 << 20];

/// The first `length` bytes of a good memory, with zeros after it where that is longer.
fn cut(memory: &[u8], length: usize) -> Vec<u8> {
    let mut cut = memory.to_vec();
    cut.resize(length, 0);
    cut
}

#[test]
fn other_lengths() {
    for (name, unit) in units() {
        let memory = encode(&unit);
        for length in LENGTHS {
            assert_ne!(length, SIZE);
            let mut calls = probes(&unit);
            calls.extend([(0, 0), (1, 0), (8, 1), (9, 1), (9, 2)].map(|(number, shape)| Call::Fresh { number, shape }));
            calls.push(Call::Write { epoch: 0, position: u64::MAX, kind: 9, data: vec![1; 99] });
            for call in calls {
                let after =
                    agree(&format!("{name}, {length} bytes of it"), &cut(&memory, length), &call, Outputs::UNTOUCHED);
                assert_eq!((after.answer, after.outputs), (1, Outputs::UNTOUCHED), "{call:?} on {length} bytes");
            }
        }
    }
}

#[test]
fn two_good_memories_in_a_row_are_none() {
    for (name, unit) in units() {
        let twice = [encode(&unit), encode(&unit)].concat();
        for call in probes(&unit) {
            assert_eq!(agree(&format!("{name}, twice"), &twice, &call, Outputs::UNTOUCHED).answer, 1);
        }
    }
}
