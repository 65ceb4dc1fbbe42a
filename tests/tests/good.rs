//! Good memory, sentence by sentence: each broken alone, and each at the last value that is still good.

use reading::memory::{decode, encode, HEADER, SIZE};
use reading::no::LIMIT;
use reading::shape::Shape;
use reading::unit::{Cell, Unit};
use reading::unit_call::{self, Call, Outputs};
use station_tests::compare::agree;
use station_tests::random::Random;
use station_tests::samples::{probes, units};
use station_tests::weather::WEATHERS;

/// A good memory of one shape, to be broken in one place.
struct Whole(Shape);

impl Whole {
    /// Slot 0: data of 4 bytes at 5; slot 1: junk at 7; slot 2: trimmed at 9. The floor is 5.
    fn three(&self) -> Unit {
        let cells = [(5, Cell::data(&[9, 8, 7, 6])), (7, Cell::JUNK), (9, Cell::Trimmed)];
        Unit { number: 3, shape: self.0, sealed: 2, floor: 5, cells: cells.into_iter().collect() }
    }

    /// A byte of slot `index`.
    fn slot(&self, index: usize, byte: usize) -> usize {
        HEADER + index * self.0.slot() + byte
    }

    /// Stores numbers of so many bytes at offsets, and says whether the memory is good then.
    fn edited(&self, what: &str, edits: &[(usize, usize, u64)], good: bool) {
        let mut memory = encode(&self.three());
        for (at, width, number) in edits {
            memory[*at..at + width].copy_from_slice(&number.to_le_bytes()[..*width]);
        }
        let what = format!("{:?}, {what}", self.0);
        assert_eq!(decode(&memory).is_some(), good, "the reading on: {what}");
        for call in probes(&self.three()) {
            let after = agree(&what, &memory, &call, Outputs::UNTOUCHED);
            assert_eq!(after.answer != 1, good, "{call:?} on: {what}");
        }
        for shape in [0, 1] {
            let fresh = agree(&what, &memory, &Call::Fresh { number: 3, shape }, Outputs::UNTOUCHED);
            assert_eq!(fresh.answer, 0, "whatever the bytes were: {what}");
        }
    }
}

/// The same in both shapes.
fn in_both(tried: fn(Whole)) {
    Shape::ALL.into_iter().for_each(|shape| tried(Whole(shape)));
}

#[test]
fn header() {
    in_both(|whole| {
        whole.edited("unit 0", &[(0, 1, 0)], false);
        whole.edited("unit 1", &[(0, 1, 1)], true);
        whole.edited("unit 8", &[(0, 1, 8)], true);
        whole.edited("unit 9", &[(0, 1, 9)], false);
        whole.edited("unit 3 + 2^16", &[(2, 1, 1)], false);
        whole.edited("unit 3 + 2^24", &[(3, 1, 1)], false);
        whole.edited("unit 3 + 2^31", &[(3, 1, 128)], false);
        whole.edited("sealed epoch of all ones but the last", &[(4, 4, 0xFFFF_FFFE)], true);
        whole.edited("floor above the first slot", &[(8, 8, 6)], false);
        whole.edited("floor 0", &[(8, 8, 0)], true);
        whole.edited("floor 2^40 with slots", &[(8, 8, LIMIT)], false);
        whole.edited("floor 2^40 without slots", &[(8, 8, LIMIT), (16, 2, 0)], false);
        whole.edited("floor 2^63", &[(8, 8, 1 << 63)], false);
        for byte in 18..24 {
            whole.edited("one of the header's six bytes", &[(byte, 1, 1)], false);
            whole.edited("one of the header's six bytes", &[(byte, 1, 128)], false);
        }
    });
}

#[test]
fn shapes() {
    in_both(|whole| {
        for byte in 0..=255 {
            whole.edited(&format!("shape {byte}"), &[(1, 1, byte)], byte == whole.0.byte().into());
        }
    });
}

#[test]
fn count() {
    in_both(|whole| {
        whole.edited("one slot fewer than used", &[(16, 2, 2)], false);
        whole.edited("one slot more than used", &[(16, 2, 4)], false);
        whole.edited("no slot counted", &[(16, 2, 0)], false);
        whole.edited("one slot more than there are", &[(16, 2, whole.0.slots() as u64 + 1)], false);
        whole.edited("65535 slots", &[(16, 2, 65535)], false);
        whole.edited("3 + 256 slots", &[(16, 2, 259)], false);
    });
}

#[test]
fn positions() {
    in_both(|whole| {
        let at = |index| whole.slot(index, 0);
        whole.edited("equal positions", &[(at(1), 8, 5)], false);
        whole.edited("falling positions", &[(at(1), 8, 10)], false);
        whole.edited("positions with no gap", &[(at(1), 8, 6)], true);
        whole.edited("first position below the floor", &[(at(0), 8, 4)], false);
        whole.edited("last position", &[(at(2), 8, LIMIT - 1)], true);
        whole.edited("position 2^40", &[(at(2), 8, LIMIT)], false);
        whole.edited("position of all ones", &[(at(2), 8, u64::MAX)], false);
        whole.edited("position 9 + 2^32", &[(at(2), 8, 9 + (1 << 32))], true);
        whole.edited("rising only in the low bytes", &[(at(1), 8, 7 + (1 << 32))], false);
    });
}

#[test]
fn kinds_and_lengths() {
    in_both(|whole| {
        let (kind, length) = (|index| whole.slot(index, 8), |index| whole.slot(index, 9));
        let longest = whole.0.payload() as u64;
        whole.edited("kind 0", &[(kind(1), 1, 0)], false);
        whole.edited("kind 5", &[(kind(1), 1, 5)], false);
        whole.edited("kind 255", &[(kind(1), 1, 255)], false);
        whole.edited("junk made data of no bytes", &[(kind(1), 1, 1)], true);
        whole.edited("junk made trimmed", &[(kind(1), 1, 3)], true);
        whole.edited("junk made stray", &[(kind(1), 1, 4)], true);
        whole.edited("data made stray", &[(kind(0), 1, 4)], false);
        whole.edited("junk of length 1", &[(length(1), 1, 1)], false);
        whole.edited("trimmed of length 1", &[(length(2), 1, 1)], false);
        whole.edited("stray of length 1", &[(kind(2), 1, 4), (length(2), 1, 1)], false);
        whole.edited("data of the longest length", &[(length(0), 1, longest)], true);
        whole.edited("data of one byte more", &[(length(0), 1, longest + 1)], false);
        whole.edited("data of length 255", &[(length(0), 1, 255)], false);
        whole.edited("data that ends past its length", &[(length(0), 1, 3)], false);
        whole.edited("data with a zero within its length", &[(length(0), 1, 5)], true);
    });
}

#[test]
fn zeros() {
    in_both(|whole| {
        let last = whole.0.slots() - 1;
        for byte in 10..16 {
            whole.edited("one of a slot's six bytes", &[(whole.slot(0, byte), 1, 1)], false);
            whole.edited("one of a slot's six bytes", &[(whole.slot(2, byte), 1, 64)], false);
        }
        for byte in 16..whole.0.slot() {
            whole.edited("payload of data", &[(whole.slot(0, byte), 1, 1)], byte < 20);
            whole.edited("payload of junk", &[(whole.slot(1, byte), 1, 1)], false);
            whole.edited("payload of trimmed", &[(whole.slot(2, byte), 1, 128)], false);
            whole.edited("payload of an unused slot", &[(whole.slot(3, byte), 1, 1)], false);
            whole.edited("payload of the last slot", &[(whole.slot(last, byte), 1, 128)], false);
        }
        for byte in 0..16 {
            whole.edited("an unused slot", &[(whole.slot(3, byte), 1, 1)], false);
            whole.edited("the last slot", &[(whole.slot(last, byte), 1, 1)], false);
        }
    });
}

#[test]
fn random_bytes_are_not_good() {
    for seed in 0..200 {
        let memory = Random::new(seed).bytes(SIZE);
        for call in probes(&Whole(Shape::Small).three()) {
            assert_eq!(agree(&format!("random bytes, seed {seed}"), &memory, &call, Outputs::UNTOUCHED).answer, 1);
        }
    }
}

#[test]
fn parsing_undoes_printing() {
    for (name, unit) in units() {
        assert_eq!(decode(&encode(&unit)).as_ref(), Some(&unit), "{name}");
    }
    in_both(|whole| {
        let mut random = Random::new(1);
        let mut unit = whole.three();
        for _ in 0..2000 {
            let call = WEATHERS[0].call(&mut random, &unit);
            let after = unit_call::after(&encode(&unit), &call, Outputs::UNTOUCHED);
            unit = decode(&after.memory).expect("a unit's own memory is good");
            assert_eq!(encode(&unit), after.memory, "after {call:?}");
        }
    });
}
