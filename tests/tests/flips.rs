//! Memories with one and with two flipped bits: every bit of the header and of the slots that matter most, and random others.

use reading::memory::{encode, HEADER, SIZE};
use reading::unit::Unit;
use reading::unit_call::{Call, Outputs};
use station_tests::compare::agree;
use station_tests::random::Random;
use station_tests::samples::{probes, units};

fn flip(memory: &mut [u8], bit: usize) {
    memory[bit / 8] ^= 1 << (bit % 8);
}

/// The bits of the header, of the first three slots, of the last used slot and of the slot after it.
fn bits_that_matter(unit: &Unit) -> Vec<usize> {
    let (used, size) = (unit.cells.len(), unit.shape.slot());
    let slot = |index: usize| (HEADER + index * size)..(HEADER + (index + 1) * size);
    let places = [0..HEADER, slot(0), slot(1), slot(2), slot(used.max(1) - 1), slot(used.min(unit.shape.slots() - 1))];
    places.into_iter().flat_map(|bytes| bytes.start * 8..bytes.end * 8).collect()
}

#[test]
fn one_bit_that_matters_and_every_call() {
    for (name, unit) in units() {
        let mut memory = encode(&unit);
        let mut calls = probes(&unit);
        calls.extend([0, 1].map(|shape| Call::Fresh { number: 8, shape }));
        for bit in bits_that_matter(&unit) {
            flip(&mut memory, bit);
            for call in &calls {
                agree(&format!("{name}, bit {bit} flipped"), &memory, call, Outputs::UNTOUCHED);
            }
            flip(&mut memory, bit);
        }
    }
}

#[test]
fn each_bit_of_a_memory() {
    for (name, unit) in units() {
        if !["pages of each kind", "full and mixed"].iter().any(|kept| name.ends_with(kept)) {
            continue;
        }
        let mut memory = encode(&unit);
        let calls = probes(&unit);
        let mut refused = 0;
        for bit in 0..SIZE * 8 {
            flip(&mut memory, bit);
            let call = &calls[bit % calls.len()];
            refused += usize::from(
                agree(&format!("{name}, bit {bit} flipped"), &memory, call, Outputs::UNTOUCHED).answer == 1,
            );
            flip(&mut memory, bit);
        }
        println!("{name}: {refused} of {} flipped bits are refused with 1", SIZE * 8);
        assert!(refused > SIZE, "{name}: hardly a flipped bit was refused");
    }
}

#[test]
fn two_random_bits() {
    for (number, (name, unit)) in units().iter().enumerate() {
        let seed = 7000 + number as u64;
        let mut random = Random::new(seed);
        let mut memory = encode(unit);
        let calls = probes(unit);
        let near = bits_that_matter(unit);
        for turn in 0..3000 {
            let first = random.one_of(&near);
            let second = if turn % 2 == 0 { random.one_of(&near) } else { random.below(8 * SIZE as u64) as usize };
            flip(&mut memory, first);
            flip(&mut memory, second);
            let call = &calls[turn % calls.len()];
            agree(
                &format!("{name}, seed {seed}, bits {first} and {second} flipped"),
                &memory,
                call,
                Outputs::UNTOUCHED,
            );
            flip(&mut memory, first);
            flip(&mut memory, second);
        }
    }
}
