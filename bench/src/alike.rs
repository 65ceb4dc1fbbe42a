//! Holds all sides to the answers, outputs and bytes of the independent reading, on good memories and on damaged ones.

use crate::call::{Call, Seen};
use crate::draw;
use crate::random::Random;
use crate::side::{sides, Side, SIDES};
use crate::unit::MEMORY;
use reading::unit_call::{self, Outputs};

/// What a unit answers: 0 to 8.
const ANSWERS: usize = 9;

/// The answer of one call on one memory, which is the reading's and that of all sides, as are the outputs and the bytes left behind.
pub fn answer(sides: &[Side; SIDES], memory: &[u8], call: &Call) -> u8 {
    let read = unit_call::after(memory, &call.read(), Outputs::UNTOUCHED);
    let wanted = Seen { answer: read.answer, outputs: read.outputs };
    for side in sides {
        let mut bytes = memory.to_vec();
        let seen = call.on(side)(&mut bytes);
        if seen != wanted || bytes != read.memory {
            let place = read.memory.iter().zip(&bytes).position(|(read, theirs)| read != theirs);
            panic!("{call:?}: the reading {wanted:?}, {} {seen:?}; bytes differ at {place:?}", side.name);
        }
    }
    read.answer
}

/// How often each number was answered to random calls on random memories, every second one damaged.
fn random_calls<const SLOT: usize>(tries: usize) -> [usize; ANSWERS] {
    let sides = sides();
    let mut random = Random::new(9);
    let mut seen = [0; ANSWERS];
    for nth in 0..tries {
        let mut memory = draw::memory::<SLOT>(&mut random);
        if nth % 2 == 1 {
            draw::damage::<SLOT>(&mut random, &mut memory);
        }
        let call = draw::call::<SLOT>(&mut random, &memory);
        seen[usize::from(answer(&sides, &memory, &call))] += 1;
    }
    seen
}

/// How many of the changes of one byte to a memory are refused, of how many.
fn every_byte<const SLOT: usize>() -> (usize, usize) {
    let sides = sides();
    let mut memory = draw::half_full::<SLOT>();
    let call = Call::Edges;
    assert_eq!(answer(&sides, &memory, &call), 0);
    let changes = [1, 0x80, 0xFF];
    let mut refused = 0;
    for at in 0..MEMORY {
        for change in changes {
            memory[at] ^= change;
            refused += usize::from(answer(&sides, &memory, &call) == 1);
            memory[at] ^= change;
        }
    }
    (refused, MEMORY * changes.len())
}

/// Fails where a side differs, or where what was tried does not show anything.
pub fn hold<const SLOT: usize>(tries: usize) {
    let seen = random_calls::<SLOT>(tries);
    let (refused, changes) = every_byte::<SLOT>();
    assert!(seen.iter().all(|times| *times > 0), "some answer never came: {seen:?}");
    assert!(0 < refused && refused < changes, "{refused} of {changes} changed bytes refused");
    println!("All sides alike on {tries} random calls, every second one on damaged memory; answers 0 to 8 came {seen:?} times.");
    println!("So they are on {changes} changes of one byte each to a good memory, of which {refused} are refused.");
}
