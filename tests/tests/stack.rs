//! Every entry on a painted stack of 2,048 bytes, as a relay has it: good and bad memories of both shapes, empty, half full and full, and every answer that the entry can give. It gives
//! what it gives on any other stack, the paint beyond stays, and no entry goes deeper than tools/stack counted.

use reading::memory::{decode, encode, HEADER, SIZE};
use reading::no::LIMIT;
use reading::stored;
use reading::unit::Unit;
use reading::unit_call::{self, Call, Outputs};
use station_tests::samples::{probes, units};
use station_tests::stack::{after, on_small_stack, PAINTS, PASSED, STACK};
use std::collections::{BTreeMap, BTreeSet};
use std::hint::black_box;
use std::mem::MaybeUninit;

/// All answers of each entry, as include/station.h lists them.
const ANSWERS: [(&str, &[u8]); 7] = [
    ("edges", &[0, 1]),
    ("fresh", &[0, 1, 10, 17]),
    ("prune", &[0, 1, 2, 4]),
    ("read", &[0, 1, 2, 4, 5, 7]),
    ("seal", &[0, 1, 4]),
    ("trim", &[0, 1, 2, 4, 8]),
    ("write", &[0, 1, 2, 3, 4, 5, 6, 8]),
];

/// What tools/stack counted for an entry on this machine, as docs/SPEED.md has it.
fn counted(entry: &str) -> usize {
    let page = stored::text("docs/SPEED.md");
    let row = page.lines().find(|line| line.starts_with(&format!("| `unit_{entry}` |"))).expect("a row of this entry");
    let column = if cfg!(target_arch = "x86_64") { 2 } else { 4 };
    row.split('|').nth(column).unwrap().trim().parse().unwrap()
}

/// Memories that are not good, made from a good one: found out at once, at the first slot, at the last, behind them.
fn bad_memories(unit: &Unit) -> Vec<(&'static str, Vec<u8>)> {
    let good = encode(unit);
    let cut = |length| good[..length].to_vec();
    let edited = |at: usize, byte| {
        let mut memory = good.clone();
        memory[at] = byte;
        memory
    };
    let mut bad = vec![
        ("no byte of it", cut(0)),
        ("its header alone", cut(HEADER)),
        ("all but its last byte", cut(SIZE - 1)),
        ("a byte more", [cut(SIZE), vec![0]].concat()),
        ("no unit's number", edited(0, 0)),
        ("no shape", edited(1, 2)),
        ("a byte of the header's six", edited(HEADER - 1, 1)),
        ("another count", edited(16, unit.cells.len() as u8 ^ 1)),
        ("a first slot of no kind", edited(HEADER + 8, 9)),
    ];
    if let Some(last) = unit.cells.len().checked_sub(1) {
        bad.push(("a last slot of no kind", edited(HEADER + last * unit.shape.slot() + 8, 9)));
    }
    if unit.cells.len() < unit.shape.slots() {
        bad.push(("a last byte that is not zero", edited(SIZE - 1, 1)));
    }
    assert!(bad.iter().all(|(_, memory)| decode(memory).is_none()));
    bad
}

/// Fresh units of both shapes, and of one that is none.
fn fresh_calls() -> Vec<Call> {
    let numbers = [0, 1, 8, 9, u32::MAX];
    numbers.into_iter().flat_map(|number| [0, 1, 2].map(|shape| Call::Fresh { number, shape })).collect()
}

/// Calls that a unit like this takes and refuses, for every reason that it has.
fn calls(unit: &Unit) -> Vec<Call> {
    let slot = |index: usize| unit.cells.keys().nth(index).copied().unwrap_or(unit.floor);
    let (middle, last) = (slot(unit.cells.len() / 2), slot(unit.cells.len().saturating_sub(1)));
    let positions = BTreeSet::from([0, unit.floor, slot(0), slot(1), slot(2), middle, last, unit.edge()]);
    let around = positions.iter().flat_map(|p| [p.saturating_sub(1), *p, p + 1]);
    let positions: BTreeSet<u64> = around.chain([LIMIT - 1, LIMIT, LIMIT + 1, u64::MAX]).collect();
    let epochs = BTreeSet::from([0, unit.sealed, unit.sealed.saturating_add(1), u32::MAX]);
    let mut calls = fresh_calls();
    calls.push(Call::Edges);
    for epoch in epochs {
        calls.push(Call::Seal { epoch });
        for &position in &positions {
            calls.extend([
                Call::Read { epoch, position },
                Call::Trim { epoch, position },
                Call::Prune { epoch, position },
            ]);
            for (kind, length) in [(1, 0), (1, 32), (1, 33), (1, 80), (1, 81), (2, 0), (2, 1), (3, 0)] {
                calls.push(Call::Write { epoch, position, kind, data: vec![0xC3; length] });
            }
        }
    }
    calls
}

/// What was seen of each entry, by its name.
#[derive(Default)]
struct Seen {
    answers: BTreeMap<&'static str, BTreeSet<u8>>,
    deepest: BTreeMap<&'static str, usize>,
}

impl Seen {
    /// Makes a call on the small stack, in each colour, and panics where it goes beyond or gives anything else than on another stack.
    fn call(&mut self, context: &str, memory: &[u8], call: &Call) {
        let expected = unit_call::after(memory, call, Outputs::UNTOUCHED);
        for paint in PAINTS {
            let (seen, depth) = after(paint, memory, call, Outputs::UNTOUCHED);
            assert!(depth <= STACK, "{call:?} on {context}: {depth} bytes deep, and there are {STACK}");
            assert!(seen == expected, "{call:?} on {context}: not what it gives elsewhere");
            let deepest = self.deepest.entry(call.name()).or_default();
            *deepest = depth.max(*deepest);
        }
        self.answers.entry(call.name()).or_default().insert(expected.answer);
    }
}

#[test]
fn every_entry_on_a_relays_stack() {
    let mut seen = Seen::default();
    for (name, unit) in units() {
        for call in calls(&unit) {
            seen.call(&name, &encode(&unit), &call);
        }
        for (flaw, memory) in bad_memories(&unit) {
            for call in probes(&unit).into_iter().chain(fresh_calls()) {
                seen.call(&format!("{name}: {flaw}"), &memory, &call);
            }
        }
    }
    let all = ANSWERS.map(|(entry, numbers)| (entry, numbers.iter().copied().collect()));
    assert_eq!(seen.answers, BTreeMap::from(all), "every answer that an entry can give, and no other");
    for (entry, depth) in seen.deepest {
        println!("stack: {entry}: {depth} bytes touched");
        let most = counted(entry) + PASSED;
        assert!(depth <= most, "{entry} takes {depth} bytes, and tools/stack counted {most} at most");
    }
}

/// Takes N bytes of stack and some more, and fills them.
extern "C" fn fills<const N: usize>(byte: u64) -> u64 {
    let mut bytes = [byte as u8; N];
    black_box(&mut bytes)[N / 2].into()
}

/// Takes N bytes of stack and some more, and touches the lowest of them alone.
extern "C" fn leaps<const N: usize>(byte: u64) -> u64 {
    let mut bytes = MaybeUninit::<[u8; N]>::uninit();
    let lowest: *mut u8 = black_box(&mut bytes).as_mut_ptr().cast();
    unsafe { lowest.write_volatile(byte as u8) };
    byte
}

#[test]
fn deep_functions_are_caught() {
    let functions: [(extern "C" fn(u64) -> u64, usize); 6] = [
        (fills::<100>, 100),
        (fills::<1000>, 1000),
        (fills::<2048>, 2048),
        (fills::<6168>, 6168),
        (fills::<60000>, 60000),
        (leaps::<3000>, 3000),
    ];
    for (function, bytes) in functions {
        // also in the very colours of the paint
        for byte in [0, 0xFF, PAINTS[0], PAINTS[1]] {
            let ran = PAINTS.map(|paint| on_small_stack(paint, function, byte.into()));
            assert!(ran.iter().all(|(answer, _)| *answer == byte.into()), "it runs as on any other stack");
            let depth = ran.iter().map(|(_, depth)| *depth).max().unwrap();
            assert!(depth >= bytes, "{bytes} bytes are seen as {depth}");
            assert_eq!(depth > STACK, bytes >= STACK, "{bytes} bytes are seen as {depth}");
        }
    }
}
