//! Random layouts up to the limits, byte strings near good ones, offers near lawful ones, and plans good and bad.

use crate::random::Random;
use reading::layout::{Layout, Range, Set, RANGES, SETS, SET_UNITS, UNITS};
use reading::layout_bytes::{encode, encode_sets, encode_with, unit_section, BYTES};
use reading::layout_call::Call;
use reading::no::LIMIT;
use reading::shape::Shape;

/// How many shapes a layout may name, which is also the first byte that names none.
const SHAPES: u8 = Shape::ALL.len() as u8;

pub fn set(random: &mut Random) -> Set {
    let size = random.below(SET_UNITS as u64) + 1;
    let mut units: Vec<u8> = (1..=UNITS).collect();
    while units.len() as u64 > size {
        let out = random.below(units.len() as u64) as usize;
        units.remove(out);
    }
    units
}

fn start_above(random: &mut Random, last: u64) -> Option<u64> {
    let above = match random.below(4) {
        0 => last + 1,
        1 => last + 1 + random.below(20),
        2 => last + 1 + random.below(LIMIT),
        _ => LIMIT - 1 - random.below(10),
    };
    (last < above && above < LIMIT).then_some(above)
}

/// A good layout; one in some is as large as can be.
pub fn layout(random: &mut Random) -> Layout {
    let largest = random.chance(50);
    let most = random.one_of(&[1, 3, 8, SETS as u64]);
    let count = if largest { SETS } else { random.below(most) as usize + 1 };
    let sets: Vec<Set> = (0..count).map(|_| if largest { vec![1, 3, 6, 8] } else { set(random) }).collect();
    let mut ranges = vec![Range { start: 0, uses: count as u8 }];
    while ranges.len() < RANGES && (largest || random.chance(700)) {
        let last = ranges.last_mut().expect("there is a first range");
        let start = if largest { Some(last.start + 1 + random.below(9)) } else { start_above(random, last.start) };
        let Some(start) = start.filter(|_| last.uses > 1) else { break };
        let kept = if largest { 2 } else { random.below(u64::from(last.uses) - 1) as u8 + 1 };
        let uses = last.uses - kept;
        last.uses = kept;
        ranges.push(Range { start, uses });
    }
    let epoch = match random.below(8) {
        0 => u32::MAX,
        1 => u32::MAX - 1,
        2 => random.next() as u32 | 1,
        epoch => epoch as u32,
    };
    let mut sets = sets;
    if largest {
        sets[0] = vec![2, 4, 5, 7];
    }
    let shape = random.below(SHAPES.into()) as u8;
    Layout { epoch, shape, sets, ranges }
}

/// One thing in the bytes is changed, left out or put in.
fn scratch(random: &mut Random, bytes: &mut Vec<u8>) {
    let at = random.below(bytes.len() as u64 + 1) as usize;
    match random.below(6) {
        0 => bytes.truncate(at),
        1 => bytes.insert(at, random.below(10) as u8),
        _ if at == bytes.len() => bytes.push(random.next() as u8),
        2 => drop(bytes.remove(at)),
        3 => bytes[at] = bytes[at].wrapping_add(random.one_of(&[1, 255])),
        4 => bytes[at] = random.below(10) as u8,
        _ => bytes[at] = random.next() as u8,
    }
}

/// One thing of the layout is changed; what comes of it may still be good.
pub fn bend(random: &mut Random, layout: &mut Layout) {
    let which = random.below(layout.sets.len() as u64) as usize;
    let range = random.below(layout.ranges.len() as u64) as usize;
    let unit = random.below(u64::from(UNITS) + 2) as u8;
    match random.below(15) {
        0 => layout.epoch = random.one_of(&[0, 1, layout.epoch.wrapping_add(1), layout.epoch.wrapping_sub(1)]),
        1 => layout.shape = random.one_of(&[0, 1, SHAPES, u8::MAX]),
        2 => layout.sets[which].push(unit),
        3 => drop(layout.sets[which].pop()),
        4 => layout.sets[which].insert(0, unit),
        5 => layout.sets[which].reverse(),
        6 => layout.sets[which] = set(random),
        7 => drop(layout.sets.remove(which)),
        8 => layout.sets.insert(which, set(random)),
        9 => layout.ranges[range].uses = layout.ranges[range].uses.wrapping_add(random.one_of(&[1, 255])),
        10 => layout.ranges[range].start = random.one_of(&[0, 1, 10, LIMIT - 1, LIMIT, layout.last_start()]),
        11 => layout.ranges[range].start = layout.ranges[range].start.wrapping_add(random.one_of(&[1, u64::MAX])),
        12 => layout.ranges.push(Range { start: layout.last_start() + random.below(2), uses: 1 }),
        13 => {
            layout.ranges.push(Range { start: layout.last_start() + 1, uses: 1 });
            layout.sets.push(set(random));
        }
        _ => drop(layout.ranges.remove(range)),
    }
}

/// A byte string near a good layout's.
pub fn near(random: &mut Random) -> Vec<u8> {
    let mut layout = layout(random);
    if random.chance(500) {
        for _ in 0..=random.below(2) {
            if !layout.sets.is_empty() && !layout.ranges.is_empty() {
                bend(random, &mut layout);
            }
        }
        let mut units = unit_section(&layout);
        if random.chance(100) {
            units.push(random.below(10) as u8);
        }
        return encode_with(&layout, &units);
    }
    let mut bytes = encode(&layout);
    for _ in 0..random.below(3) {
        scratch(random, &mut bytes);
    }
    bytes
}

/// A lawful successor: some sets are thinned, and there may be a range more.
fn successor(random: &mut Random, held: &Layout) -> Layout {
    let mut new = held.clone();
    new.epoch = held.epoch.wrapping_add(1);
    for set in &mut new.sets {
        while set.len() > 1 && random.chance(300) {
            set.remove(random.below(set.len() as u64) as usize);
        }
    }
    let room = SETS - new.sets.len();
    if random.chance(500) && room > 0 && new.ranges.len() < RANGES {
        if let Some(start) = start_above(random, held.last_start()) {
            let uses = random.below(room as u64) as usize + 1;
            new.ranges.push(Range { start, uses: uses as u8 });
            new.sets.extend((0..uses).map(|_| set(random)));
        }
    }
    new
}

/// A held layout, and an offer that is lawful or nearly so.
pub fn offer(random: &mut Random) -> Call {
    let held = layout(random);
    let mut new = successor(random, &held);
    if random.chance(600) {
        bend(random, &mut new);
    }
    let mut offered = encode(&new);
    if random.chance(50) {
        scratch(random, &mut offered);
    }
    let held = if random.chance(50) { near(random) } else { encode(&held) };
    Call::Offer { held, offered }
}

/// The bytes of new sets, good or nearly so; now and then more than there is room for.
fn new_sets(random: &mut Random) -> Vec<u8> {
    let count = match random.below(8) {
        0 | 1 => return Vec::new(),
        2 => 16 + random.below(4),
        3 => 200 + random.below(56),
        4 => 0,
        _ => 1 + random.below(4),
    };
    let mut bytes = encode_sets(&(0..count).map(|_| set(random)).collect::<Vec<_>>());
    if random.chance(100) {
        scratch(random, &mut bytes);
    }
    bytes
}

/// Units to drop: often few, so that no set is lost; now and then no units at all, or one that a late new set may name.
fn drops(random: &mut Random) -> Vec<u8> {
    let count = random.one_of(&[0, 0, 1, 1, 1, 2, 3, 9, 300]);
    (0..count)
        .map(|_| if random.chance(30) { random.one_of(&[0, 9, 255]) } else { random.below(8) as u8 + 1 })
        .collect()
}

/// A reorganise of a layout, and the room for what comes of it.
pub fn plan(random: &mut Random) -> (Call, usize) {
    let held = if random.chance(50) { near(random) } else { encode(&layout(random)) };
    let near_end = LIMIT - 3 + random.below(6);
    let far = random.next();
    let low = random.below(100);
    let edge = random.one_of(&[0, low, low, near_end, far, u64::MAX]);
    let room = if random.chance(300) { held.len() - held.len().min(5) + random.below(20) as usize } else { BYTES };
    let sets = new_sets(random);
    let mut drops = drops(random);
    if random.chance(100) && sets.len() > 60 {
        drops = vec![sets[sets.len() - 1]];
    }
    (Call::Plan { held, drops, sets, edge }, room)
}
