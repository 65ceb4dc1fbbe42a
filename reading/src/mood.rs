//! What is drawn once for a run: its layout, its mood, and how old its yard is.

use crate::layout::{Layout, Range, Set, UNITS};
use crate::lehmer::Raw;
use crate::odd::Odd;

/// How often letters are doubled and answers lost (of 64), whether the log's last positions are asked for,
/// whether appends prevail, and whether units stop.
#[derive(Clone, Debug)]
pub struct Mood {
    pub keep: u32,
    pub lose: u32,
    pub tall: bool,
    pub busy: bool,
    pub mortal: bool,
}

/// A set from three raw numbers: rising units, the gaps 1 or 2.
pub fn draw_set(raw: &Raw, k: usize) -> Set {
    let wanted = [1, 2, 2, 2, 3, 3, 4, 4][raw.of(k + 1, 8) as usize];
    let mut gaps = raw.of(k + 2, 8);
    let mut unit = 1 + raw.of(k, 6) as u8;
    let mut set = Set::new();
    while set.len() < wanted && unit <= UNITS {
        set.push(unit);
        unit += 1 + (gaps % 2) as u8;
        gaps /= 2;
    }
    set
}

/// One to four sets in one range or two, of either shape; one layout of sixteen is spoilt.
pub fn draw_layout(raw: &Raw) -> Layout {
    let count = 1 + raw.of(0, 4) as u8;
    let mut sets: Vec<Set> = (0..usize::from(count)).map(|i| draw_set(raw, 16 + 3 * i)).collect();
    let mut ranges = vec![Range { start: 0, uses: count }];
    if count >= 2 && raw.of(1, 2) == 1 {
        ranges[0].uses = count / 2;
        ranges.push(Range { start: 1 + u64::from(raw.of(2, 12)), uses: count - count / 2 });
    }
    let mut epoch = 1;
    match raw.of(3, 64) {
        0 => epoch = 2,
        1 => ranges[0].start = 1,
        2 => ranges[0].uses += 1,
        3 => sets[0][0] = 9,
        _ => {}
    }
    Layout { epoch, shape: raw.of(10, 2) as u8, sets, ranges }
}

/// A busy run loses nothing and doubles little.
pub fn draw_mood(raw: &Raw) -> Mood {
    let busy = raw.of(7, 4) == 0;
    Mood {
        keep: if busy { 1 } else { [1, 4, 10, 28][raw.of(4, 4) as usize] },
        lose: if busy { 0 } else { [0, 1, 2, 4][raw.of(5, 4) as usize] },
        tall: raw.of(6, 8) == 0,
        busy,
        mortal: raw.of(9, 3) == 0,
    }
}

/// How old a run's yard is, where it is not fresh.
pub fn draw_age(raw: &Raw) -> Option<Odd> {
    match raw.of(8, 16) {
        0 => Some(Odd::OldClients),
        1 => Some(Odd::OldEpochs),
        _ => None,
    }
}
