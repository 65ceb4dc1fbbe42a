//! Files that are hardly plays: a play's damaged, and random ones.

use crate::layout::{Layout, Range};
use crate::layout_bytes;
use crate::lehmer::{Lehmer, Raw};
use crate::mood::draw_layout;
use crate::play::{self, Play};

/// The file cut at every byte.
pub fn cut(file: &[u8]) -> impl Iterator<Item = Vec<u8>> + '_ {
    (0..file.len()).map(|length| file[..length].to_vec())
}

/// The file with something behind it: a byte, a step, a second play; or so much that it is too long.
pub fn lengthened(file: &[u8]) -> Vec<Vec<u8>> {
    let behind = |more: &[u8]| [file, more].concat();
    let filled = |length: usize| behind(&vec![12; length.saturating_sub(file.len())]);
    let bytes = [0, 1, 12, 22, 255].map(|byte| behind(&[byte]));
    let long = [play::BYTES - 1, play::BYTES, play::BYTES + 1, 70_000].map(filled);
    bytes.into_iter().chain([behind(&[7, 0, 0, 1]), behind(file)]).chain(long).collect()
}

/// A play of exactly this length: unit 1 alone, and a sequencer that forgets again and again.
pub fn play_of(length: usize) -> Vec<u8> {
    let layout = Layout { epoch: 1, shape: 0, sets: vec![vec![1]], ranges: vec![Range { start: 0, uses: 1 }] };
    let mut file = Play { layout, steps: vec![] }.write().expect("it fits");
    let steps = length - file.len();
    let count = file.len() - 4;
    file.splice(count.., (steps as u32).to_le_bytes());
    file.resize(length, 12);
    file
}

/// The file with the byte at this place changed, to some values that mean something elsewhere.
pub fn changed(file: &[u8], at: usize) -> impl Iterator<Item = Vec<u8>> + '_ {
    let was = file[at];
    let mut values = vec![0, 1, 2, 6, 7, 12, 13, 255, was ^ 128, was.wrapping_add(1), was.wrapping_sub(1)];
    values.sort_unstable();
    values.dedup();
    values.into_iter().filter(move |value| *value != was).map(move |value| {
        let mut file = file.to_vec();
        file[at] = value;
        file
    })
}

/// So many random bytes in all, in files of all lengths, the longest too long.
pub struct RandomBytes {
    pub chance: Lehmer,
    pub left: usize,
}

impl Iterator for RandomBytes {
    type Item = Vec<u8>;

    fn next(&mut self) -> Option<Vec<u8>> {
        if self.left == 0 {
            return None;
        }
        let raw = self.chance.raw();
        let most =
            [8, 40, 200, 2_000, 70_000][[0, 0, 0, 0, 1, 1, 1, 1, 2, 2, 2, 2, 3, 3, 3, 4][raw.of(0, 16) as usize]];
        let length = (raw.of(1, most) as usize).min(self.left).max(1);
        self.left -= length;
        let mut bytes = Vec::with_capacity(length + Raw::NUMBERS);
        while bytes.len() < length {
            let raw = self.chance.raw();
            bytes.extend((0..Raw::NUMBERS).map(|k| (raw.of(k, 65_536) / 256) as u8));
        }
        bytes.truncate(length);
        Some(bytes)
    }
}

/// The bytes of something like a step.
fn nearly_step(raw: &Raw) -> Vec<u8> {
    let small = |k: usize| raw.of(k, 10) as u8;
    let rarely = |k: usize| u8::from(raw.of(k, 200) == 0) * 2;
    let units = |k: usize, most: u32| -> Vec<u8> {
        let count = raw.of(k, most) as usize + usize::from(rarely(k + 1) == 2) * 4;
        [vec![count as u8], (0..count).map(|i| small(k + 2 + i)).collect()].concat()
    };
    let tag = raw.of(0, 12) as u8 + 1 - u8::from(raw.of(1, 300) == 0);
    let fields = match tag {
        1 => units(4, 36),
        2..=5 => u64::from(raw.of(4, 12)).to_le_bytes().to_vec(),
        6 => [units(4, 9), vec![raw.of(20, 3) as u8], units(21, 5), units(31, 5)].concat(),
        7 => vec![raw.of(4, 2) as u8 + rarely(5), raw.of(6, 2) as u8 + rarely(7)],
        _ => vec![],
    };
    let first = if tag == 12 || tag == 0 { vec![] } else { vec![small(2)] };
    [vec![tag], first, fields].concat()
}

/// A drawn layout, and something like steps behind their count, which is not always theirs.
pub fn nearly_play(chance: &mut Lehmer) -> Vec<u8> {
    let raw = chance.raw();
    let layout = layout_bytes::encode(&draw_layout(&raw));
    let count = raw.of(40, 40);
    let told = count + u32::from(raw.of(41, 20) == 0);
    let steps: Vec<u8> = (0..count).flat_map(|_| nearly_step(&chance.raw())).collect();
    [(layout.len() as u16).to_le_bytes().to_vec(), layout, told.to_le_bytes().to_vec(), steps].concat()
}
