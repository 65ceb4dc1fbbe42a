//! Layouts as a program on a desk calls them: with numbers and byte slices (include/desk.h).

use crate::layout::Set;
use crate::layout_bytes::{decode, decode_sets, encode};
use crate::no::{self, number_of, unless, No, LIMIT};
use crate::plan::{plan, Change};
use crate::successor;
use crate::unit::Edges;

/// A call, with the numbers and bytes as C passes them.
#[derive(Clone, PartialEq, Eq, Debug)]
pub enum Call {
    Good { bytes: Vec<u8> },
    Set { bytes: Vec<u8>, position: u64 },
    Offer { held: Vec<u8>, offered: Vec<u8> },
    Plan { held: Vec<u8>, drops: Vec<u8>, sets: Vec<u8>, edge: u64 },
}

/// All that a caller can see after a call: the answer, the lent number and the lent buffer.
#[derive(Clone, PartialEq, Eq, Debug)]
pub struct After {
    pub answer: No,
    pub number: u64,
    pub buffer: Vec<u8>,
}

/// A way to make a call with a number and a buffer that hold something already.
pub type Side = fn(&Call, u64, &[u8]) -> After;

/// What is seen after a call, by the rules of docs/RULES.md. A refusal leaves the number and the buffer as they are.
pub fn after(call: &Call, lent: u64, buffer: &[u8]) -> After {
    let mut after = After { answer: no::FINE, number: lent, buffer: buffer.to_vec() };
    let done = match call {
        Call::Good { bytes } => decode(bytes).map(drop).ok_or(no::LAYOUT),
        Call::Set { bytes, position } => set_number(bytes, *position).map(|set| after.number = set),
        Call::Offer { held, offered } => offer(held, offered),
        Call::Plan { held, drops, sets, edge } => planned(held, drops, sets, *edge, buffer.len()).map(|bytes| {
            after.number = bytes.len() as u64;
            after.buffer[..bytes.len()].copy_from_slice(&bytes);
        }),
    };
    After { answer: number_of(&done), ..after }
}

fn set_number(bytes: &[u8], position: u64) -> Result<u64, No> {
    unless(position >= LIMIT, no::POSITION)?;
    Ok(decode(bytes).ok_or(no::LAYOUT)?.set_number(position) as u64)
}

fn offer(held: &[u8], offered: &[u8]) -> Result<(), No> {
    let mut held = decode(held).ok_or(no::LAYOUT)?;
    successor::offer(&mut held, &decode(offered).ok_or(no::LAYOUT)?)
}

/// The new layout's bytes, for which there must be room.
fn planned(held: &[u8], drops: &[u8], sets: &[u8], edge: u64, room: usize) -> Result<Vec<u8>, No> {
    let held = decode(held).ok_or(no::LAYOUT)?;
    // bytes that are no sets are refused in the place of a bad set
    let sets = decode_sets(sets).unwrap_or_else(|| vec![Set::new()]);
    let (layout, _) = plan(&held, &Change { drops: drops.to_vec(), sets })?.with_edges(Edges { edge, written: 0 })?;
    let bytes = encode(&layout);
    unless(bytes.len() > room, no::LAYOUT)?;
    Ok(bytes)
}
