//! One call made on two sides, and every difference that a caller could see.

use crate::proved;
use reading::memory::HEADER;
use reading::shape::Shape;
use reading::unit_call::{self, After, Call, Outputs, Side};

/// What both sides show after the call, or in words where they differ.
pub fn on(sides: [Side; 2], memory: &[u8], call: &Call, outputs: Outputs) -> Result<After, String> {
    let [first, second] = sides.map(|side| side(memory, call, outputs));
    if first == second {
        return Ok(first);
    }
    let mut said = format!("{} on {} bytes\n", brief(call), memory.len());
    said += &format!("  answers {} and {}\n", first.answer, second.answer);
    said += &format!("  outputs {:?}\n      and {:?}\n", first.outputs, second.outputs);
    said += &match first.memory.iter().zip(&second.memory).position(|(a, b)| a != b) {
        Some(at) => format!("  at {}: {} and {}", place(memory, at), first.memory[at], second.memory[at]),
        None => format!("  {} and {} bytes, the same so far", first.memory.len(), second.memory.len()),
    };
    Err(said)
}

/// The library's side first, and the reading's second.
pub const SIDES: [Side; 2] = [proved::after, unit_call::after];

/// Panics where the library and the reading differ; `context` says how this memory came about.
pub fn agree(context: &str, memory: &[u8], call: &Call, outputs: Outputs) -> After {
    on(SIDES, memory, call, outputs).unwrap_or_else(|said| panic!("library and reading differ: {context}: {said}"))
}

/// A byte's place in a memory, in words; by the shape that the memory named before the call.
fn place(memory: &[u8], at: usize) -> String {
    let shape = memory.get(1).and_then(|byte| Shape::of(*byte));
    match (at.checked_sub(HEADER), shape) {
        (None, _) => format!("byte {at}, of the header"),
        (Some(_), None) => format!("byte {at}, of a memory of no shape"),
        (Some(past), Some(shape)) => format!("byte {at}, byte {} of slot {}", past % shape.slot(), past / shape.slot()),
    }
}

/// A call without the bytes of a long page.
fn brief(call: &Call) -> String {
    match call {
        Call::Write { epoch, position, kind, data } if data.len() > 40 => {
            format!("Write {{ epoch: {epoch}, position: {position}, kind: {kind}, data: {} bytes }}", data.len())
        }
        _ => format!("{call:?}"),
    }
}
