//! One call over layouts, made on two sides, and every difference that a caller could see.

use crate::layouts::desk;
use reading::layout_call::{self, After, Call, Side};

/// Something in the lent number that no call gives.
pub const UNTOUCHED: u64 = 0xDEAD_0001_DEAD_0002;

/// What both sides show after the call, or in words where they differ.
pub fn on(sides: [Side; 2], call: &Call, buffer: &[u8]) -> Result<After, String> {
    let [first, second] = sides.map(|side| side(call, UNTOUCHED, buffer));
    if first == second {
        return Ok(first);
    }
    let mut said = format!("{call:?} with a buffer of {} bytes\n", buffer.len());
    said +=
        &format!("  answers {} and {}, numbers {} and {}\n", first.answer, second.answer, first.number, second.number);
    said += &format!("  buffers {:?}\n      and {:?}", first.buffer, second.buffer);
    Err(said)
}

/// The library's side first, and the reading's second.
pub const SIDES: [Side; 2] = [desk::after, layout_call::after];

/// Panics where the library and the reading differ; `context` says how the call came about.
pub fn agree(context: &str, call: &Call, buffer: &[u8]) -> After {
    on(SIDES, call, buffer).unwrap_or_else(|said| panic!("library and reading differ: {context}: {said}"))
}
