//! The proved library's C functions over layouts: all that is unsafe stands here.

use crate::fence::lent;
use reading::layout_call::{After, Call};

mod c {
    extern "C" {
        pub fn layout_good(bytes: *const u8, len: usize) -> u8;
        pub fn layout_set(bytes: *const u8, len: usize, position: u64, set: *mut u64) -> u8;
        pub fn layout_offer(held: *const u8, held_len: usize, offered: *const u8, len: usize) -> u8;
        pub fn layout_plan(
            held: *const u8,
            held_len: usize,
            drops: *const u8,
            drops_len: usize,
            sets: *const u8,
            sets_len: usize,
            edge: u64,
            out: *mut u8,
            out_len: usize,
            written: *mut u64,
        ) -> u8;
    }
}

// A slice's pointer and length are what the library asks for, and borrows keep what is written apart.

pub fn good(bytes: &[u8]) -> u8 {
    unsafe { c::layout_good(bytes.as_ptr(), bytes.len()) }
}

pub fn set(bytes: &[u8], position: u64, set: &mut u64) -> u8 {
    unsafe { c::layout_set(bytes.as_ptr(), bytes.len(), position, set) }
}

pub fn offer(held: &[u8], offered: &[u8]) -> u8 {
    unsafe { c::layout_offer(held.as_ptr(), held.len(), offered.as_ptr(), offered.len()) }
}

pub fn plan(held: &[u8], drops: &[u8], sets: &[u8], edge: u64, out: &mut [u8], written: &mut u64) -> u8 {
    unsafe {
        c::layout_plan(
            held.as_ptr(),
            held.len(),
            drops.as_ptr(),
            drops.len(),
            sets.as_ptr(),
            sets.len(),
            edge,
            out.as_mut_ptr(),
            out.len(),
            written,
        )
    }
}

/// What is seen after a call, by the library.
pub fn after(call: &Call, mut number: u64, buffer: &[u8]) -> After {
    let (answer, buffer) = lent(buffer, call, |out| match call {
        Call::Good { bytes } => good(bytes),
        Call::Set { bytes, position } => set(bytes, *position, &mut number),
        Call::Offer { held, offered } => offer(held, offered),
        Call::Plan { held, drops, sets, edge } => plan(held, drops, sets, *edge, out, &mut number),
    });
    After { answer, number, buffer }
}
