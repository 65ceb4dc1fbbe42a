//! Calls on a small stack that is painted beforehand, and how deep the paint is touched afterwards.

use crate::library::c;
use reading::unit_call::{After, Call, Outputs};
use std::arch::asm;
use std::ffi::c_void;

/// Bytes of stack that a relay has.
pub const STACK: usize = 2048;
/// Bytes below it that are painted too, and that nothing may touch.
const BEYOND: usize = 64 * 1024;
/// The colours that both are painted in, one at a time: a byte that is written in the one is seen on the other.
pub const PAINTS: [u8; 2] = [0xA5, 0x5A];

/// Bytes that a call puts there for its words, whether the function looks at them or not.
pub const PASSED: usize = if cfg!(target_arch = "x86_64") { 16 } else { 0 };

/// The words that a C function is called with, each a number or a pointer; how many it looks at is its own affair.
type Words = [u64; 8];

/// Calls a C function with the stack pointer at `top`, and comes back to the stack that it is called on. Nothing else is put there: on Arm all
/// words are in registers; on x86-64 the last two are put on the stack, as the convention has it.
///
/// # Safety
/// The function takes no more words than these, as they are. `top` is a multiple of 16, and what the function takes below it is nobody else's.
unsafe fn call_on_stack(top: *mut u8, function: *const c_void, words: &Words) -> u64 {
    let answer: u64;
    #[cfg(target_arch = "x86_64")]
    asm!(
        "mov r12, rsp",
        "mov rsp, {top}",
        "push {eighth}",
        "push {seventh}",
        "call {function}",
        "mov rsp, r12",
        top = in(reg) top,
        function = in(reg) function,
        in("rdi") words[0],
        in("rsi") words[1],
        in("rdx") words[2],
        in("rcx") words[3],
        in("r8") words[4],
        in("r9") words[5],
        seventh = in(reg) words[6],
        eighth = in(reg) words[7],
        out("r12") _,
        lateout("rax") answer,
        clobber_abi("C"),
    );
    #[cfg(target_arch = "aarch64")]
    asm!(
        "mov x20, sp",
        "mov sp, {top}",
        "blr {function}",
        "mov sp, x20",
        top = in(reg) top,
        function = in(reg) function,
        inlateout("x0") words[0] => answer,
        in("x1") words[1],
        in("x2") words[2],
        in("x3") words[3],
        in("x4") words[4],
        in("x5") words[5],
        in("x6") words[6],
        in("x7") words[7],
        out("x20") _,
        clobber_abi("C"),
    );
    answer
}

/// What a function gives on a small stack painted in this colour, and the bytes from its top down to the lowest that was touched: more than STACK
/// where that lies beyond.
///
/// # Safety
/// The function takes no more words than these, as they are, and less than BEYOND bytes of stack.
unsafe fn on_paint(paint: u8, function: *const c_void, words: &Words) -> (u64, usize) {
    let mut field = vec![paint; BEYOND + STACK + 16];
    let start = field.as_ptr().align_offset(16);
    let field = &mut field[start..start + BEYOND + STACK];
    let answer = call_on_stack(field.as_mut_ptr_range().end, function, words);
    let untouched = field.iter().take_while(|byte| **byte == paint).count();
    (answer, field.len() - untouched)
}

/// The same for a function of one number. It is to take less than 64 KiB of stack.
pub fn on_small_stack(paint: u8, function: extern "C" fn(u64) -> u64, number: u64) -> (u64, usize) {
    unsafe { on_paint(paint, function as *const c_void, &[number, 0, 0, 0, 0, 0, 0, 0]) }
}

/// What is seen after a call on the small stack, by the library, and how deep it went.
pub fn after(paint: u8, memory: &[u8], call: &Call, mut outputs: Outputs) -> (After, usize) {
    let mut memory = memory.to_vec();
    let mem = memory.as_mut_ptr() as u64;
    let len = memory.len() as u64;
    let (function, words): (*const c_void, Words) = match *call {
        Call::Fresh { number, shape } => (c::unit_fresh as _, [mem, len, number.into(), shape.into(), 0, 0, 0, 0]),
        Call::Write { epoch, position, kind, ref data } => {
            let (bytes, length) = (data.as_ptr() as u64, data.len() as u64);
            (c::unit_write as _, [mem, len, epoch.into(), position, kind.into(), bytes, length, 0])
        }
        Call::Read { epoch, position } => {
            let kind: *mut u8 = &mut outputs.kind;
            let [start, length]: [*mut u64; 2] = [&mut outputs.start, &mut outputs.length];
            (c::unit_read as _, [mem, len, epoch.into(), position, kind as u64, start as u64, length as u64, 0])
        }
        Call::Trim { epoch, position } => (c::unit_trim as _, [mem, len, epoch.into(), position, 0, 0, 0, 0]),
        Call::Prune { epoch, position } => (c::unit_prune as _, [mem, len, epoch.into(), position, 0, 0, 0, 0]),
        Call::Seal { epoch } => {
            let [edge, written]: [*mut u64; 2] = [&mut outputs.edge, &mut outputs.written];
            (c::unit_seal as _, [mem, len, epoch.into(), edge as u64, written as u64, 0, 0, 0])
        }
        Call::Edges => {
            let [edge, written]: [*mut u64; 2] = [&mut outputs.edge, &mut outputs.written];
            (c::unit_edges as _, [mem, len, edge as u64, written as u64, 0, 0, 0, 0])
        }
    };
    // the words are those that the library's declarations have, and what they point to outlives the call; the answer is a byte
    let (answer, depth) = unsafe { on_paint(paint, function, &words) };
    (After { answer: answer as u8, outputs, memory }, depth)
}
