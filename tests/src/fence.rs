//! Bytes that are lent to a call, between others that it may not touch.

use std::fmt::Debug;

const FENCE: usize = 64;
const POST: u8 = 0xA5;

/// What a call gives that is lent a copy of these bytes, and the copy afterwards. Panics where it wrote outside.
pub fn lent<T>(bytes: &[u8], what: &dyn Debug, call: impl FnOnce(&mut [u8]) -> T) -> (T, Vec<u8>) {
    let mut yard = vec![POST; FENCE + bytes.len() + FENCE];
    let field = FENCE..FENCE + bytes.len();
    yard[field.clone()].copy_from_slice(bytes);
    let gives = call(&mut yard[field.clone()]);
    let fences = yard[..field.start].iter().chain(&yard[field.end..]);
    assert!(fences.copied().all(|byte| byte == POST), "{what:?} wrote outside the bytes it was lent");
    (gives, yard[field].to_vec())
}
