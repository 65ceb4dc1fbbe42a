//! The play book's C entry of the proved library, over slices, and what the reading wants of it.

use crate::fence;
use reading::play::Play;
use reading::{book, stored};

mod c {
    extern "C" {
        pub fn play_lines(
            file: *const u8,
            len: usize,
            from: u32,
            out: *mut u8,
            out_len: usize,
            lines: *mut u32,
            written: *mut u64,
        ) -> u8;
    }
}

/// What a caller can see after a call.
#[derive(Clone, PartialEq, Eq, Debug)]
pub struct After {
    pub answer: u8,
    pub lines: u32,
    pub written: u64,
    pub out: Vec<u8>,
}

/// Something in the lent numbers and in the lent buffer that no call gives.
const LINES: u32 = 0xDEAD_0001;
const WRITTEN: u64 = 0xDEAD_0002_DEAD_0003;
const BLANK: u8 = 0xB7;

/// By the library, with a buffer of this length.
pub fn shown(file: &[u8], from: u32, length: usize) -> After {
    let (mut lines, mut written) = (LINES, WRITTEN);
    // a slice's pointer and length are what the library asks for, and borrows keep what is written apart
    let (answer, out) = fence::lent(&vec![BLANK; length], &"play_lines", |out| unsafe {
        c::play_lines(file.as_ptr(), file.len(), from, out.as_mut_ptr(), out.len(), &mut lines, &mut written)
    });
    After { answer, lines, written, out }
}

/// By the reading: with 22 nothing changes; else as many whole lines as fit, of the steps from number `from` on.
pub fn wanted(file: &[u8], from: u32, length: usize) -> After {
    let mut after = After { answer: 22, lines: LINES, written: WRITTEN, out: vec![BLANK; length] };
    if Play::read(file).is_none() {
        return after;
    }
    let (mut lines, mut written) = (0, 0);
    for line in book::text(file).iter().skip((from as usize).saturating_sub(1)) {
        let Some(room) = after.out.get_mut(written..written + line.len()) else {
            break;
        };
        room.copy_from_slice(line.as_bytes());
        lines += 1;
        written += line.len();
    }
    After { answer: 0, lines, written: written as u64, ..after }
}

/// The first line at which two texts differ, for a message.
fn difference(library: &After, reading: &After) -> String {
    let text = |after: &After| String::from_utf8_lossy(&after.out).into_owned();
    let (library_text, reading_text) = (text(library), text(reading));
    let mut pairs = library_text.lines().zip(reading_text.lines());
    let at = pairs.find(|(one, other)| one != other);
    let told = |after: &After| format!("answer {}, {} lines in {} bytes", after.answer, after.lines, after.written);
    format!("library: {}; reading: {}; first lines that differ: {at:?}", told(library), told(reading))
}

/// Panics where the library and the reading differ; what the library shows.
pub fn agree(context: &str, file: &[u8], from: u32, length: usize) -> After {
    let (library, reading) = (shown(file, from, length), wanted(file, from, length));
    assert!(library == reading, "{context}, from {from}, a buffer of {length}: {}", difference(&library, &reading));
    library
}

/// The plays of plays/: name, bytes and lines.
pub fn plays() -> Vec<(String, Vec<u8>, Vec<u8>)> {
    let whole = |name: String| {
        let [file, lines] = ["play", "lines"].map(|ending| stored::play(&name, ending));
        (name, file, lines)
    };
    stored::plays("play").into_iter().map(whole).collect()
}
