//! The reading's own play book: reads a play from standard input, and prints its lines. With the word `odd` it reads what the program `odd` does.

use reading::{book, odd, play};
use std::env;
use std::io::{self, Read, Write};

fn main() -> io::Result<()> {
    let mut input = Vec::new();
    // two bytes more: an oddity's, and one that tells that a file is too long
    io::stdin().lock().take(play::BYTES as u64 + 2).read_to_end(&mut input)?;
    let is_odd = env::args().any(|word| word == "odd");
    let lines = if is_odd { odd::text(&input) } else { book::text(&input) };
    io::stdout().write_all(lines.concat().as_bytes())
}
