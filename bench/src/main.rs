//! Times the proved unit of either shape and three Rust versions on the same calls, and prints a table of nanoseconds and of ratios ours / Rust.
//!
//! Before that all sides are held to the answers and bytes of the independent reading. With --short it makes only a few rounds, so that the times mean little.

#[path = "../../tests/src/library.rs"]
mod library;
#[path = "../../tests/src/random.rs"]
#[allow(dead_code)]
mod random;

mod alike;
mod call;
mod draw;
mod lines;
mod plain;
mod side;
mod time;
mod tuned;
mod unit;
mod whole;

use crate::unit::{LARGE, SMALL};

fn main() {
    let short = match std::env::args().skip(1).collect::<Vec<_>>().as_slice() {
        [] => false,
        [word] if word == "--short" => true,
        _ => {
            eprintln!("usage: bench/run [--short]");
            std::process::exit(2);
        }
    };
    let (tries, rounds) = if short { (5_000, 5) } else { (200_000, 10_001) };
    alike::hold::<SMALL>(tries);
    alike::hold::<LARGE>(tries);
    lines::print::<SMALL>(rounds);
    lines::print::<LARGE>(rounds);
}
