//! promises --write | --check: draws docs/PROMISES.md anew from the sources, or fails where it is stale.

use pages::{draw, read, root};
use std::fs;
use std::process::ExitCode;

fn main() -> ExitCode {
    let path = root().join("docs/PROMISES.md");
    let old = read(&path);
    let new = draw::page(&old);
    match std::env::args().nth(1).as_deref() {
        Some("--write") => {
            fs::write(&path, new).expect("docs/PROMISES.md can be written");
            ExitCode::SUCCESS
        }
        Some("--check") if old == new => ExitCode::SUCCESS,
        Some("--check") => {
            eprintln!("promises: docs/PROMISES.md is stale: run tools/promises --write");
            ExitCode::FAILURE
        }
        _ => {
            eprintln!("usage: promises --write | --check");
            ExitCode::from(2)
        }
    }
}
