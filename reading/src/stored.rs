//! What the repository stores for the tests: the plays of plays/, each in words, bytes and lines, and the seeds of the runs.

use crate::run::seeds;
use std::collections::BTreeSet;
use std::fs;
use std::path::{Path, PathBuf};

/// A path of the repository.
pub fn path(name: &str) -> PathBuf {
    Path::new(env!("CARGO_MANIFEST_DIR")).join("..").join(name)
}

pub fn bytes(name: &str) -> Vec<u8> {
    fs::read(path(name)).unwrap_or_else(|error| panic!("{name}: {error}"))
}

pub fn text(name: &str) -> String {
    String::from_utf8(bytes(name)).unwrap_or_else(|error| panic!("{name}: {error}"))
}

/// The plays that have a file with this ending.
pub fn plays(ending: &str) -> BTreeSet<String> {
    let paths = fs::read_dir(path("plays")).expect("the plays").map(|entry| entry.expect("a file").path());
    let ends = |path: &PathBuf| path.extension().is_some_and(|found| found == ending);
    paths.filter(ends).map(|path| path.file_stem().expect("a name").to_string_lossy().into_owned()).collect()
}

/// The bytes of a play's file with this ending.
pub fn play(name: &str, ending: &str) -> Vec<u8> {
    bytes(&format!("plays/{name}.{ending}"))
}

/// The seeds of seeds.txt, each with its number of steps.
pub fn runs() -> Vec<(u32, u32)> {
    seeds(&text("reading/seeds.txt")).expect("seeds and numbers of steps")
}
