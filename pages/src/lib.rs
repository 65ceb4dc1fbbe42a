//! What the sources say of themselves: functions with their promises, definitions, lemmas and edits; and docs/PROMISES.md, drawn from them.
//! Nothing here needs a proof to have been checked.

pub mod definition;
pub mod draw;
pub mod edit;
pub mod function;
pub mod lemma;
pub mod reach;

use std::collections::BTreeSet;
use std::fs;
use std::path::{Path, PathBuf};

pub fn root() -> PathBuf {
    Path::new(env!("CARGO_MANIFEST_DIR")).join("..")
}

pub fn read(path: &Path) -> String {
    fs::read_to_string(path).unwrap_or_else(|e| panic!("{}: {e}", path.display()))
}

/// What a folder holds, in order; nothing where there is no such folder.
pub fn entries(folder: &Path) -> Vec<PathBuf> {
    let mut all: Vec<PathBuf> = fs::read_dir(folder).into_iter().flatten().map(|e| e.unwrap().path()).collect();
    all.sort();
    all
}

pub fn name_of(path: &Path) -> String {
    path.file_stem().unwrap().to_str().unwrap().to_string()
}

/// A crate of crates.txt: its name, and those that it rests on.
pub struct Crate {
    pub name: String,
    pub rests: Vec<String>,
}

impl Crate {
    pub fn folder(&self) -> PathBuf {
        root().join("crates").join(&self.name)
    }

    pub fn is_program(&self) -> bool {
        self.folder().join("src/main.rt").exists()
    }
}

/// In the order of crates.txt, lower ones first.
pub fn crates() -> Vec<Crate> {
    let text = read(&root().join("crates.txt"));
    let lines = text.lines().filter(|line| !line.starts_with('#')).filter_map(|line| line.split_once(':'));
    let named = |(name, rests): (&str, &str)| Crate {
        // a static library has a word behind its name
        name: name.trim().trim_end_matches(" staticlib").into(),
        rests: rests.split_whitespace().map(String::from).collect(),
    };
    lines.map(named).collect()
}

/// What a file takes from the rules of crates other than `of`, by its lines that begin with `word`: the names that these have there.
pub fn foreign(text: &str, word: &str, of: &str) -> BTreeSet<String> {
    let own = format!("Rattle.{of}.");
    let lines = text.lines().filter_map(|line| line.strip_prefix(word)).filter(|rest| !rest.starts_with(&own));
    let lists = lines.filter_map(|rest| rest.split_once(".{")).map(|(_, list)| list.trim_end_matches(['}', ';']));
    lists.flat_map(|list| list.split(", ")).map(|part| part.rsplit(" as ").next().unwrap().to_string()).collect()
}

/// The words of a text: names with their primes, and fields with their dot. What begins with a capital is a path, and one word.
pub fn words(text: &str) -> Vec<&str> {
    let in_word = |c: char| c.is_alphanumeric() || matches!(c, '_' | '\'' | '′' | '.');
    let mut all = Vec::new();
    for mut word in text.split(|c: char| !in_word(c)).map(|word| word.trim_end_matches('.')) {
        while let Some(at) = word.rfind('.').filter(|at| *at > 0 && !word.starts_with(char::is_uppercase)) {
            all.push(&word[at..]);
            word = &word[..at];
        }
        all.push(word);
    }
    all.retain(|word| !word.is_empty());
    all
}
