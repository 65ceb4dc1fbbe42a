//! The lemmas of proofs/Unique.antt that say: no second answer meets a promise.

use crate::definition::Definition;
use crate::function::Function;
use crate::{read, words, Crate};
use std::collections::BTreeSet;

#[derive(Clone, Debug)]
pub struct Lemma {
    pub of: String,
    pub name: String,
    /// The words of its statement.
    pub words: Vec<String>,
}

pub fn of_text(of: &str, text: &str) -> Vec<Lemma> {
    let mut all: Vec<Lemma> = Vec::new();
    let mut open = false;
    for line in text.lines().map(str::trim_start).filter(|line| !line.starts_with("--")) {
        if let Some(rest) = line.strip_prefix("pub ") {
            let (name, stated) = rest.split_once(" :").unwrap_or((rest, ""));
            all.push(Lemma {
                of: of.into(),
                name: name.into(),
                words: words(stated).into_iter().map(String::from).collect(),
            });
            open = true;
        } else if open {
            // the statement lasts until its proof begins
            let last = all.last_mut().unwrap();
            if line.is_empty() || line.starts_with(&format!("{} ", last.name)) {
                open = false;
            } else {
                last.words.extend(words(line).into_iter().map(String::from));
            }
        }
    }
    all
}

pub fn of_crate(of: &Crate) -> Vec<Lemma> {
    let path = of.folder().join("proofs/Unique.antt");
    if path.exists() {
        of_text(&of.name, &read(&path))
    } else {
        Vec::new()
    }
}

/// The names that a crate's lemmas take from elsewhere.
pub fn imports(of: &Crate) -> Vec<String> {
    let path = of.folder().join("proofs/Unique.antt");
    let text = if path.exists() { read(&path) } else { String::new() };
    let lists = text.lines().filter(|line| line.starts_with("use ")).filter_map(|line| line.split_once(".{"));
    lists.flat_map(|(_, list)| list.trim_end_matches('}').split(", ").map(String::from).collect::<Vec<_>>()).collect()
}

/// What a promise says: the names that are defined somewhere, fields, and numbers; not the function's own parameters.
fn said(function: &Function, promise: &[String], known: &BTreeSet<String>) -> BTreeSet<String> {
    let own = |word: &String| function.imports.get(word).filter(|name| !name.contains("::")).unwrap_or(word).clone();
    let told = |word: &String| {
        let number = word.len() > 1 && word.chars().all(|c| c.is_ascii_digit());
        word.starts_with('.') || number || (known.contains(word) && !function.parameters.contains(word))
    };
    promise.iter().map(own).filter(told).collect()
}

/// Of lemmas that suppose a promise twice, the one whose statement says most of what this promise says, one of its own crate first, and least else.
fn best<'a>(own: &str, said: &BTreeSet<String>, known: &BTreeSet<String>, near: &'a [Lemma]) -> Option<&'a Lemma> {
    let twice = |lemma: &Lemma, word: &String| lemma.words.iter().filter(|w| *w == word).count() >= 2;
    let score = |lemma: &Lemma| {
        let told = |word: &&String| known.contains(*word) || word.starts_with('.');
        let other = lemma.words.iter().filter(told).filter(|word| !said.contains(*word)).count();
        (said.iter().filter(|word| twice(lemma, word)).count(), lemma.of == own, std::cmp::Reverse(other))
    };
    let mut best: Option<&Lemma> = None;
    for lemma in near.iter().filter(|lemma| said.iter().any(|word| !word.starts_with('.') && twice(lemma, word))) {
        if best.is_none_or(|b| score(lemma) > score(b)) {
            best = Some(lemma);
        }
    }
    best
}

/// The lemma for a function's promise. `near` has those of its own crate first, then those below it. Where none speaks of the promise, and it
/// is an equation, `once`; else one that speaks of the promise by which this one is defined.
pub fn unique(
    function: &Function,
    known: &BTreeSet<String>,
    definitions: &[Definition],
    near: &[Lemma],
) -> Option<Lemma> {
    let own = function.module.split("::").next().unwrap();
    let promise: Vec<String> = function.ensures.iter().flat_map(|e| words(e)).map(String::from).collect();
    let first = said(function, &promise, known);
    let within = definitions.iter().filter(|d| first.contains(&d.name)).flat_map(|d| d.words.iter().cloned());
    let promises = within.filter(|word| word.starts_with("Is")).collect::<Vec<_>>();
    let deeper = said(function, &promises, known);
    let equation =
        || near.iter().find(|lemma| lemma.name == "once").filter(|_| function.ensures.join(" ").contains('≡'));
    best(own, &first, known, near).or_else(equation).or_else(|| best(own, &deeper, known, near)).cloned()
}
