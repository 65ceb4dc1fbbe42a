//! Which edits touch what a public function runs or promises.

use crate::definition::Definition;
use crate::edit::{line_of, Edit};
use crate::function::Function;
use crate::{read, words, Crate};
use std::collections::{BTreeMap, BTreeSet};

/// The paths in a body: names with `::` between them, methods that are called with their dot, and macros with their `!`.
fn paths(body: &str) -> BTreeSet<String> {
    let code: String = body.lines().map(|line| line.split("//").next().unwrap_or("")).collect::<Vec<_>>().join("\n");
    let in_path = |c: char| c.is_alphanumeric() || matches!(c, '_' | ':' | '.' | '!');
    let mut found = BTreeSet::new();
    for piece in code.replace("::<", "(").split_inclusive('(') {
        let words: Vec<&str> = piece.split(|c: char| !in_path(c)).collect();
        for (i, word) in words.iter().enumerate() {
            // a name behind a dot that is not called is a field
            let called = piece.ends_with('(') && i + 2 == words.len();
            if called || !word.contains('.') {
                found.insert(word.trim_matches(':').trim_start_matches('!').to_string());
            }
        }
    }
    found.remove("");
    found
}

/// The functions and constants of its own crate that a function names.
fn named<'a>(function: &Function, all: &'a BTreeMap<String, &'a Function>) -> Vec<&'a Function> {
    let mut found = Vec::new();
    for path in paths(&function.body) {
        if let Some((on, method)) = path.rsplit_once('.') {
            // of a parameter's own type; where the type is not told, of every type that has a method of the name
            let ending = match function.types.get(on) {
                Some(of) => format!("::{of}::{method}"),
                None => format!("::{method}"),
            };
            found.extend(all.values().filter(|f| f.owner.is_some() && f.path.ends_with(&ending)));
            continue;
        }
        let (first, rest) = path.split_once("::").map_or((path.as_str(), ""), |(a, b)| (a, b));
        let whole = |home: String| if rest.is_empty() { home } else { format!("{home}::{rest}") };
        let of = function.module.split("::").next().unwrap();
        let imported = function.imports.get(first).cloned().map(whole);
        let homes = [
            imported.clone(),
            // at the root of a crate its modules are named without `crate`
            imported.map(|home| format!("{of}::{home}")),
            (first == "Self").then(|| function.owner.clone().map(whole)).flatten(),
            (first == "crate").then(|| format!("{of}::{rest}")),
            Some(format!("{}::{path}", function.module)),
            Some(format!("{of}::{path}")),
        ];
        found.extend(homes.into_iter().flatten().filter_map(|home| all.get(&home)));
    }
    found
}

fn by_path(functions: &[Function]) -> BTreeMap<String, &Function> {
    functions.iter().map(|f| (f.path.clone(), f)).collect()
}

/// All that a function runs in its own crate, itself too, up to other public functions, which stand for themselves; and those.
fn runs(function: &Function, all: &BTreeMap<String, &Function>) -> (BTreeSet<String>, BTreeSet<String>) {
    let mut seen = BTreeSet::from([function.path.clone()]);
    let mut public = BTreeSet::new();
    let mut left = vec![function.path.clone()];
    while let Some(path) = left.pop() {
        for next in named(all[&path], all) {
            if next.public && next.path != function.path {
                public.insert(next.path.clone());
            } else if seen.insert(next.path.clone()) {
                left.push(next.path.clone());
            }
        }
    }
    (seen, public)
}

/// The public functions of its own crate that a function runs.
pub fn calls(function: &Function, functions: &[Function]) -> Vec<String> {
    runs(function, &by_path(functions)).1.into_iter().collect()
}

/// All definitions of its own crate that a promise is made of.
pub fn says(function: &Function, definitions: &[Definition]) -> BTreeSet<String> {
    let own = |word: &str| function.imports.get(word).cloned().unwrap_or_else(|| word.into());
    let named = function.ensures.iter().flat_map(|e| words(e)).filter(|word| !function.foreign.contains(*word));
    let mut left: Vec<String> = named.map(own).collect();
    let mut seen = BTreeSet::new();
    while let Some(word) = left.pop() {
        for definition in definitions.iter().filter(|d| d.name == word) {
            if seen.insert(word.clone()) {
                left.extend(definition.words.iter().cloned());
            }
        }
    }
    seen
}

/// Where the text of an edit stands: in a function or constant, in a definition, or in neither.
fn touched(of: &Crate, edit: &Edit, functions: &[Function], definitions: &[Definition]) -> (Vec<String>, Vec<String>) {
    let (mut code, mut rules) = (Vec::new(), Vec::new());
    for (file, old) in &edit.old {
        let Some(line) = line_of(&read(&of.folder().join(file)), old) else { continue };
        let within = |lines: (usize, usize)| lines.0 <= line && line < lines.1;
        code.extend(functions.iter().filter(|f| f.file == *file && within(f.lines)).map(|f| f.path.clone()));
        rules.extend(definitions.iter().filter(|d| d.file == *file && within(d.lines)).map(|d| d.name.clone()));
    }
    (code, rules)
}

/// For each public function the edits that touch what it runs or promises; behind them those that touch none, under no name.
pub fn edits(
    of: &Crate,
    functions: &[Function],
    definitions: &[Definition],
    edits: &[Edit],
) -> BTreeMap<String, Vec<String>> {
    let all = by_path(functions);
    let places: Vec<_> = edits.iter().map(|edit| touched(of, edit, functions, definitions)).collect();
    let mut found: BTreeMap<String, Vec<String>> = BTreeMap::new();
    let mut rest: BTreeSet<String> = edits.iter().map(|edit| edit.name.clone()).collect();
    for function in functions.iter().filter(|f| f.public) {
        let (runs, says) = (runs(function, &all).0, says(function, definitions));
        for (edit, (code, rules)) in edits.iter().zip(&places) {
            if code.iter().any(|c| runs.contains(c)) || rules.iter().any(|r| says.contains(r)) {
                found.entry(function.path.clone()).or_default().push(edit.name.clone());
                rest.remove(&edit.name);
            }
        }
    }
    found.insert(String::new(), rest.into_iter().collect());
    found
}
