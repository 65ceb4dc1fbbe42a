//! docs/PROMISES.md: a part for each crate, drawn between two marks; what stands around the marks is kept.

use crate::{crates, definition, edit, function, lemma, reach, Crate};
use std::collections::BTreeSet;

/// A page's lines are no wider than this.
const WIDTH: usize = 156;

pub fn begin(name: &str) -> String {
    format!("<!-- {name}: drawn by tools/promises --write -->")
}

pub fn end(name: &str) -> String {
    format!("<!-- the end of {name} -->")
}

/// Words in lines, the first of which begins with `- `.
fn filled(text: &str) -> String {
    let mut lines = vec![String::from("-")];
    for word in text.split(' ') {
        if lines.last().unwrap().chars().count() + 1 + word.chars().count() > WIDTH {
            lines.push(String::from(" "));
        }
        let line = lines.last_mut().unwrap();
        line.push(' ');
        line.push_str(word);
    }
    lines.join("\n") + "\n"
}

fn quoted(names: &[String]) -> String {
    names.iter().map(|name| format!("`{name}`")).collect::<Vec<_>>().join(", ")
}

/// What is drawn for one crate: its public functions in the order of their paths, then its other edits. Nothing for a crate with neither.
pub fn part(of: &Crate, known: &BTreeSet<String>, near: &[lemma::Lemma]) -> String {
    let mut functions = function::of_crate(of);
    functions.sort_by(|a, b| a.path.cmp(&b.path));
    let edits = edit::of_crate(of);
    let definitions = definition::of_crate(of);
    let touched = reach::edits(of, &functions, &definitions, &edits);
    let mut text = String::new();
    for f in functions.iter().filter(|f| f.public && !of.is_program()) {
        let once = lemma::unique(f, known, &definitions, near).map_or("none".into(), |l| {
            if l.of == of.name {
                format!("`{}`", l.name)
            } else {
                format!("`{}` of {}", l.name, l.of)
            }
        });
        let below = reach::calls(f, &functions);
        let wrong = match (touched.get(&f.path), below.is_empty()) {
            (None, true) => "none".into(),
            (None, false) => format!("those of {}", quoted(&below)),
            (Some(names), true) => quoted(names),
            (Some(names), false) => format!("{}; those of {}", quoted(names), quoted(&below)),
        };
        text += &filled(&format!("`{}`: {}. One answer: {once}. Wrong answers: {wrong}.", f.path, quoted(&f.ensures)));
    }
    if let Some(rest) = touched.get("").filter(|rest| !rest.is_empty()) {
        text += &filled(&format!("Other wrong answers of the crate: {}.", quoted(rest)));
    }
    text
}

/// The parts of all crates that have one, lower ones first.
pub fn parts() -> Vec<(String, String)> {
    let all = crates();
    let definitions = all.iter().flat_map(definition::of_crate).map(|d| d.name);
    let known: BTreeSet<String> = definitions.chain(all.iter().flat_map(lemma::imports)).collect();
    let lemmas = |name: &str| all.iter().find(|c| c.name == name).map_or(Vec::new(), lemma::of_crate);
    let drawn = all.iter().map(|of| {
        let mut near = lemmas(&of.name);
        near.extend(of.rests.iter().rev().flat_map(|below| lemmas(below)));
        near.extend(lemmas("num"));
        (of.name.clone(), part(of, &known, &near))
    });
    drawn.filter(|(_, text)| !text.is_empty()).collect()
}

/// The page with each part between its marks; a crate that has no marks yet gets them at the end.
pub fn page(old: &str) -> String {
    let mut text = old.to_string();
    let parts = parts();
    for (name, part) in &parts {
        let (first, last) = (begin(name), end(name));
        match (text.find(&first), text.find(&last)) {
            (Some(from), Some(to)) => text.replace_range(from..to, &format!("{first}\n\n{part}\n")),
            _ => text = format!("{}\n\n## {name}\n\n{first}\n\n{part}\n{last}\n", text.trim_end()),
        }
    }
    text
}
