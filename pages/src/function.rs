//! The functions, constants and macros of the crates' sources, with what stands between a function's name and its body.

use crate::{entries, foreign, name_of, read, Crate};
use std::collections::{BTreeMap, BTreeSet};
use std::path::Path;

/// A function, a constant, or a macro under its name with its `!`.
#[derive(Clone, Debug)]
pub struct Function {
    pub path: String,
    /// From the crate's folder on.
    pub file: String,
    /// The path of the file's module, and of the type whose `impl` it stands in.
    pub module: String,
    pub owner: Option<String>,
    pub public: bool,
    pub requires: bool,
    /// Each as the page writes it.
    pub ensures: Vec<String>,
    pub parameters: Vec<String>,
    /// The type of each parameter that is one of a name, by the parameter's name.
    pub types: BTreeMap<String, String>,
    /// Its lines in the file, from 0 on: from its first to the one past its last.
    pub lines: (usize, usize),
    pub body: String,
    /// What its file imports: a name, and the path that it stands for; also names that `ensures` uses, by their own name.
    pub imports: BTreeMap<String, String>,
    /// The names that its clauses take from the rules of other crates.
    pub foreign: BTreeSet<String>,
}

/// The word before a function's name, and the name, if the line begins a function.
fn begins(line: &str) -> Option<(bool, &str)> {
    let text = line.trim_start();
    let (public, rest) = match text.strip_prefix("pub ") {
        Some(rest) => (true, rest),
        None => (false, text.strip_prefix("pub(crate) ").unwrap_or(text)),
    };
    let rest = rest.strip_prefix("extern \"C\" ").unwrap_or(rest).strip_prefix("fn ")?;
    Some((public, &rest[..rest.find(|c: char| !c.is_alphanumeric() && c != '_')?]))
}

fn named_macro(line: &str) -> Option<&str> {
    line.strip_prefix("macro_rules! ")?.split(' ').next()
}

fn constant(line: &str) -> Option<&str> {
    let text = line.trim_start();
    let rest = text
        .strip_prefix("pub ")
        .or_else(|| text.strip_prefix("pub(crate) "))
        .unwrap_or(text)
        .strip_prefix("const ")?;
    rest.split_once(':').map(|(name, _)| name.trim())
}

/// What follows the `{` that `text` begins with, up to its `}`, and what stands behind that.
fn braced(text: &str) -> (&str, &str) {
    let mut depth = 0;
    for (i, c) in text.char_indices() {
        depth += i32::from(c == '{') - i32::from(c == '}');
        if depth == 0 {
            return (&text[1..i], &text[i + 1..]);
        }
    }
    panic!("a brace that is not closed: {text}");
}

/// The word of the clause whose `{` a text ends before, if it is one: `ensures`, also with a name behind it.
fn clause_word(head: &str) -> Option<&str> {
    let line = head.trim_end().rsplit('\n').next().unwrap_or("").trim_start();
    let word = line.split(' ').next().unwrap_or("").trim_end_matches('*');
    ["requires", "ensures"].contains(&word).then_some(word)
}

/// The clauses between a function's name and its body, each with its word, and the rest.
fn clauses(mut text: &str) -> (Vec<(&str, &str)>, &str) {
    let mut found = Vec::new();
    loop {
        let body = text.find('{').expect("a function has a body");
        let Some(word) = clause_word(&text[..body]) else {
            return (found, &text[body..]);
        };
        let (inside, rest) = braced(&text[body..]);
        found.push((word, inside));
        text = rest;
    }
}

/// An `ensures` as the page writes it: `x` for what is lent, `x.now` or `x.old`, `x′` for `x.new`, and `p` for the number `p.0` of a counted one.
pub fn as_written(clause: &str) -> String {
    let text = clause.split_whitespace().collect::<Vec<_>>().join(" ");
    let in_word = |c: char| c.is_alphanumeric() || c == '_' || c == '\'';
    let mut parts = text.split('.');
    let mut written = parts.next().unwrap_or("").to_string();
    for part in parts {
        let (field, rest) = part.split_at(part.find(|c: char| !in_word(c)).unwrap_or(part.len()));
        match field {
            "now" | "old" | "0" => written.push_str(rest),
            "new" => written.extend(["′", rest]),
            _ => written.extend([".", part]),
        }
    }
    written
}

/// The type of an `impl` without its parameters, and whether the block is of a trait.
fn implemented(line: &str) -> Option<(&str, bool)> {
    let rest = line.strip_prefix("impl")?;
    let head = match rest.strip_prefix('<') {
        Some(parameters) => parameters.split_once("> ")?.1,
        None => rest.strip_prefix(' ')?,
    };
    let (of, is_trait) = head.split_once(" for ").map_or((head, false), |(_, of)| (of, true));
    Some((of.split(['<', '{']).next()?.trim(), is_trait))
}

/// The types that a text declares `pub`.
fn public_types(text: &str) -> impl Iterator<Item = &str> {
    let declared = text.lines().filter(|line| line.starts_with("pub struct ") || line.starts_with("pub enum "));
    declared.filter_map(|line| line.split([' ', '<', '(', ';']).nth(2))
}

/// The path of the type of an `impl`: at the root of its crate where the file imports it from there, else in the file's module.
fn path_of(owner: &str, imports: &BTreeMap<String, String>, module: &str) -> String {
    let root = module.split("::").next().unwrap();
    let at_root = format!("{root}::{owner}");
    let home = if imports.get(owner) == Some(&at_root) { root } else { module };
    format!("{home}::{owner}")
}

/// The paths of a `use`: each of a list by itself.
fn spread(path: &str) -> Vec<String> {
    match path.split_once("::{") {
        Some((home, list)) => list.trim_end_matches('}').split(", ").map(|name| format!("{home}::{name}")).collect(),
        None => vec![path.into()],
    }
}

/// What a file's `use` lines bring in, by the name that it has there.
fn imports(text: &str, of: &str) -> BTreeMap<String, String> {
    let mut all = BTreeMap::new();
    for line in text.lines() {
        if let Some(path) = line.strip_prefix("use ").and_then(|rest| rest.strip_suffix(';')) {
            for path in spread(path) {
                let whole = path.replace("crate::", &format!("{of}::"));
                all.insert(whole.rsplit("::").next().unwrap().to_string(), whole);
            }
        } else if let Some((_, list)) = line.strip_prefix("ghost use ").and_then(|rest| rest.split_once(".{")) {
            for part in list.trim_end_matches("};").split(", ") {
                if let Some((name, here)) = part.split_once(" as ") {
                    all.insert(here.into(), name.into());
                }
            }
        }
    }
    all
}

/// The parameters whose type is one name, also behind a `&`, each with that name.
fn types(head: &str) -> BTreeMap<String, String> {
    let parts = head.split(['(', ',', ')']).filter_map(|part| part.split_once(':'));
    let named = parts.map(|(name, of)| (name.trim(), of.trim().trim_start_matches("&mut ").trim_start_matches('&')));
    named
        .filter(|(_, of)| of.starts_with(char::is_uppercase) && of.chars().all(char::is_alphanumeric))
        .map(|(name, of)| (name.trim_start_matches("mut ").to_string(), of.to_string()))
        .collect()
}

/// The names before a `:` in a function's first lines.
fn parameters(head: &str) -> Vec<String> {
    let last_word =
        |part: &str| part.trim_end().rsplit(|c: char| !c.is_alphanumeric() && c != '_').next().map(String::from);
    let parts: Vec<&str> = head.split(':').collect();
    parts[..parts.len() - 1].iter().filter_map(|part| last_word(part)).filter(|name| !name.is_empty()).collect()
}

/// The functions, constants and macros of one file; `module` is its path. What a trait's block promises of a type of `seen` is public.
pub fn functions(text: &str, module: &str, file: &str, seen: &BTreeSet<String>) -> Vec<Function> {
    let of = module.split("::").next().unwrap();
    let (imports, foreign) = (imports(text, of), foreign(text, "ghost use ", of));
    let lines: Vec<&str> = text.lines().collect();
    let mut found = Vec::new();
    let mut owner = None;
    // of the block of a trait, what its ghost members promise
    let mut promised: Option<Vec<String>> = None;
    let mut at = 0;
    for (i, line) in text.split_inclusive('\n').enumerate() {
        if let Some((of, is_trait)) = implemented(line.trim_end()) {
            owner = Some(path_of(of, &imports, module));
            promised = (is_trait && seen.contains(of)).then(Vec::new);
        } else if line.trim_end() == "}" {
            (owner, promised) = (None, None);
        } else if let (Some(all), Some(member)) = (&mut promised, line.trim().strip_prefix("ghost ")) {
            all.push(as_written(member.trim_end_matches(';').replace(" = { ", " = ").trim_end_matches(" }")));
        }
        let home = owner.clone().unwrap_or_else(|| module.to_string());
        let made = |name: &str, public: bool, last: usize, head: &str, said: &[(&str, &str)], body: &str| {
            let own = said.iter().filter(|c| c.0 == "ensures").map(|c| as_written(c.1));
            let ensures: Vec<String> = promised.iter().flatten().cloned().chain(own).collect();
            Function {
                parameters: parameters(head),
                types: types(head),
                path: format!("{home}::{name}"),
                file: file.into(),
                module: module.into(),
                owner: owner.clone(),
                public: public || (promised.is_some() && !ensures.is_empty()),
                requires: said.iter().any(|c| c.0 == "requires"),
                ensures,
                lines: (i, last),
                body: body.into(),
                imports: imports.clone(),
                foreign: foreign.clone(),
            }
        };
        if let Some((public, name)) = begins(line) {
            let indent = &line[..line.len() - line.trim_start().len()];
            let close = format!("{indent}}}");
            let last = lines[i..].iter().position(|l| *l == close).map_or(lines.len(), |n| i + n + 1);
            let (said, body) = clauses(&text[at..]);
            let bytes: usize = lines[i..last].iter().map(|l| l.len() + 1).sum();
            let body = &body[..body.len().min((at + bytes).saturating_sub(text.len() - body.len()))];
            let head = &text[at..at + text[at..].find('{').unwrap_or(0)];
            found.push(made(name, public, last, head, &said, body));
        } else if let Some(name) = named_macro(line) {
            let last = lines[i..].iter().position(|l| *l == "}").map_or(lines.len(), |n| i + n + 1);
            found.push(made(&format!("{name}!"), false, last, "", &[], &lines[i..last].join("\n")));
        } else if let Some(name) = constant(line) {
            // what ends with an opening brace or bracket goes on to the line that closes it
            let ends = |l: &&str| if line.trim_end().ends_with(['{', '[']) { l.starts_with(['}', ']']) } else { l.ends_with(';') };
            let last = lines[i..].iter().position(|l| ends(&l)).map_or(i + 1, |n| i + n + 1);
            found.push(made(name, false, last, "", &[], &lines[i..last].join("\n")));
        }
        at += line.len();
    }
    found
}

/// The sources below a folder: of each its text, its module, and its file.
fn sources(folder: &Path, module: &str, place: &str) -> Vec<(String, String, String)> {
    let mut all = Vec::new();
    for path in entries(folder) {
        let stem = name_of(&path);
        let inner = if stem == "lib" || stem == "main" { module.to_string() } else { format!("{module}::{stem}") };
        if path.is_dir() {
            all.extend(sources(&path, &inner, &format!("{place}/{stem}")));
        } else if path.extension().is_some_and(|e| e == "rt") {
            all.push((read(&path), inner, format!("{place}/{stem}.rt")));
        }
    }
    all
}

pub fn of_crate(of: &Crate) -> Vec<Function> {
    let all = sources(&of.folder().join("src"), &of.name, "src");
    let seen = all.iter().flat_map(|(text, _, _)| public_types(text)).map(String::from).collect();
    all.iter().flat_map(|(text, module, file)| functions(text, module, file, &seen)).collect()
}
