//! The definitions of a crate's specs/, each with the words that it is made of.

use crate::{entries, foreign, name_of, read, words, Crate};

pub struct Definition {
    pub name: String,
    /// From the crate's folder on.
    pub file: String,
    pub lines: (usize, usize),
    pub words: Vec<String>,
}

/// The name that a line gives to a definition, if it begins one.
fn begins(line: &str) -> Option<&str> {
    let text = line.trim_start();
    let text = text.strip_prefix("unfoldable ").or_else(|| text.strip_prefix("abbrev ")).unwrap_or(text);
    let rest = text.strip_prefix("pub ")?;
    let rest = rest.strip_prefix("record ").or_else(|| rest.strip_prefix("data ")).unwrap_or(rest);
    // a field of a record is no definition
    if line.starts_with("  ") && !text.contains("_once") && !line.contains("→") {
        return None;
    }
    rest.split([' ', ':']).next().filter(|name| !name.is_empty() && *name != "use")
}

/// `of` is the file's crate: a word that the file takes from another stands for nothing of this one.
pub fn of_file(text: &str, file: &str, of: &str) -> Vec<Definition> {
    let elsewhere = foreign(text, "use ", of);
    let lines: Vec<&str> = text.lines().collect();
    let starts: Vec<usize> = (0..lines.len()).filter(|i| begins(lines[*i]).is_some()).collect();
    let mut all = Vec::new();
    for (k, from) in starts.iter().enumerate() {
        let to = starts.get(k + 1).copied().unwrap_or(lines.len());
        let text = lines[*from..to].iter().filter(|l| !l.trim_start().starts_with("--")).copied().collect::<Vec<_>>();
        let made_of = text.iter().flat_map(|line| words(line)).filter(|word| !elsewhere.contains(*word));
        let name = begins(lines[*from]).unwrap().to_string();
        all.push(Definition { name, file: file.into(), lines: (*from, to), words: made_of.map(String::from).collect() });
    }
    all
}

pub fn of_crate(of: &Crate) -> Vec<Definition> {
    let files =
        entries(&of.folder().join("specs")).into_iter().filter(|path| path.extension().is_some_and(|e| e == "antt"));
    files.flat_map(|path| of_file(&read(&path), &format!("specs/{}.antt", name_of(&path)), &of.name)).collect()
}
