//! Edits: wrong answers that the check must refuse.

use crate::{entries, name_of, read, Crate};

#[derive(Clone, Debug)]
pub struct Edit {
    pub name: String,
    /// Whether every check tries it, or only `tools/try-edits`.
    pub always: bool,
    /// The text that is taken out, by the file that has it.
    pub old: Vec<(String, String)>,
    pub says: Option<String>,
}

pub fn parsed(name: &str, always: bool, text: &str) -> Edit {
    let mut edit = Edit { name: name.into(), always, old: Vec::new(), says: None };
    let mut file = String::new();
    for line in text.lines() {
        if let Some(named) = line.strip_prefix("file: ") {
            file = named.into();
        } else if let Some(old) = line.strip_prefix("old: ") {
            edit.old.push((file.clone(), old.into()));
        } else if let Some(says) = line.strip_prefix("# ") {
            edit.says.get_or_insert_with(|| says.into());
        }
    }
    edit
}

pub fn of_crate(of: &Crate) -> Vec<Edit> {
    let mut all = Vec::new();
    for (folder, always) in [("must-fail", true), ("tried", false)] {
        let files =
            entries(&of.folder().join(folder)).into_iter().filter(|path| path.extension().is_some_and(|e| e == "edit"));
        all.extend(files.map(|path| parsed(&name_of(&path), always, &read(&path))));
    }
    all
}

/// The line, from 0 on, at which a text that may have no more than one place stands in a file.
pub fn line_of(text: &str, old: &str) -> Option<usize> {
    text.find(old).map(|at| text[..at].matches('\n').count())
}
