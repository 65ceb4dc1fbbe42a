//! The pages are for people: no line is wider than a screen, and what a page names in the repository is there.
use std::fs;
use std::path::{Path, PathBuf};

const WIDTH: usize = 160;

fn root() -> PathBuf {
    Path::new(env!("CARGO_MANIFEST_DIR")).join("..")
}

/// README.md and the pages of docs/, each by its name.
fn pages() -> Vec<(String, String)> {
    let docs = fs::read_dir(root().join("docs")).expect("docs/ is there").map(|entry| entry.unwrap().path());
    let mut all: Vec<PathBuf> = docs.filter(|path| path.extension().is_some_and(|ending| ending == "md")).collect();
    all.push(root().join("README.md"));
    all.sort();
    let name = |path: &Path| path.file_name().unwrap().to_str().unwrap().to_string();
    all.into_iter().map(|path| (name(&path), fs::read_to_string(&path).unwrap())).collect()
}

#[test]
fn no_line_of_a_page_is_wider_than_160_characters() {
    let mut wide = Vec::new();
    for (page, text) in pages() {
        for (i, line) in text.lines().enumerate().filter(|(_, line)| line.chars().count() > WIDTH) {
            wide.push(format!("{page}:{}: {}", i + 1, line.chars().count()));
        }
    }
    assert!(wide.is_empty(), "lines wider than {WIDTH}: {wide:#?}");
}

#[test]
fn the_readme_is_two_screens() {
    let text = fs::read_to_string(root().join("README.md")).unwrap();
    assert!(text.lines().count() <= 100, "{} lines", text.lines().count());
}

/// `docs/NAME.md` in any page is a page that is there.
#[test]
fn each_page_that_a_page_names_is_there() {
    let pages = pages();
    assert!(pages.len() > 5);
    let mut missing = Vec::new();
    for (page, text) in &pages {
        for part in text.split("docs/").skip(1) {
            let end = part.find(|c: char| !(c.is_ascii_uppercase() || c == '_' || c == '.' || c == 'm' || c == 'd'));
            let named = part[..end.unwrap_or(part.len())].trim_end_matches('.');
            if named.ends_with(".md") && !pages.iter().any(|(name, _)| name == named) {
                missing.push(format!("{page}: docs/{named}"));
            }
        }
    }
    assert!(missing.is_empty(), "{missing:?}");
}
