//! docs/PROMISES.md is drawn from the sources as they stand; every public function promises something, asks for nothing, and has a lemma that
//! there is one answer; every edit says what it stands for, and still applies.

use pages::function::{functions, of_crate, Function};
use pages::{crates, definition, draw, edit, lemma, reach, read, root};
use std::collections::BTreeSet;

fn public_functions() -> Vec<Function> {
    let libraries = crates().into_iter().filter(|of| !of.is_program());
    libraries.flat_map(|of| of_crate(&of)).filter(|f| f.public).collect()
}

#[test]
fn the_page_is_the_one_that_is_drawn() {
    let page = read(&root().join("docs/PROMISES.md"));
    assert!(draw::page(&page) == page, "docs/PROMISES.md is stale: run tools/promises --write");
    for (name, part) in draw::parts() {
        let marks = [draw::begin(&name), draw::end(&name)].map(|mark| page.matches(&mark).count());
        assert_eq!(marks, [1, 1], "the marks of {name}");
        assert!(!part.contains("One answer: none"), "no lemma that there is one answer: {part}");
    }
}

#[test]
fn every_public_function_promises_and_asks_for_nothing() {
    let all = public_functions();
    assert!(all.len() > 50, "only {} public functions are seen", all.len());
    let wrong: Vec<String> = all.into_iter().filter(|f| f.requires || f.ensures.is_empty()).map(|f| f.path).collect();
    assert!(wrong.is_empty(), "with a `requires`, or without an `ensures`: {wrong:?}");
}

#[test]
fn every_public_function_has_a_part_of_the_page() {
    let page = read(&root().join("docs/PROMISES.md"));
    let times = |path: &String| page.matches(&format!("- `{path}`:")).count();
    let wrong: Vec<String> = public_functions().into_iter().map(|f| f.path).filter(|path| times(path) != 1).collect();
    assert!(wrong.is_empty(), "not once in docs/PROMISES.md: {wrong:?}");
    assert!(!page.lines().any(|line| line.starts_with('|')), "docs/PROMISES.md has rows that are not drawn");
}

#[test]
fn a_program_has_no_public_function() {
    for of in crates().iter().filter(|of| of.is_program()) {
        let public: Vec<String> = of_crate(of).into_iter().filter(|f| f.public).map(|f| f.path).collect();
        assert!(public.is_empty(), "nobody can call them: {public:?}");
    }
}

#[test]
fn every_folder_of_crates_is_in_crates_txt() {
    let listed: BTreeSet<String> = crates().into_iter().map(|of| of.name).collect();
    let there: BTreeSet<String> = pages::entries(&root().join("crates")).iter().map(|p| pages::name_of(p)).collect();
    assert_eq!(listed, there);
}

#[test]
fn every_edit_says_what_it_stands_for() {
    let named = ["PROMISES.md", "WRONG_ANSWERS.md"].map(|page| read(&root().join("docs").join(page)));
    let mut silent = Vec::new();
    for of in crates() {
        for edit in edit::of_crate(&of) {
            let quoted = format!("`{}`", edit.name);
            if edit.says.is_none() && !named.iter().any(|page| page.contains(&quoted)) {
                silent.push(format!("{}/{}", of.name, edit.name));
            }
        }
    }
    assert!(silent.is_empty(), "no first line `# ..`, and in no page of docs/: {silent:?}");
}

#[test]
fn every_edit_still_applies() {
    let mut stale = Vec::new();
    for of in crates() {
        for edit in edit::of_crate(&of) {
            assert!(!edit.old.is_empty(), "{}/{}: no text to edit", of.name, edit.name);
            for (file, old) in &edit.old {
                if read(&of.folder().join(file)).matches(old.as_str()).count() != 1 {
                    stale.push(format!("{}/{}: {old}", of.name, edit.name));
                }
            }
        }
    }
    assert!(stale.is_empty(), "the old text does not stand there once: {stale:#?}");
}

#[test]
fn the_reader_of_sources_sees_what_it_should() {
    let text = "use crate::m::help;\nuse crate::{A, B};\nghost use Rattle.c.specs.Two.{other, good as is_two};\n\nimpl B {\n    pub fn none() {\n    }\n}\n\n\
        impl C {\n    pub fn one(self) -> u8\n        ensures { result ≡ 1 }\n    {\n        help(1)\n    }\n}\n\n\
        pub fn two(x: u8)\n    ensures {\n        IsTwo {n = 2}\n          x }\n    requires { x ≡ 0 }\n{\n}\n\n\
        pub(crate) fn three() {\n}\n\n\
        #[unsafe(no_mangle)]\npub extern \"C\" fn four(\n    mem: &mut [u8],\n    x: Position,\n) -> u8\n    \
        ensures first { IsFour mem.old x.0 result.at mem.new }\n    ensures* second { result < 4 }\n{\n    0\n}\n\npub fn five() {\n}\n\n\
        impl TryFrom<u8> for Seen {\n    ghost try_from_gives = { Named };\n\n    fn try_from(name: u8) -> Result<Seen, u8> {\n    }\n}\n\n\
        impl<const N: usize> fmt::Display for Seen<N> {\n    fn fmt(&self) {\n    }\n}\n\n\
        impl From<u8> for Unseen {\n    fn from(x: u8) -> Unseen\n        ensures { result ≡ 1 }\n    {\n    }\n}\n\n\
        macro_rules! row {\n    () => {\n    };\n}\n\nconst ROWS: [u8; 2] = table! {\n    one;\n};\n";
    let all = functions(text, "c::m", "src/m.rt", &BTreeSet::from(["Seen".to_string()]));
    let f: Vec<&Function> = all.iter().filter(|f| f.public).collect();
    let names: Vec<&str> = f.iter().map(|f| f.path.as_str()).collect();
    assert_eq!(names, ["c::B::none", "c::m::C::one", "c::m::two", "c::m::four", "c::m::five", "c::m::Seen::try_from"]);
    assert!(!f[1].requires && f[1].ensures == ["result ≡ 1"]);
    assert!(f[1].body.contains("help(1)") && !f[1].body.contains("two"));
    assert_eq!((f[1].imports["help"].as_str(), f[1].imports["is_two"].as_str()), ("c::m::help", "good"));
    assert!(f[2].requires && f[2].ensures == ["IsTwo {n = 2} x"]);
    assert!(!f[3].requires && f[3].ensures == ["IsFour mem x result.at mem′", "result < 4"]);
    assert_eq!(f[3].parameters, ["mem", "x"]);
    assert!(!f[4].requires && f[4].ensures.is_empty());
    assert!(f[5].ensures == ["try_from_gives = Named"]);
    let inner = ["c::m::three", "c::m::Seen::fmt", "c::m::Unseen::from", "c::m::row!", "c::m::ROWS"];
    assert!(inner.iter().all(|path| all.iter().any(|f| f.path == *path && !f.public)));
    let rows = all.iter().find(|f| f.path == "c::m::ROWS").unwrap();
    assert!(rows.lines.1 - rows.lines.0 == 3 && rows.body.contains("one;"));
}

#[test]
fn an_edit_stands_at_what_it_touches_and_nowhere_else() {
    // `answered` is a rule of num here, and not the crate's own of that name; `sets` is asked of a wish, and not of a layout, whose field is read
    let text = "ghost use Rattle.num.specs.Refusals.{answered};\nghost use Rattle.c.specs.Take.{ready};\n\n\
        pub fn asks(wish: Wish, held: &Layout) -> u8\n    ensures { answered result ≡ ready wish }\n{\n    wish.sets() + held.sets[0]\n}\n\n\
        impl Wish {\n    pub fn sets(self) -> u8 {\n    }\n}\n\nimpl Layout {\n    pub fn sets(self) -> u8 {\n    }\n}\n";
    let all = functions(text, "c::m", "src/m.rt", &BTreeSet::new());
    assert_eq!(all[0].foreign, BTreeSet::from(["answered".to_string()]));
    assert_eq!((all[0].types["wish"].as_str(), all[0].types["held"].as_str()), ("Wish", "Layout"));
    assert_eq!(reach::calls(&all[0], &all), ["c::m::Wish::sets"]);
    let rules = "use Rattle.num.specs.Refusals.{answered}\n\nabbrev pub ready : ℕ\nready = answered\n";
    assert!(!definition::of_file(rules, "specs/Take.antt", "c")[0].words.contains(&"answered".to_string()));
    let rules = "abbrev pub answered : ℕ\nanswered = 1\n\nabbrev pub ready : ℕ\nready = 2\n";
    let own = definition::of_file(rules, "specs/Take.antt", "c");
    assert_eq!(reach::says(&all[0], &own), BTreeSet::from(["ready".to_string()]));
}

#[test]
fn the_reader_of_rules_sees_what_it_should() {
    let text = "-- a comment\npub record Is (a : ℕ) : Type 0 where\n  pub answer_is : a ≡ two\n\nunfoldable pub two : ℕ\ntwo = 2\n\nabbrev pub three : ℕ\nthree = 3\n\n\
        pub data Kind : Type 0 where\n  none : Kind\n";
    let names: Vec<(String, (usize, usize))> =
        definition::of_file(text, "specs/Two.antt", "c").into_iter().map(|d| (d.name, d.lines)).collect();
    let all = [("Is", (1, 4)), ("two", (4, 7)), ("three", (7, 10)), ("Kind", (10, 12))];
    assert_eq!(names, all.map(|(name, lines)| (name.to_string(), lines)));
    let lemmas = lemma::of_text(
        "c",
        "module _ {a : ℕ} where\n  pub is_once : {b : Told}\n    → Is a b.one → Is a b.one → b ≡ b\n  is_once x y = once\n",
    );
    assert_eq!(lemmas.len(), 1);
    assert_eq!(lemmas[0].words.iter().filter(|w| *w == "Is").count(), 2);
    assert_eq!(lemmas[0].words.iter().filter(|w| *w == ".one").count(), 2);
    let edit = edit::parsed("no_work", true, "# Sham.\nfile: src/a.rt\nold: x\nnew: y\n");
    assert_eq!((edit.says.as_deref(), edit.old), (Some("Sham."), vec![("src/a.rt".into(), "x".into())]));
}
