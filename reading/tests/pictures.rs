//! Pictures of plays: those of docs/ are the ones that are drawn from plays/ now, and what happens in a play is what is drawn.

use reading::no;
use reading::picture::scene::{scene, Arrow, End, Lane, Point, Scene, What};
use reading::picture::{picture, title_of};
use reading::play::Play;
use reading::yard::{Step, Yard};
use std::fs;
use std::path::{Path, PathBuf};

fn root() -> PathBuf {
    Path::new(env!("CARGO_MANIFEST_DIR")).join("..")
}

/// The files of a folder with this ending, by name.
fn names(folder: &str, ending: &str) -> Vec<String> {
    let paths = fs::read_dir(root().join(folder)).expect("the folder is there").map(|entry| entry.unwrap().path());
    let with = paths.filter(|path| path.extension().is_some_and(|found| found == ending));
    let mut all: Vec<String> = with.map(|path| path.file_stem().unwrap().to_str().unwrap().to_string()).collect();
    all.sort();
    all
}

fn drawn(name: &str) -> String {
    let path = root().join("plays").join(name);
    let words = fs::read_to_string(path.with_extension("txt")).unwrap();
    picture(&fs::read(path.with_extension("play")).unwrap(), &title_of(&words).unwrap()).unwrap()
}

fn seen(name: &str) -> (Play, Scene) {
    let play = Play::read(&fs::read(root().join("plays").join(name).with_extension("play")).unwrap()).unwrap();
    let seen = scene(&play);
    (play, seen)
}

#[test]
fn the_pictures_of_docs_are_those_of_the_plays() {
    let pictures = names("docs/pictures", "svg");
    assert!(pictures.len() >= 3, "{pictures:?}");
    let rules = fs::read_to_string(root().join("docs/RULES.md")).unwrap();
    for name in pictures {
        let kept = fs::read_to_string(root().join("docs/pictures").join(&name).with_extension("svg")).unwrap();
        assert!(kept == drawn(&name), "docs/pictures/{name}.svg is stale: run tools/picture --all");
        assert!(rules.contains(&format!("(pictures/{name}.svg)")), "docs/RULES.md does not show {name}");
    }
}

/// Deliveries that bring a letter, or find its unit stopped; drops; letters left: each is an arrow, and nothing else is.
#[test]
fn each_letter_of_each_play_is_an_arrow() {
    for name in names("plays", "play") {
        let (play, seen) = seen(&name);
        let mut yard = Yard::fresh(play.layout.clone()).unwrap();
        let mut wanted = [0; 4];
        for step in &play.steps {
            let letter = matches!(step, Step::Deliver { place, .. } if *place < yard.bag.len());
            match (step, yard.step(step).0) {
                (Step::Deliver { .. }, no::FINE) => wanted[0] += 1,
                (Step::Deliver { .. }, no::NOBODY) if letter => wanted[1] += 1,
                (Step::Drop(_), no::FINE) => wanted[2] += 1,
                _ => {}
            }
        }
        wanted[3] = yard.bag.len();
        let count = |end: End| seen.arrows.iter().filter(|arrow| arrow.end == end).count();
        assert_eq!([End::Arrives, End::Nobody, End::Dropped, End::UnderWay].map(count), wanted, "{name}");
        assert_eq!(seen.answers.len(), play.steps.len(), "{name}");
        assert!(picture(&play.write().unwrap(), &name).unwrap().ends_with("</svg>\n"), "{name}");
    }
}

fn from(seen: &Scene, lane: Lane, row: usize) -> Vec<&Arrow> {
    seen.arrows.iter().filter(|arrow| arrow.from == Point { lane, row }).collect()
}

fn marked(seen: &Scene, lane: Lane, row: usize) -> Vec<What> {
    seen.marks.iter().filter(|mark| mark.at == Point { lane, row }).map(|mark| mark.what.clone()).collect()
}

#[test]
fn a_doubled_letter_has_two_arrows_and_a_lost_answer_a_cross() {
    let (_, seen) = seen("append-and-fill");
    let doubled: Vec<usize> = from(&seen, Lane::Client(1), 7).iter().map(|arrow| arrow.to.row).collect();
    assert_eq!(doubled, [16, 17]);
    assert_eq!(marked(&seen, Lane::Unit(2), 17), [What::Loses]);
    assert_eq!(marked(&seen, Lane::Unit(2), 15), [What::Stores { junk: false, position: 0 }]);
    let flag = What::Flag { well: true, says: "data 0a0b0c".into() };
    assert_eq!(marked(&seen, Lane::Client(3), 28), [flag]);
}

#[test]
fn a_stopped_unit_a_seal_and_a_layout_are_marked() {
    let (_, seen) = seen("box-dies");
    assert_eq!(marked(&seen, Lane::Unit(2), 10), [What::Stops]);
    assert_eq!(marked(&seen, Lane::Unit(1), 20), [What::Seals(1)]);
    assert_eq!(marked(&seen, Lane::Holder, 22), [What::Layout("epoch 2: {1} from 0".into())]);
    let crossed: Vec<(End, usize)> =
        from(&seen, Lane::Client(2), 13).iter().map(|arrow| (arrow.end, arrow.to.row)).collect();
    assert_eq!(crossed, [(End::Nobody, 14), (End::Dropped, 15)]);
    assert_eq!(seen.answers[13], no::NOBODY);
}

#[test]
fn no_play_has_no_picture() {
    assert_eq!(picture(b"no play", "none"), None);
}
