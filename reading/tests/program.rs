//! The programs `book` and `odd` and the reading show the same lines. `tools/native-program NAME` makes a program for the machine at hand.

use reading::book::{self, lines, numbers};
use reading::compare::{compare, said, Difference};
use reading::damage::{changed, cut, lengthened, nearly_play, play_of, RandomBytes};
use reading::draw_play::{draw_old_play, draw_play};
use reading::lehmer::Lehmer;
use reading::odd::{self, Odd};
use reading::play::{self, Play};
use reading::run::age;
use reading::shortcut::Shortcut;
use reading::stored;
use reading::yard::Yard;
use std::collections::BTreeSet;
use std::path::PathBuf;

fn program(name: &str) -> PathBuf {
    let program = stored::path("target/native").join(name);
    assert!(program.is_file(), "there is no {}: tools/native-program {name} makes it", program.display());
    program
}

/// Panics where the program shows other lines of the input than these.
fn agree(name: &str, what: &str, input: &[u8], read: &[String]) {
    let printed = said(&program(name), input).expect("the program runs");
    compare(read, &printed).unwrap_or_else(|found| panic!("{name}, {what}: {found}"));
}

fn agree_on_book(what: &str, file: &[u8]) {
    agree("book", what, file, &book::text(file));
}

fn agree_on_odd(what: &str, odd: Odd, file: &[u8]) -> Vec<String> {
    let input = [&[odd.byte()][..], file].concat();
    let read = odd::text(&input);
    agree("odd", &format!("{odd:?}, {what}"), &input, &read);
    read
}

#[test]
fn runs_from_fresh_yards() {
    let mut compared = 0;
    for (seed, steps) in stored::runs() {
        let play = draw_play(seed, steps);
        agree_on_book(&format!("seed {seed}"), &play.write().expect("it fits"));
        compared += play.steps.len();
    }
    println!("steps compared: {compared} from fresh yards");
    assert!(compared >= 248_000, "only {compared} steps");
}

fn numbers_of(lines: &[String]) -> BTreeSet<u8> {
    lines.iter().flat_map(|line| numbers(line)).collect()
}

#[test]
fn runs_of_old_yards() {
    let mut compared = 0;
    let mut met = BTreeSet::new();
    for (seed, steps) in stored::runs() {
        let Some(odd) = age(seed) else { continue };
        let play = draw_old_play(seed, steps);
        met.extend(numbers_of(&agree_on_odd(&format!("seed {seed}"), odd, &play.write().expect("it fits"))));
        compared += play.steps.len();
    }
    println!("steps compared: {compared} of old yards");
    assert!(compared >= 28_000, "only {compared} steps");
    assert!(met.contains(&15) && met.contains(&19), "only {met:?}");
}

#[test]
fn the_plays_in_their_fresh_yards_and_in_odd_ones() {
    let mut met = BTreeSet::new();
    for name in stored::plays("play") {
        let file = stored::play(&name, "play");
        agree_on_book(&name, &file);
        met.extend(Odd::ALL.into_iter().flat_map(|odd| numbers_of(&agree_on_odd(&name, odd, &file))));
    }
    assert!(met.contains(&1) && met.contains(&12), "only {met:?}");
}

#[test]
fn files_that_are_hardly_plays() {
    let file = draw_play(7, 12).write().expect("it fits");
    let changed = (0..file.len()).flat_map(|at| changed(&file, at).take(2));
    for damaged in cut(&file).chain(lengthened(&file)).chain(changed) {
        agree_on_book("seed 7, damaged", &damaged);
    }
    for length in [play::BYTES - 1, play::BYTES, play::BYTES + 1, play::BYTES + 2, 70_000] {
        agree_on_book("a long file", &play_of(length));
    }
    for more in [1, 2, 100, play::BYTES] {
        agree_on_book("the longest play, and more", &[play_of(play::BYTES), vec![12; more]].concat());
    }
    let mut chance = Lehmer::seeded(3);
    for _ in 0..300 {
        agree_on_book("a random file", &nearly_play(&mut chance));
    }
    for file in (RandomBytes { chance: Lehmer::seeded(4), left: 1_000_000 }) {
        agree_on_book("random bytes", &file);
    }
    assert_eq!(said(&program("odd"), &[]).expect("it runs"), "22\n");
    for byte in [0, 9, 255] {
        assert_eq!(said(&program("odd"), &[&[byte][..], &file].concat()).expect("it runs"), "22\n");
    }
}

#[test]
fn one_sign_or_line_is_a_difference() {
    let file = draw_play(7, 28).write().expect("it fits");
    let read = book::text(&file);
    let text = read.concat();
    assert_eq!(compare(&read, &text), Ok(()));
    for (at, line) in read.iter().enumerate() {
        let mut other = read.clone();
        other[at] = line.replacen(' ', "  ", 1);
        let found = Difference { read: line.clone(), printed: other[at].clone() };
        assert_eq!(compare(&read, &other.concat()), Err(found));
        other.remove(at);
        assert!(compare(&read, &other.concat()).is_err(), "line {at} is missing");
    }
    assert!(compare(&read, &text[..text.len() - 1]).is_err());
    assert!(compare(&read, &format!("{text}more")).is_err());
}

/// The lines of a play by a yard that takes the shortcut.
fn ruined(play: &Play, shortcut: Shortcut) -> Vec<String> {
    let mut yard = Yard::fresh(play.layout.clone()).expect("it has steps");
    yard.shortcut = Some(shortcut);
    lines(&play.steps, |step| yard.step(step))
}

/// All but the one that is a reader's belief and changes no answer.
#[test]
fn each_shortcut_shows_in_the_lines() {
    for shortcut in Shortcut::ALL.into_iter().filter(|shortcut| *shortcut != Shortcut::BelieveOldTail) {
        let plays = stored::runs()
            .into_iter()
            .map(|(seed, steps)| draw_play(seed, steps))
            .filter(|play| !play.steps.is_empty());
        let shown = plays.map(|play| (book::text(&play.write().expect("it fits")), ruined(&play, shortcut)));
        let differ = shown.filter(|(right, wrong)| right != wrong).count();
        println!("{shortcut:?} shows in {differ} of the plays");
        assert!(differ > 0, "{shortcut:?} shows nowhere");
    }
}
