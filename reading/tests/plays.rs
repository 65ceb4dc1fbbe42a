//! The plays of plays/: what their words tell, their bytes, and their lines.

use reading::book::{numbers, text};
use reading::odd::{self, Odd};
use reading::play::Play;
use reading::stored::{self, play as read, plays as names};
use reading::{tell, words};
use std::collections::BTreeSet;

fn words_of(name: &str) -> String {
    stored::text(&format!("plays/{name}.txt"))
}

#[test]
fn each_play_is_there_in_words_bytes_and_lines() {
    let plays = names("txt");
    assert!(plays.len() >= 30, "only {} plays", plays.len());
    assert_eq!((names("play"), names("lines")), (plays.clone(), plays));
}

#[test]
fn the_bytes_are_those_of_the_words() {
    for name in names("txt") {
        let play = words::read(&words_of(&name)).unwrap_or_else(|refused| panic!("{name}: {refused}"));
        assert_eq!(play.write(), Some(read(&name, "play")), "{name}");
    }
}

#[test]
fn the_lines_are_those_of_the_bytes() {
    for name in names("txt") {
        assert_eq!(text(&read(&name, "play")).concat().into_bytes(), read(&name, "lines"), "{name}");
    }
}

#[test]
fn words_and_bytes_round_and_round() {
    for name in names("txt") {
        let play = Play::read(&read(&name, "play")).unwrap_or_else(|| panic!("{name} is no play"));
        let told = tell::play(&play);
        assert_eq!(words::read(&told).as_ref(), Ok(&play), "{name}");
        assert_eq!(play.write(), Some(read(&name, "play")), "{name}");
        assert_eq!(tell::play(&words::read(&told).expect("it is told")), told, "{name}");
    }
}

/// What must come of a step, by its own line of words: the comment, where that begins with a digit; else 0, and nothing ends.
fn wanted(line: &str) -> &str {
    let comment = line.split_once('#').map_or("", |(_, comment)| comment.trim());
    if comment.starts_with(|sign: char| sign.is_ascii_digit()) {
        comment
    } else {
        "0"
    }
}

/// The lines that a play's comments ask for. Of a step that is taken several times, the comment speaks of the last.
fn asked(words: &str) -> String {
    let said = |line: &&str| !line.split('#').next().unwrap().trim().is_empty();
    let mut lines: Vec<&str> = Vec::new();
    for line in words.lines().filter(said).skip(1) {
        let times: usize = line.split_whitespace().next().and_then(|word| word.parse().ok()).unwrap_or(1);
        lines.extend(std::iter::repeat_n("0", times - 1));
        lines.push(wanted(line));
    }
    lines.iter().enumerate().map(|(i, line)| format!("{} {line}\n", i + 1)).collect()
}

#[test]
fn the_lines_are_what_the_comments_say() {
    for name in names("txt") {
        assert_eq!(asked(&words_of(&name)), String::from_utf8_lossy(&read(&name, "lines")), "{name}");
    }
}

/// 1, 12, 15 and 19 no run from a fresh yard meets, and 21 is no number.
#[test]
fn the_plays_meet_every_number_that_a_run_can_meet() {
    let lines: Vec<String> = names("txt").iter().flat_map(|name| text(&read(name, "play"))).collect();
    let met: BTreeSet<u8> = lines.iter().flat_map(|line| numbers(line)).collect();
    assert_eq!(met, [0, 2, 3, 4, 5, 6, 7, 8, 9, 10, 11, 13, 14, 16, 17, 18, 20].into());
}

/// A play that is named after a number meets it.
#[test]
fn each_refusal_is_met_by_its_own_play() {
    let named: Vec<(String, u8)> = names("txt")
        .into_iter()
        .filter_map(|name| name.strip_prefix("refusal-")?[..2].parse().ok().map(|number| (name.clone(), number)))
        .collect();
    assert_eq!(named.len(), 16);
    for (name, number) in named {
        let met = text(&read(&name, "play")).iter().any(|line| numbers(line).any(|met| met == number));
        assert!(met, "{name} meets no {number}");
    }
}

/// The programs are run on two of the plays by every check.
#[test]
fn the_stored_inputs_are_plays() {
    let stored = |name: &str| stored::bytes(&format!("crates/{name}"));
    assert_eq!(stored("book/stdin"), read("failure-3-dead-station", "play"));
    assert_eq!(stored("book/stdout"), read("failure-3-dead-station", "lines"));
    let input = stored("odd/stdin");
    assert_eq!(input, [&[Odd::Offer.byte()][..], &read("refusal-10-layout", "play")].concat());
    assert_eq!(stored("odd/stdout"), odd::text(&input).concat().into_bytes());
}
