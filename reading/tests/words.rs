//! The words of a play: each step in words and back, and the lines that are refused.

use reading::draw_play::draw_play;
use reading::{tell, words};

const LAYOUT: &str = "layout 1 1,2 2,3 1,3 ranges 0,2 10,1\n";

/// Every step, as it is told.
const STEPS: [&str; 17] = [
    "begin 1 append 3 0a0b0c",
    "begin 0 append 0 -",
    "begin 2 read 0",
    "begin 3 fill 1099511627776",
    "begin 4 trim 18446744073709551615",
    "begin 255 prune 12",
    "begin 1 reorganise 3,4 5,6 7",
    "begin 1 reorganise - -",
    "begin 1 reorganise 0,9,200",
    "deliver 0 drop answer",
    "deliver 255 keep lose",
    "drop 31",
    "stop 3",
    "stop 200",
    "restart 1",
    "giveup 1",
    "forget",
];

fn refused(text: &str) -> (usize, String) {
    let refused = words::read(text).expect_err(text);
    (refused.line, refused.why)
}

#[test]
fn each_step_is_told_as_it_was_said() {
    for step in STEPS {
        let text = format!("{LAYOUT}{step}\n");
        let play = words::read(&text).unwrap_or_else(|refused| panic!("{step}: {refused}"));
        assert_eq!((play.steps.len(), tell::play(&play)), (1, text));
    }
}

#[test]
fn drawn_plays_are_told_and_read_back() {
    for seed in 1..=100 {
        let play = draw_play(seed, 300);
        if !play.steps.is_empty() {
            assert_eq!(words::read(&tell::play(&play)), Ok(play), "seed {seed}");
        }
    }
}

#[test]
fn comments_empty_lines_and_numbers_in_front() {
    let text = "\n# a play\n  layout 1 1 ranges 0,1  # unit 1\n\n3 drop 0 # three times\n\t\n  0 forget\nforget";
    let play = words::read(text).expect("it is one");
    assert_eq!(tell::play(&play), "layout 1 1 ranges 0,1\ndrop 0\ndrop 0\ndrop 0\nforget\n");
}

#[test]
fn a_line_that_is_no_step_is_named_by_its_number() {
    let wrong = [
        "beginn 1 read 0",
        "begin 1",
        "begin 1 eat 4",
        "begin 256 read 0",
        "begin +1 read 0",
        "begin 1 read -1",
        "begin 1 read 18446744073709551616",
        "begin 1 read 0 0",
        "begin 1 append 3 0a0b",
        "begin 1 append 1 0g",
        "begin 1 append 1 0",
        "begin 1 append 256 00",
        "begin 1 append 1",
        "begin 1 reorganise",
        "begin 1 reorganise 1,,2",
        "begin 1 reorganise 1,2,3,4,5,6,7,8,1",
        "begin 1 reorganise - 1,2,3,4,5",
        "begin 1 reorganise - 1 1 1 1 1 1 1 1 1 1 1 1 1 1 1 1 1",
        "deliver 0",
        "deliver 0 answer drop",
        "deliver 0 drop",
        "deliver 256 drop answer",
        "drop",
        "stop unit",
        "forget 1",
        "3",
        "70000 forget",
        "Forget",
    ];
    for line in wrong {
        assert_eq!(refused(&format!("# two lines first\n{LAYOUT}{line}\nforget\n")).0, 3, "{line}");
    }
    assert_eq!(refused("layout 1 1 ranges 0,1\n\nstop x\n"), (3, "unit: x is no such number".into()));
}

#[test]
fn a_layout_that_is_none_is_refused() {
    let wrong = [
        "forget",
        "layout",
        "layout 1",
        "layout 1 1",
        "layout 1 1 ranges",
        "layout 1 1 ranges 0",
        "layout x 1 ranges 0,1",
    ];
    let bad = [
        "layout 2 1 ranges 0,1",
        "layout 1 2,1 ranges 0,1",
        "layout 1 9 ranges 0,1",
        "layout 1 1 ranges 0,2",
        "layout 1 - ranges 0,1",
    ];
    for line in wrong.into_iter().chain(bad) {
        assert_eq!(refused(&format!("\n{line}\nforget\n")).0, 2, "{line}");
    }
    assert_eq!(refused("").0, 1);
    assert_eq!(refused("# nothing\n").0, 1);
}
