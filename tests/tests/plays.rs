//! The play book by the proved library and by the reading of the yard: the plays of plays/, drawn ones, and every part of their lines.

use reading::draw_play::draw_play;
use reading::stored;
use station_tests::plays::{agree, plays, shown};

/// Room for the lines of every play.
const ROOM: usize = 1 << 20;

#[test]
fn the_plays_show_their_lines() {
    let plays = plays();
    assert!(plays.len() >= 30, "only {} plays", plays.len());
    for (name, file, lines) in plays {
        let after = agree(&name, &file, 1, ROOM);
        assert_eq!(after.out[..after.written as usize], lines[..], "{name}");
    }
}

#[test]
fn from_every_step_on_and_in_every_buffer() {
    for (name, file, lines) in plays().into_iter().filter(|play| play.2.len() < 400) {
        for from in 0..70 {
            for length in [0, 3, 4, 5, 30, 100, lines.len()] {
                agree(&name, &file, from, length);
            }
        }
        for length in 0..=lines.len() + 1 {
            agree(&name, &file, 1, length);
        }
        for from in [1_000, u32::MAX - 1, u32::MAX] {
            assert_eq!(agree(&name, &file, from, ROOM).lines, 0);
        }
    }
}

#[test]
fn drawn_plays() {
    let mut compared = 0;
    for (seed, steps) in stored::runs() {
        let file = draw_play(seed, steps).write().expect("it fits");
        let after = agree(&format!("seed {seed}"), &file, 1, ROOM);
        compared += if after.answer == 0 { after.lines } else { 0 };
    }
    println!("steps compared: {compared} by play_lines");
    assert!(compared >= 248_000, "only {compared} steps");
}

/// A part of a long play is the same as that part of the whole.
#[test]
fn parts_of_a_long_play() {
    let file = draw_play(401, 6_000).write().expect("it fits");
    let whole = shown(&file, 1, ROOM);
    let text = String::from_utf8(whole.out[..whole.written as usize].to_vec()).expect("plain letters");
    let lines: Vec<&str> = text.split_inclusive('\n').collect();
    assert_eq!(lines.len(), 6_000);
    for from in [1, 2, 99, 1_000, 5_999, 6_000] {
        let part = shown(&file, from as u32, 500);
        let wanted: String = lines[from - 1..][..part.lines as usize].concat();
        assert_eq!(part.out[..part.written as usize], *wanted.as_bytes(), "from {from}");
        let more = lines.get(from - 1 + part.lines as usize);
        assert!(more.is_none_or(|line| wanted.len() + line.len() > 500), "from {from}: one line more would fit");
    }
}
