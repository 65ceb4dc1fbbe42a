//! Which byte strings are layouts: example 10 with each byte changed, left out or put in, and a million strings near good ones.

use reading::layout_call::Call;
use station_tests::layouts::compare::agree;
use station_tests::layouts::draw;
use station_tests::random::Random;

const EXAMPLE: [u8; 38] =
    [1, 0, 0, 0, 0, 3, 1, 2, 3, 3, 2, 1, 2, 2, 2, 3, 2, 1, 3, 2, 0, 0, 0, 0, 0, 0, 0, 0, 2, 10, 0, 0, 0, 0, 0, 0, 0, 1];

const POSITIONS: [u64; 7] = [0, 9, 10, 11, (1 << 40) - 1, 1 << 40, u64::MAX];

/// Whether it is a layout, and where positions belong in it.
fn all_calls(context: &str, bytes: &[u8]) -> u8 {
    for position in POSITIONS {
        agree(context, &Call::Set { bytes: bytes.to_vec(), position }, &[]);
    }
    agree(context, &Call::Good { bytes: bytes.to_vec() }, &[]).answer
}

#[test]
fn example_10_and_every_byte_of_it_changed() {
    assert_eq!(all_calls("example 10", &EXAMPLE), 0);
    let mut still_good = 0;
    for at in 0..EXAMPLE.len() {
        for more in 1..=255 {
            let mut bytes = EXAMPLE;
            bytes[at] = bytes[at].wrapping_add(more);
            still_good += usize::from(all_calls(&format!("example 10, byte {at} plus {more}"), &bytes) == 0);
        }
    }
    let epochs = 254 + 3 * 255;
    let shapes = 1; // large units
    let starts = 254 + 4 * 255;
    let sets = 4; // {1,3} for the first, {1,3} for the second, {2,3} and {1,2} for the third: the same units stay in use
    assert_eq!(still_good, epochs + shapes + starts + sets, "of {} changed bytes", EXAMPLE.len() * 255);
}

#[test]
fn example_10_cut_and_lengthened() {
    for len in 0..EXAMPLE.len() {
        assert_eq!(all_calls(&format!("example 10, the first {len}"), &EXAMPLE[..len]), 10);
        assert_eq!(all_calls(&format!("example 10, from {}", len + 1), &EXAMPLE[len + 1..]), 10);
    }
    for at in 0..=EXAMPLE.len() {
        for byte in 0..=255 {
            let mut bytes = EXAMPLE.to_vec();
            bytes.insert(at, byte);
            all_calls(&format!("example 10, {byte} put in at {at}"), &bytes);
        }
    }
    for len in [1, 8, 9, 130, 1000, 70_000] {
        let bytes = [&EXAMPLE[..], &vec![0; len]].concat();
        assert_eq!(all_calls(&format!("example 10 and {len} zeros"), &bytes), 10);
    }
}

#[test]
fn a_million_strings_near_good_layouts() {
    let mut good = 0;
    for seed in 0..1_000_000 {
        let mut random = Random::new(seed);
        let bytes = draw::near(&mut random);
        let position = random.one_of(&[random_position(seed), 0, 10, (1 << 40) - 1, 1 << 40]);
        agree(&format!("seed {seed}"), &Call::Set { bytes: bytes.clone(), position }, &[]);
        good += usize::from(agree(&format!("seed {seed}"), &Call::Good { bytes }, &[]).answer == 0);
    }
    println!("{good} of a million are good");
    assert!((200_000..800_000).contains(&good), "the strings are not near good layouts: {good} are good");
}

fn random_position(seed: u64) -> u64 {
    Random::new(!seed).below(1 << 40)
}
