//! The plan of a reorganise: good and bad drops, sets and edges, and buffers too short.

use reading::layout_bytes::{encode_sets, BYTES};
use reading::layout_call::Call;
use station_tests::layouts::compare::agree;
use station_tests::layouts::{desk, draw};
use station_tests::random::Random;

#[test]
fn random_plans() {
    let mut answers = [0; 256];
    for seed in 0..200_000 {
        let (call, room) = draw::plan(&mut Random::new(seed));
        answers[usize::from(agree(&format!("seed {seed}"), &call, &vec![seed as u8; room]).answer)] += 1;
    }
    let seen = [0, 9, 10, 13, 14, 15].map(|answer: usize| answers[answer]);
    println!("fine, 9, 10, 13, 14, 15: {seen:?}");
    assert!(seen.iter().all(|count| *count > 3_000) && seen.iter().sum::<u32>() == 200_000, "too few of one: {seen:?}");
}

/// What the holder would answer to a plan that was made is fine: it is a lawful successor.
#[test]
fn plans_are_taken_by_the_holder() {
    let mut taken = 0;
    for seed in 0..200_000 {
        let (call, _) = draw::plan(&mut Random::new(seed));
        let after = agree(&format!("seed {seed}"), &call, &[0; BYTES]);
        let Call::Plan { held, .. } = &call else { unreachable!("a plan was drawn") };
        if after.answer == 0 {
            assert_eq!(desk::offer(held, &after.buffer[..after.number as usize]), 0, "seed {seed}: {call:?}");
            taken += 1;
        }
    }
    assert!(taken > 10_000, "only {taken} plans were fine");
}

const HELD: [u8; 21] = [1, 0, 0, 0, 0, 2, 1, 2, 1, 2, 1, 2, 1, 0, 0, 0, 0, 0, 0, 0, 0];

fn answer(drops: &[u8], sets: &[u8], edge: u64, room: usize) -> u8 {
    let held = [&HELD[..], &[1]].concat();
    let call = Call::Plan { held, drops: drops.to_vec(), sets: sets.to_vec(), edge };
    agree("by hand", &call, &vec![0x33; room]).answer
}

/// The order of the refusals, and what is named far behind the sixteenth set.
#[test]
fn corners_by_hand() {
    let many = |last: u8| encode_sets(&[vec![vec![3]; 254], vec![vec![last]]].concat());
    assert_eq!(answer(&[2], &[], u64::MAX, BYTES), 0, "no new range: the edge changes nothing");
    assert_eq!(answer(&[], &[0], u64::MAX, BYTES), 0, "a count of none is no new range");
    assert_eq!(answer(&[], &[1, 1, 3], 1 << 40, BYTES), 9, "a new range would start at 2^40");
    assert_eq!(answer(&[], &[1, 1, 3], u64::MAX, BYTES), 9);
    assert_eq!(answer(&[], &[1, 1, 3], (1 << 40) - 1, BYTES), 0);
    assert_eq!(answer(&[], &[1, 1, 3], 0, 33), 10, "34 bytes and no room for them");
    assert_eq!(answer(&[], &[1, 1, 3], 0, 34), 0);
    assert_eq!(answer(&[], &many(4), 0, BYTES), 14);
    assert_eq!(answer(&[4], &many(4), 0, BYTES), 10, "a drop that the last of 255 sets names");
    assert_eq!(answer(&[1, 2], &many(4), 0, BYTES), 13, "a lost set goes before a full layout");
    assert_eq!(answer(&[1, 2, 4], &many(4), 0, BYTES), 10, "a bad drop goes before a lost set");
    assert_eq!(answer(&[1, 2], &many(9), 0, BYTES), 10, "so does a bad set");
    assert_eq!(answer(&[], &[1], 0, BYTES), 10, "a count and no set");
    assert_eq!(answer(&[], &[1, 1, 3, 0], 0, BYTES), 10, "a byte left over");
    assert_eq!(answer(&[7], &[], 0, BYTES), 0, "a unit that is not in the layout changes nothing");
}
