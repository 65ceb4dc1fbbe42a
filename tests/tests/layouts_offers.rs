//! What the holder would answer: successors that are lawful, and nearly so.

use station_tests::layouts::compare::agree;
use station_tests::layouts::draw;
use station_tests::random::Random;

#[test]
fn successors_near_lawful_ones() {
    let mut answers = [0; 256];
    for seed in 0..300_000 {
        let call = draw::offer(&mut Random::new(seed));
        answers[usize::from(agree(&format!("seed {seed}"), &call, &[]).answer)] += 1;
    }
    let seen = [0, 10, 11, 12].map(|answer: usize| answers[answer]);
    println!("fine, 10, 11, 12: {seen:?}");
    assert!(seen.iter().all(|count| *count > 5_000) && seen.iter().sum::<u32>() == 300_000, "too few of one: {seen:?}");
}
