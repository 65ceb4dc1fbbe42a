//! Random calls in long sequences: answers, outputs and every byte of memory, after each call.

use reading::unit_call;
use station_tests::run::{sequence, Tally};
use station_tests::weather::WEATHERS;

const SEEDS: u64 = 8;
const STEPS: usize = 5_000;

/// Each answer that each call can give to good memory of the right length.
const POSSIBLE: [(&str, &[u8]); 7] = [
    ("fresh", &[0, 10, 17]),
    ("write", &[0, 2, 3, 4, 5, 6, 8]),
    ("read", &[0, 2, 4, 5, 7]),
    ("trim", &[0, 2, 4, 8]),
    ("prune", &[0, 2, 4]),
    ("seal", &[0, 4]),
    ("edges", &[0]),
];

#[test]
fn random_calls_agree() {
    let mut tally = Tally::new();
    for (number, weather) in WEATHERS.iter().enumerate() {
        for seed in 0..SEEDS {
            let seed = 1000 * (number as u64 + 1) + seed;
            if let Err(said) = sequence(unit_call::after, weather, seed, STEPS, &mut tally) {
                panic!("library and reading differ: {said}");
            }
        }
    }
    let calls: u64 = tally.values().sum();
    println!("{calls} calls agree; how often each call gave each answer: {tally:?}");
    assert!(calls >= 100_000);
    for (name, answers) in POSSIBLE {
        for answer in answers {
            let times = tally.remove(&(name, *answer)).unwrap_or(0);
            assert!(times >= 20, "{name} gave {answer} only {times} times: the calls are too tame");
        }
    }
    assert!(tally.is_empty(), "answers that no unit gives there: {tally:?}");
}
