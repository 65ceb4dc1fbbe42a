//! Reads seeds and numbers of steps from standard input; prints what occurs in the runs: in those from a fresh yard, and with
//! the word `old` in those whose yard is drawn old.

use reading::census::Census;
use reading::odd::Odd;
use reading::run::{age, seeds, Run};
use std::env;
use std::io::{self, Read};

fn count(census: &mut Census, seed: u32, steps: u32, odd: Option<Odd>) {
    let (_, run) = if odd.is_some() { Run::start(seed, None) } else { Run::fresh(seed) };
    let Ok(mut run) = run else {
        return census.refused_run();
    };
    let first = run.yard.held.epoch;
    for _ in 0..steps {
        let taken = run.step();
        census.step(&taken, &run.yard);
    }
    census.end(first, &run.yard);
}

fn main() -> io::Result<()> {
    let mut input = String::new();
    io::stdin().lock().read_to_string(&mut input)?;
    let old = env::args().any(|word| word == "old");
    let mut census = Census::default();
    for (seed, steps) in seeds(&input).ok_or_else(|| io::Error::other("a line is no seed and number of steps"))? {
        match (old, age(seed)) {
            (true, None) => {}
            (true, odd) => count(&mut census, seed, steps, odd),
            (false, _) => count(&mut census, seed, steps, None),
        }
    }
    print!("{census}");
    Ok(())
}
