//! Random runs, watched: the laws hold after every step, and a reader is never misled.

use reading::audit::Audit;
use reading::client::Job;
use reading::demand::History;
use reading::invariant::{good_memories, Watch};
use reading::last_sentence;
use reading::lehmer::Lehmer;
use reading::no;
use reading::plan::Change;
use reading::postage::Postage;
use reading::run::Run;
use reading::shortcut::Shortcut;
use reading::yard::Ended;

/// The runs that this seed's generator can make a yard for.
fn run(seed: u32, shortcut: Option<Shortcut>) -> Option<Run> {
    Run::start(seed, shortcut).1.ok()
}

#[test]
fn the_laws_hold_for_50_000_steps() {
    for seed in 1001..=1050 {
        let Some(mut run) = run(seed, None) else { continue };
        let mut watch = Watch::new(&run.yard);
        let mut audit = Audit::new(&run.yard);
        let mut history = History::default();
        for number in 1..=1_000 {
            let taken = run.step();
            watch.check(&run.yard).unwrap_or_else(|what| panic!("seed {seed}, step {number}: {what}"));
            let noted = history.note(run.yard.clock, &taken.step, taken.answer, taken.ended.as_ref());
            noted.and_then(|()| audit.look(&run.yard, &mut history)).unwrap_or_else(|what| panic!("seed {seed}, step {number}: {what}"));
            if number % 10 == 0 {
                good_memories(&run.yard).unwrap_or_else(|what| panic!("seed {seed}, step {number}: {what}"));
            }
        }
    }
}

#[test]
fn no_reader_is_misled_in_300_000_steps() {
    for seed in 1..=300 {
        let Some(mut run) = run(seed, None) else { continue };
        let mut history = History::default();
        for number in 1..=1_000 {
            let taken = run.step();
            let noted = history.note(run.yard.clock, &taken.step, taken.answer, taken.ended.as_ref());
            noted.unwrap_or_else(|what| panic!("seed {seed}, step {number}: {what}"));
        }
    }
}

#[test]
fn each_outcome_says_how_many_requests_went_into_the_bag() {
    let (mut appends, mut most, mut eight_heads) = (0, 0, 0);
    for seed in 1..=300 {
        let Some(mut run) = run(seed, None) else { continue };
        let mut postage = Postage::default();
        for number in 1..=1_000 {
            let taken = run.step();
            let noted = postage.note(&run.yard, &taken.step, taken.answer, taken.ended.as_ref());
            noted.unwrap_or_else(|what| panic!("seed {seed}, step {number}: {what}"));
            if let Some(Ended { job: Job::Append(_), outcome, .. }) = taken.ended {
                appends += 1;
                most = most.max(outcome.sent);
                eight_heads += usize::from(outcome.number == no::WRITTEN);
            }
        }
    }
    println!("{appends} appends ended, {eight_heads} of them with 6; one sent {most} requests");
    assert!(appends > 1_000 && eight_heads > 0, "too few: {appends} appends, {eight_heads} of them with 6");
}

#[test]
fn the_last_sentence_holds_where_its_conditions_are_met() {
    let mut met = 0;
    for seed in 2001..=2060 {
        let Some(mut run) = run(seed, None) else { continue };
        let mut history = History::default();
        let mut chance = Lehmer::seeded(seed + 7);
        for number in 1..=1_000 {
            let taken = run.step();
            history.note(run.yard.clock, &taken.step, taken.answer, taken.ended.as_ref()).expect("no reader is misled");
            let raw = chance.raw();
            let mut drops: Vec<u8> = run.yard.stopped.iter().copied().collect();
            drops.extend((0..raw.of(0, 3) as usize).map(|i| 1 + raw.of(1 + i, 8) as u8));
            let client = 1 + raw.of(9, 4) as u8;
            let held = last_sentence::holds(&run.yard, &history, client, &Change { drops, sets: vec![] });
            met += usize::from(held.unwrap_or_else(|what| panic!("seed {seed}, step {number}: {what}")));
        }
    }
    assert!(met > 5_000, "its conditions were met only {met} times");
}

/// At which step of all taken a reader is misled first, in runs of 1,000 steps.
fn misled(shortcut: Shortcut, runs: u32) -> Option<u64> {
    let mut steps = 0;
    for seed in 1..=runs {
        let Some(mut run) = run(seed, Some(shortcut)) else { continue };
        let mut history = History::default();
        let mut audit = Audit::new(&run.yard);
        for _ in 1..=1_000 {
            steps += 1;
            let taken = run.step();
            let noted = history.note(run.yard.clock, &taken.step, taken.answer, taken.ended.as_ref());
            if noted.and_then(|()| audit.look(&run.yard, &mut history)).is_err() {
                return Some(steps);
            }
        }
    }
    None
}

#[test]
fn each_shortcut_is_caught_within_40_000_steps() {
    for shortcut in Shortcut::ALL {
        let steps = misled(shortcut, 40);
        println!("{shortcut:?} misleads a reader at step {steps:?}");
        assert!(steps.is_some(), "{shortcut:?} was not caught");
    }
}
