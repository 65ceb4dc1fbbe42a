//! A play told in words, a line for the layout and one for each step (docs/PLAY.md).

use crate::book::hex;
use crate::client::Job;
use crate::layout::{Layout, Set};
use crate::shape::Shape;
use crate::play::Play;
use crate::yard::Step;

/// Numbers with commas between; `-` for none.
fn list(numbers: &[u8]) -> String {
    if numbers.is_empty() {
        return "-".into();
    }
    numbers.iter().map(u8::to_string).collect::<Vec<_>>().join(",")
}

fn sets(sets: &[Set]) -> String {
    sets.iter().map(|set| format!(" {}", list(set))).collect()
}

pub fn layout(layout: &Layout) -> String {
    let ranges: String = layout.ranges.iter().map(|range| format!(" {},{}", range.start, range.uses)).collect();
    let large = if layout.units_shape() == Shape::Large { " large" } else { "" };
    format!("layout {}{large}{} ranges{ranges}", layout.epoch, sets(&layout.sets))
}

fn job(job: &Job) -> String {
    match job {
        Job::Append(data) => format!("append {} {}", data.len(), hex(data)),
        Job::Read(p) => format!("read {p}"),
        Job::Fill(p) => format!("fill {p}"),
        Job::Trim(p) => format!("trim {p}"),
        Job::Prune(p) => format!("prune {p}"),
        Job::Reorganise(change) => format!("reorganise {}{}", list(&change.drops), sets(&change.sets)),
    }
}

pub fn step(step: &Step) -> String {
    let or = |first: bool, yes: &'static str, no: &'static str| if first { yes } else { no };
    match step {
        Step::Begin(client, asked) => format!("begin {client} {}", job(asked)),
        Step::Deliver { place, keep, keep_answer } => {
            format!("deliver {place} {} {}", or(*keep, "keep", "drop"), or(*keep_answer, "answer", "lose"))
        }
        Step::Drop(place) => format!("drop {place}"),
        Step::Stop(unit) => format!("stop {unit}"),
        Step::Restart(client) => format!("restart {client}"),
        Step::GiveUp(client) => format!("giveup {client}"),
        Step::Forget => "forget".into(),
    }
}

pub fn play(play: &Play) -> String {
    let steps = play.steps.iter().map(step);
    [layout(&play.layout)].into_iter().chain(steps).map(|line| line + "\n").collect()
}
