//! What occurs in runs: counted, so that docs/RUNS.md can say what the runs try.

use crate::client::Job;
use crate::run::Taken;
use crate::unit::{Cell, Page};
use crate::yard::{Ended, Step, Yard};
use std::collections::BTreeMap;
use std::fmt;

#[derive(Default)]
pub struct Census {
    runs: u64,
    refused_runs: u64,
    steps: u64,
    /// Step's name, then its answer.
    answers: BTreeMap<&'static str, BTreeMap<u8, u64>>,
    /// Operation's name, then its outcome's number; reads that were shown a page apart.
    outcomes: BTreeMap<&'static str, BTreeMap<u8, u64>>,
    shown: BTreeMap<&'static str, u64>,
    changes: BTreeMap<u32, u64>,
    letters: u64,
    most_letters: usize,
    most_slots: usize,
    /// Slots that units have at the end, by what is in them.
    slots: BTreeMap<&'static str, u64>,
    stopped: BTreeMap<usize, u64>,
    with_new_range: u64,
}

fn step_name(step: &Step) -> &'static str {
    match step {
        Step::Begin(..) => "begin",
        Step::Deliver { .. } => "deliver",
        Step::Drop(_) => "drop",
        Step::Stop(_) => "stop",
        Step::Restart(_) => "restart",
        Step::GiveUp(_) => "giveup",
        Step::Forget => "forget",
    }
}

fn job_name(job: &Job) -> &'static str {
    match job {
        Job::Append(_) => "append",
        Job::Read(_) => "read",
        Job::Fill(_) => "fill",
        Job::Trim(_) => "trim",
        Job::Prune(_) => "prune",
        Job::Reorganise(_) => "reorganise",
    }
}

fn cell_name(cell: &Cell) -> &'static str {
    match cell {
        Cell::Holds(Page::Data(_)) => "data",
        Cell::Holds(Page::Junk) => "junk",
        Cell::Trimmed => "trimmed",
        Cell::Stray => "stray",
    }
}

impl Census {
    pub fn refused_run(&mut self) {
        self.refused_runs += 1;
    }

    pub fn step(&mut self, taken: &Taken, yard: &Yard) {
        self.steps += 1;
        *self.answers.entry(step_name(&taken.step)).or_default().entry(taken.answer).or_default() += 1;
        self.letters += yard.bag.len() as u64;
        self.most_letters = self.most_letters.max(yard.bag.len());
        if let Some(ended) = &taken.ended {
            self.ended(ended);
        }
    }

    fn ended(&mut self, ended: &Ended) {
        *self.outcomes.entry(job_name(&ended.job)).or_default().entry(ended.outcome.number).or_default() += 1;
        match &ended.outcome.page {
            Some(Page::Data(bytes)) if bytes.is_empty() => *self.shown.entry("empty data").or_default() += 1,
            Some(Page::Data(_)) => *self.shown.entry("data").or_default() += 1,
            Some(Page::Junk) => *self.shown.entry("junk").or_default() += 1,
            None => {}
        }
    }

    /// At the end of a run that began in the epoch `first`.
    pub fn end(&mut self, first: u32, yard: &Yard) {
        self.runs += 1;
        *self.changes.entry(yard.held.epoch - first).or_default() += 1;
        *self.stopped.entry(yard.stopped.len()).or_default() += 1;
        self.with_new_range += u64::from(yard.held.ranges.len() > 2);
        for cell in yard.units.iter().flat_map(|unit| unit.cells.values()) {
            *self.slots.entry(cell_name(cell)).or_default() += 1;
        }
        self.most_slots = self.most_slots.max(yard.units.iter().map(|unit| unit.cells.len()).max().unwrap_or(0));
    }
}

fn counts<K: fmt::Display>(map: &BTreeMap<K, u64>) -> String {
    map.iter().map(|(key, count)| format!(" {key}:{count}")).collect()
}

impl fmt::Display for Census {
    fn fmt(&self, out: &mut fmt::Formatter<'_>) -> fmt::Result {
        writeln!(out, "runs {}, refused at the start {}, steps {}", self.runs, self.refused_runs, self.steps)?;
        writeln!(out, "answers of steps (number:times)")?;
        for (name, map) in &self.answers {
            writeln!(out, "  {name:11}{}", counts(map))?;
        }
        writeln!(out, "outcomes of operations (number:times)")?;
        for (name, map) in &self.outcomes {
            writeln!(out, "  {name:11}{}", counts(map))?;
        }
        writeln!(out, "pages shown to reads:{}", counts(&self.shown))?;
        writeln!(out, "layouts installed in a run (how many:runs):{}", counts(&self.changes))?;
        writeln!(out, "runs that end with more than two ranges: {}", self.with_new_range)?;
        writeln!(out, "units stopped at the end (how many:runs):{}", counts(&self.stopped))?;
        writeln!(out, "slots of units at the end:{}", counts(&self.slots))?;
        let mean = self.letters / self.steps.max(1);
        writeln!(out, "letters in the bag: {mean} in the mean, {} at most; slots used in a unit: {} at most", self.most_letters, self.most_slots)
    }
}
