//! Demand 3's last sentence, tried on a copy of the yard: an undisturbed reorganise ends in done, and then reads show what was appended.
//! The sequencer's count is then the largest written edge of the units of the new layout.

use crate::client::{Job, Outcome};
use crate::demand::History;
use crate::no;
use crate::plan::{plan, Change};
use crate::yard::{Step, Yard, LETTERS};

/// The number of units in the new layout, where the conditions are met.
fn conditions(yard: &Yard, client: u8, change: &Change) -> Option<u32> {
    let who = &yard.clients[usize::from(client) - 1];
    let units = plan(&yard.held, change).ok()?.units();
    let n = units.len() as u32;
    let met = who.operation.is_none()
        && yard.bag.len() < LETTERS
        && u32::MAX - who.used >= n + 5
        && yard.held.epoch < u32::MAX
        && change.sets.is_empty()
        && units.iter().all(|unit| !yard.stopped.contains(unit));
    met.then_some(n)
}

/// The newest letter and then its answer are delivered once and dropped; the outcome, if the operation ended.
fn exchange(yard: &mut Yard) -> Result<Option<Outcome>, String> {
    let mut outcome = None;
    for _ in 0..2 {
        let place = yard.bag.len().checked_sub(1).ok_or("no letter to deliver")?;
        let (answer, ended) = yard.step(&Step::Deliver { place, keep: false, keep_answer: true });
        if answer != no::FINE {
            return Err(format!("a delivery was answered {answer}"));
        }
        outcome = ended.map(|ended| ended.outcome);
    }
    Ok(outcome)
}

/// An operation that is begun and ends with exactly this many requests.
fn undisturbed(yard: &mut Yard, client: u8, job: Job, requests: u32) -> Result<Outcome, String> {
    let letters = yard.bag.clone();
    let (answer, _) = yard.step(&Step::Begin(client, job));
    if answer != no::FINE {
        return Err(format!("the begin was answered {answer}"));
    }
    for sent in 1..=requests {
        match exchange(yard)? {
            Some(outcome) if sent == requests && yard.bag == letters => return Ok(outcome),
            Some(outcome) => return Err(format!("ended with {outcome:?} after {sent} of {requests} requests")),
            None => {}
        }
    }
    Err(format!("not ended after {requests} requests"))
}

/// Whether the conditions were met; an error where they were and the sentence does not hold.
pub fn holds(yard: &Yard, history: &History, client: u8, change: &Change) -> Result<bool, String> {
    let Some(n) = conditions(yard, client, change) else {
        return Ok(false);
    };
    let mut yard = yard.clone();
    let outcome = undisturbed(&mut yard, client, Job::Reorganise(change.clone()), n + 3)?;
    if outcome.number != no::FINE {
        return Err(format!("the reorganise ended with {}", outcome.number));
    }
    let edges = yard.held.units().into_iter().map(|unit| yard.units[usize::from(unit) - 1].written_edge());
    let written = edges.max().unwrap_or(0);
    if yard.sequencer.next != written {
        return Err(format!("the sequencer counts from {} and not from {written}", yard.sequencer.next));
    }
    for p in history.done_positions() {
        let mut after = yard.clone();
        let read = undisturbed(&mut after, client, Job::Read(p), 2)?;
        if !matches!(read.number, no::FINE | no::TRIMMED) || read.epoch != yard.held.epoch {
            return Err(format!("a read of {p} ended with {read:?}"));
        }
        for (stored, _) in history.done_at(p) {
            history.expected(p, stored, read.number, read.page.as_ref())?;
        }
    }
    Ok(true)
}
