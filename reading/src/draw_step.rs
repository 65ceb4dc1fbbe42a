//! A step of a run, drawn.

use crate::draw_job::draw_job;
use crate::lehmer::Raw;
use crate::mood::Mood;
use crate::no::{self, No};
use crate::yard::{Ended, Step, Yard};

/// What the program remembers of the run so far.
#[derive(Clone, Debug, Default)]
pub struct Memo {
    /// At which step each client's operation began.
    begun: [u32; 4],
    /// The number with which the last operation ended, and its position.
    last: No,
    pub at: u64,
    /// The letter that the last step could bring to nobody.
    stuck: Option<usize>,
}

impl Memo {
    /// Steps that an operation is given before it is mostly given up.
    const PATIENCE: u32 = 100;

    /// To be told of each step: its number, the step, its answer and the operation that it ended.
    pub fn note(&mut self, number: u32, step: &Step, answer: No, ended: Option<&Ended>, letters: usize) {
        if let (Step::Begin(client, _), no::FINE) = (step, answer) {
            self.begun[usize::from(*client) - 1] = number;
        }
        self.stuck = match step {
            Step::Deliver { place, .. } if answer == no::NOBODY && *place < letters => Some(*place),
            _ => None,
        };
        if let Some(ended) = ended {
            self.last = ended.outcome.number;
            self.at = ended.outcome.position;
        }
    }

    fn lately(&self, client: u8, number: u32) -> bool {
        (1..=4).contains(&client) && number < self.begun[usize::from(client) - 1] + Memo::PATIENCE
    }

    /// The last operation met a sealed unit.
    pub fn sealed(&self) -> bool {
        self.last == no::SEALED
    }
}

/// The place of a letter: spread evenly over the bag.
fn spread(raw: &Raw, letters: u32) -> usize {
    (raw.of(3, 32) * letters / 32) as usize
}

/// One of the newest, or any, or any of 40 places.
fn place_to_deliver(raw: &Raw, letters: u32) -> usize {
    match raw.of(2, 16) {
        0..=10 => letters.saturating_sub(1 + raw.of(3, 4)) as usize,
        11..=14 => spread(raw, letters),
        _ => raw.of(3, 40) as usize,
    }
}

fn place_to_drop(raw: &Raw, letters: u32) -> usize {
    match raw.of(2, 8) {
        0 => raw.of(3, 40) as usize,
        1..=4 => 0,
        _ => spread(raw, letters),
    }
}

/// Mostly 1 to 4, sometimes 0 to 5.
fn client(raw: &Raw) -> u8 {
    match raw.of(5, 16) {
        0 => raw.of(4, 6) as u8,
        _ => 1 + raw.of(4, 4) as u8,
    }
}

fn is_busy(yard: &Yard, client: u8) -> bool {
    yard.clients[usize::from(client) - 1].operation.is_some()
}

/// From the drawn client on, the first that is idle; mostly.
fn client_to_begin(raw: &Raw, yard: &Yard) -> u8 {
    let who = client(raw);
    if !(1..=4).contains(&who) || raw.of(5, 8) == 1 {
        return who;
    }
    let turns = [who, who % 4 + 1, (who + 1) % 4 + 1, (who + 2) % 4 + 1];
    turns.into_iter().find(|client| !is_busy(yard, *client)).unwrap_or(who)
}

/// Units stop only in a mortal run, and at most two: else 0 stands for a running one.
fn unit_to_stop(raw: &Raw, yard: &Yard, mood: &Mood) -> u8 {
    let unit = raw.of(4, 10) as u8;
    let running = (1..=8).contains(&unit) && !yard.stopped.contains(&unit);
    if running && (!mood.mortal || yard.stopped.len() >= 2) {
        0
    } else {
        unit
    }
}

/// The step of this number (from 1), given the raw numbers drawn for it.
pub fn draw_step(raw: &Raw, yard: &Yard, mood: &Mood, memo: &Memo, number: u32) -> Step {
    let letters = yard.bag.len() as u32;
    let who = client(raw);
    let rarely = raw.of(1, 8);
    if let (Some(place), 2..) = (memo.stuck, rarely) {
        return Step::Drop(place);
    }
    let all_busy = (1..=4).all(|client| is_busy(yard, client));
    let begin = || Step::Begin(client_to_begin(raw, yard), draw_job(raw, yard, mood, memo));
    match raw.of(0, 128) {
        0..=23 if !all_busy || rarely == 0 => begin(),
        24..=33 if !memo.lately(who, number) || rarely == 0 => Step::GiveUp(who),
        34..=35 if !mood.busy || rarely == 0 => Step::Drop(place_to_drop(raw, letters)),
        36 if rarely < 4 => Step::Restart(who),
        37 if rarely < 2 => Step::Stop(unit_to_stop(raw, yard, mood)),
        38 if rarely < 4 => Step::Forget,
        _ if letters == 0 && rarely < 4 && all_busy => Step::GiveUp(who),
        _ if letters == 0 && rarely < 7 => begin(),
        _ => Step::Deliver { place: place_to_deliver(raw, letters), keep: raw.of(10, 64) < mood.keep, keep_answer: raw.of(11, 64) >= mood.lose },
    }
}
