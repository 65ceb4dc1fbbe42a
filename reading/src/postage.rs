//! The requests of each operation, counted by an onlooker who sees the bag alone, and held against what its outcome says.

use crate::client::Job;
use crate::letter::Body;
use crate::no::{self, No};
use crate::yard::{Ended, Step, Yard, CLIENTS};

/// Requests that an append sends at most: a fetch, eight tokens, seven failed heads, four units.
pub const MOST: u32 = 20;
/// And where eight heads failed.
pub const EIGHT_HEADS: u32 = 17;

#[derive(Default)]
pub struct Postage {
    /// Requests put into the bag since the client's last begin.
    put: [u32; CLIENTS as usize],
    /// Requests of each client that lay in the bag after the last step.
    lying: [u32; CLIENTS as usize],
}

fn lying(yard: &Yard) -> [u32; CLIENTS as usize] {
    let mut counts = [0; CLIENTS as usize];
    for letter in yard.bag.iter().filter(|letter| matches!(letter.body, Body::Asks(_))) {
        counts[usize::from(letter.stamp.client) - 1] += 1;
    }
    counts
}

impl Postage {
    /// To be told of each step in turn. An error says where an outcome and the bag differ.
    pub fn note(&mut self, yard: &Yard, step: &Step, answer: No, ended: Option<&Ended>) -> Result<(), String> {
        if let (Step::Begin(client, _), no::FINE) = (step, answer) {
            self.put[usize::from(*client) - 1] = 0;
        }
        let now = lying(yard);
        for (client, count) in now.iter().enumerate() {
            self.put[client] += count.saturating_sub(self.lying[client]);
        }
        self.lying = now;
        ended.map_or(Ok(()), |ended| self.check(ended))
    }

    fn check(&self, ended: &Ended) -> Result<(), String> {
        let (put, sent) = (self.put[usize::from(ended.client) - 1], ended.outcome.sent);
        if put != sent {
            return Err(format!("{put} requests were put into the bag, and the outcome says {sent}"));
        }
        match ended.job {
            Job::Append(_) if MOST < sent => Err(format!("an append sent {sent} requests")),
            // 6 at a later unit counts as fine, so only an eighth head ends an append with 6
            Job::Append(_) if ended.outcome.number == no::WRITTEN && sent != EIGHT_HEADS => Err(format!("eight heads failed, and {sent} requests were sent")),
            _ => Ok(()),
        }
    }
}
