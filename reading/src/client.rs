//! A client: one operation and one outstanding request at a time.

use crate::layout::Layout;
use crate::letter::{Ask, Body, Letter, Reply, Stamp};
use crate::no::{self, unless, No, LIMIT};
use crate::operation::{Next, Operation};
use crate::plan::{Change, DROPS};
use crate::shape::Shape;
use crate::shortcut::Shortcut;
use crate::unit::Page;

/// What is asked of a client.
#[derive(Clone, Debug, PartialEq, Eq)]
pub enum Job {
    Append(Vec<u8>),
    Read(u64),
    Fill(u64),
    Trim(u64),
    Prune(u64),
    Reorganise(Change),
}

impl Job {
    /// Position, page and how many units to drop, checked when the operation begins in a yard of this shape.
    pub fn check(&self, shape: Shape) -> Result<(), No> {
        match self {
            Job::Append(data) => unless(data.len() > shape.payload(), no::PAGE),
            Job::Read(p) | Job::Fill(p) | Job::Trim(p) => unless(*p >= LIMIT, no::POSITION),
            Job::Prune(p) => unless(*p > LIMIT, no::POSITION),
            Job::Reorganise(change) => unless(change.drops.len() > DROPS, no::LAYOUT),
        }
    }

    /// The position it names, 0 where it names none.
    pub fn position(&self) -> u64 {
        match self {
            Job::Read(p) | Job::Fill(p) | Job::Trim(p) | Job::Prune(p) => *p,
            Job::Append(_) | Job::Reorganise(_) => 0,
        }
    }
}

/// How an operation ended: its number, the position under way, the epoch of the layout it fetched (0 before), a read's page, and the requests it sent.
#[derive(Clone, Debug, PartialEq, Eq)]
pub struct Outcome {
    pub number: No,
    pub position: u64,
    pub epoch: u32,
    pub page: Option<Page>,
    pub sent: u32,
}

#[derive(Clone, Debug, PartialEq, Eq)]
pub enum Turn {
    Rests,
    Sends(Letter),
    Ends(Job, Outcome),
}

#[derive(Clone, Debug, PartialEq, Eq)]
pub struct Client {
    pub me: u8,
    pub life: u16,
    /// Numbers used in this life, which is also the last one used.
    pub used: u32,
    pub operation: Option<Operation>,
    /// For a shortcut: the first layout it ever fetched.
    pub first_seen: Option<Layout>,
}

impl Client {
    pub fn fresh(me: u8) -> Client {
        Client { me, life: 1, used: 0, operation: None, first_seen: None }
    }

    /// 18, then 19.
    pub fn ready(&self) -> Result<(), No> {
        unless(self.operation.is_some(), no::BUSY)?;
        unless(self.used == u32::MAX, no::NUMBERS_SPENT)
    }

    /// Every operation first fetches the layout.
    pub fn begin(&mut self, job: Job) -> Turn {
        let operation = Operation::new(job);
        self.send(operation, Ask::Fetch)
    }

    /// A request goes out under the next number; with none left the operation ends.
    fn send(&mut self, mut operation: Operation, ask: Ask) -> Turn {
        let Some(number) = self.used.checked_add(1) else {
            return self.end(operation, no::NUMBERS_SPENT, None);
        };
        self.used = number;
        operation.sent += 1;
        self.operation = Some(operation);
        let stamp = Stamp { client: self.me, life: self.life, number };
        Turn::Sends(Letter { stamp, body: Body::Asks(ask) })
    }

    fn end(&mut self, operation: Operation, number: No, page: Option<Page>) -> Turn {
        self.operation = None;
        let outcome = Outcome { number, position: operation.position, epoch: operation.epoch(), page, sent: operation.sent };
        Turn::Ends(operation.job, outcome)
    }

    /// An answer comes; one to anything but the outstanding request is ignored.
    pub fn take(&mut self, stamp: Stamp, reply: &Reply, shortcut: Option<Shortcut>) -> Turn {
        let outstanding = Stamp { client: self.me, life: self.life, number: self.used };
        if stamp != outstanding {
            return Turn::Rests;
        }
        let Some(mut operation) = self.operation.clone() else {
            return Turn::Rests;
        };
        if let (Reply::Held(layout), None) = (reply, &self.first_seen) {
            self.first_seen = Some(layout.clone());
        }
        let before = self.first_seen.clone();
        match operation.take(reply, shortcut, before.as_ref()) {
            Next::Ignore => Turn::Rests,
            Next::Send(ask) => self.send(operation, ask),
            Next::End(number, page) => self.end(operation, number, page),
        }
    }

    pub fn give_up(&mut self) -> Turn {
        match self.operation.take() {
            None => Turn::Rests,
            Some(operation) => self.end(operation, no::UNKNOWN, None),
        }
    }

    /// Its operation forgotten, life plus 1, numbers unused again.
    pub fn restart(&mut self) -> Result<(), No> {
        let life = self.life.checked_add(1).ok_or(no::NUMBERS_SPENT)?;
        *self = Client { life, ..Client::fresh(self.me) };
        Ok(())
    }
}
