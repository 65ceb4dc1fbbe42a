//! The yard: a bag of letters between clients and machines, and its steps.

use crate::client::{Client, Job, Outcome, Turn};
use crate::layout::{Layout, UNITS};
use crate::letter::{Ask, Body, Letter, Note, Reply};
use crate::no::{self, unless, No};
use crate::sequencer::Sequencer;
use crate::shortcut::Shortcut;
use crate::successor;
use crate::unit::{Page, Unit};
use std::collections::BTreeSet;

pub const CLIENTS: u8 = 4;
pub const LETTERS: usize = 32;

#[derive(Clone, Debug, PartialEq, Eq)]
pub enum Step {
    Begin(u8, Job),
    Deliver { place: usize, keep: bool, keep_answer: bool },
    Drop(usize),
    Stop(u8),
    Restart(u8),
    GiveUp(u8),
    Forget,
}

/// An operation that ended, and what was noted on the answer that ended it.
#[derive(Clone, Debug, PartialEq, Eq)]
pub struct Ended {
    pub client: u8,
    pub job: Job,
    pub outcome: Outcome,
    pub note: Option<Note>,
}

#[derive(Clone, Debug, PartialEq, Eq)]
pub struct Yard {
    pub held: Layout,
    pub sequencer: Sequencer,
    pub units: Vec<Unit>,
    pub stopped: BTreeSet<u8>,
    pub clients: Vec<Client>,
    pub bag: Vec<Letter>,
    /// Steps taken.
    pub clock: u64,
    pub shortcut: Option<Shortcut>,
}

impl Yard {
    pub fn fresh(layout: Layout) -> Result<Yard, No> {
        unless(!layout.good() || layout.epoch != 1, no::LAYOUT)?;
        let shape = layout.units_shape();
        Ok(Yard {
            held: layout,
            sequencer: Sequencer::fresh(),
            units: (1..=UNITS).map(|unit| Unit::fresh(unit, shape)).collect(),
            stopped: BTreeSet::new(),
            clients: (1..=CLIENTS).map(Client::fresh).collect(),
            bag: Vec::new(),
            clock: 0,
            shortcut: None,
        })
    }

    /// One step: its answer, and the operation that it ended.
    pub fn step(&mut self, step: &Step) -> (No, Option<Ended>) {
        self.clock += 1;
        let result = match step {
            Step::Begin(client, job) => self.begin(*client, job),
            Step::Deliver { place, keep, keep_answer } => self.deliver(*place, *keep, *keep_answer),
            Step::Drop(place) => self.drop_letter(*place),
            Step::Stop(unit) => self.stop(*unit),
            Step::Restart(client) => self.restart(*client),
            Step::GiveUp(client) => self.give_up(*client),
            Step::Forget => self.forget(),
        };
        match result {
            Ok(ended) => (no::FINE, ended),
            Err(number) => (number, None),
        }
    }

    fn client(&mut self, client: u8) -> Result<&mut Client, No> {
        unless(!(1..=CLIENTS).contains(&client), no::NOBODY)?;
        Ok(&mut self.clients[usize::from(client) - 1])
    }

    fn letter(&self, place: usize) -> Result<&Letter, No> {
        self.bag.get(place).ok_or(no::NOBODY)
    }

    fn running(&self, unit: u8) -> Result<(), No> {
        unless(!(1..=UNITS).contains(&unit) || self.stopped.contains(&unit), no::NOBODY)
    }

    /// 17, 18, 19, 16, then 2, 3 and 10.
    fn begin(&mut self, client: u8, job: &Job) -> Result<Option<Ended>, No> {
        let full = self.bag.len() >= LETTERS;
        let shape = self.held.units_shape();
        let who = self.client(client)?;
        who.ready()?;
        unless(full, no::BAG_FULL)?;
        job.check(shape)?;
        let turn = who.begin(job.clone());
        Ok(self.settle(client, turn, None))
    }

    fn drop_letter(&mut self, place: usize) -> Result<Option<Ended>, No> {
        self.letter(place)?;
        self.bag.remove(place);
        Ok(None)
    }

    fn stop(&mut self, unit: u8) -> Result<Option<Ended>, No> {
        self.running(unit)?;
        self.stopped.insert(unit);
        Ok(None)
    }

    fn restart(&mut self, client: u8) -> Result<Option<Ended>, No> {
        self.client(client)?.restart()?;
        Ok(None)
    }

    fn give_up(&mut self, client: u8) -> Result<Option<Ended>, No> {
        let turn = self.client(client)?.give_up();
        Ok(self.settle(client, turn, None))
    }

    fn forget(&mut self) -> Result<Option<Ended>, No> {
        self.sequencer.forget();
        Ok(None)
    }

    /// What a client sent goes to the end of the bag.
    fn settle(&mut self, client: u8, turn: Turn, note: Option<Note>) -> Option<Ended> {
        match turn {
            Turn::Rests => None,
            Turn::Sends(letter) => {
                self.bag.push(letter);
                None
            }
            Turn::Ends(job, outcome) => Some(Ended { client, job, outcome, note }),
        }
    }

    /// 16 where the bag would hold more than 32 letters afterwards; else the letter is dropped if it is to be.
    fn make_room(&mut self, place: usize, keep: bool, comes: bool) -> Result<(), No> {
        let afterwards = self.bag.len() - usize::from(!keep) + usize::from(comes);
        unless(afterwards > LETTERS, no::BAG_FULL)?;
        if !keep {
            self.bag.remove(place);
        }
        Ok(())
    }

    fn deliver(&mut self, place: usize, keep: bool, keep_answer: bool) -> Result<Option<Ended>, No> {
        let letter = self.letter(place)?.clone();
        match letter.body {
            Body::Asks(ask) => {
                ask.unit().map_or(Ok(()), |unit| self.running(unit))?;
                self.make_room(place, keep, keep_answer)?;
                let note = self.note(&ask);
                let reply = self.serve(ask);
                if keep_answer {
                    self.bag.push(Letter { stamp: letter.stamp, body: Body::Answers(reply, note) });
                }
                Ok(None)
            }
            Body::Answers(reply, note) => {
                let shortcut = self.shortcut;
                let who = self.client(letter.stamp.client)?;
                let mut after = who.clone();
                let turn = after.take(letter.stamp, &reply, shortcut);
                self.make_room(place, keep, matches!(turn, Turn::Sends(_)))?;
                *self.client(letter.stamp.client)? = after;
                Ok(self.settle(letter.stamp.client, turn, Some(note)))
            }
        }
    }

    /// What an onlooker notes when a request reaches its machine.
    fn note(&self, ask: &Ask) -> Note {
        let believed = self.shortcut == Some(Shortcut::BelieveOldTail);
        Note { when: self.clock, in_force: believed || ask.epoch() == Some(self.held.epoch) }
    }

    /// What a read of p by this layout would be answered if it reached the tail now.
    pub fn would_read(&self, layout: &Layout, p: u64) -> (Reply, Note) {
        let tail = *layout.set_of(p).last().expect("a good set");
        let note = self.note(&Ask::Read { unit: tail, epoch: layout.epoch, position: p });
        (self.read(tail, layout.epoch, p).unwrap_or_else(Reply::Refused), note)
    }

    fn tested(&self, epoch: u32) -> u32 {
        if self.shortcut == Some(Shortcut::NoEpochTest) {
            u32::MAX
        } else {
            epoch
        }
    }

    fn read(&self, unit: u8, epoch: u32, p: u64) -> Result<Reply, No> {
        let asked = &self.units[usize::from(unit) - 1];
        let page = asked.read(self.tested(epoch), p)?;
        Ok(Reply::Shown(match page {
            Page::Junk if self.shortcut == Some(Shortcut::JunkAsZeros) => Page::Data(vec![0; asked.shape.payload()]),
            _ => page.clone(),
        }))
    }

    /// A request goes to its machine.
    fn serve(&mut self, ask: Ask) -> Reply {
        let fine = |result: Result<(), No>| result.map(|()| Reply::Fine);
        let tested = ask.epoch().map_or(0, |epoch| self.tested(epoch));
        let result = match ask {
            Ask::Fetch => Ok(Reply::Held(self.held.clone())),
            Ask::Offer { layout } => fine(self.offer(&layout)),
            Ask::Token { epoch } => self.sequencer.token(epoch).map(Reply::Given),
            Ask::Start { epoch, position } => fine(self.sequencer.start(epoch, position)),
            Ask::Write { unit, position, page, .. } => fine(self.unit(unit).write(tested, position, page.kind(), page.bytes())),
            Ask::Read { unit, epoch, position } => self.read(unit, epoch, position),
            Ask::Trim { unit, position, .. } => fine(self.unit(unit).trim(tested, position)),
            Ask::Prune { unit, position, .. } => fine(self.unit(unit).prune(tested, position)),
            Ask::Seal { unit, epoch } => self.unit(unit).seal(epoch).map(Reply::Edges),
            Ask::EdgesOnly { unit } => Ok(Reply::Edges(self.unit(unit).edges())),
        };
        result.unwrap_or_else(Reply::Refused)
    }

    fn unit(&mut self, unit: u8) -> &mut Unit {
        &mut self.units[usize::from(unit) - 1]
    }

    fn offer(&mut self, layout: &Layout) -> Result<(), No> {
        let next = self.held.epoch.checked_add(1) == Some(layout.epoch);
        if self.shortcut == Some(Shortcut::PutBack) && layout.good() && next {
            self.held = layout.clone();
            return Ok(());
        }
        successor::offer(&mut self.held, layout)
    }
}
