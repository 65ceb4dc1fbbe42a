//! What is to be seen of a play: lanes, rows, arrows and marks, taken from the yard as it is stepped.

use super::says;
use crate::client::Job;
use crate::letter::{Ask, Body, Letter};
use crate::no;
use crate::play::Play;
use crate::unit::Page;
use crate::yard::{Step, Yard};
use std::collections::BTreeSet;

#[derive(Clone, Copy, Debug, PartialEq, Eq, PartialOrd, Ord)]
pub enum Lane {
    Client(u8),
    Sequencer,
    Holder,
    Unit(u8),
}

/// A lane at a row; row 0 is the fresh yard, a step's row is its number.
#[derive(Clone, Copy, Debug, PartialEq, Eq)]
pub struct Point {
    pub lane: Lane,
    pub row: usize,
}

/// How an arrow ends: at its lane, with the letter dropped or brought to nobody, or with the play.
#[derive(Clone, Copy, Debug, PartialEq, Eq)]
pub enum End {
    Arrives,
    Nobody,
    Dropped,
    UnderWay,
}

#[derive(Clone, Debug, PartialEq, Eq)]
pub struct Arrow {
    pub from: Point,
    pub to: Point,
    pub client: u8,
    pub is_answer: bool,
    pub says: String,
    pub end: End,
}

#[derive(Clone, Debug, PartialEq, Eq)]
pub enum What {
    /// An operation begins.
    Begins(String),
    /// An operation ended, well or not.
    Flag {
        well: bool,
        says: String,
    },
    Seals(u32),
    Layout(String),
    /// A page was stored at a position.
    Stores {
        junk: bool,
        position: u64,
    },
    Trims(String),
    /// The answer of a machine is lost.
    Loses,
    Stops,
    Says(String),
}

#[derive(Clone, Debug, PartialEq, Eq)]
pub struct Mark {
    pub at: Point,
    pub what: What,
}

#[derive(Clone, Debug, Default, PartialEq, Eq)]
pub struct Scene {
    pub lanes: Vec<Lane>,
    /// The answer of each step.
    pub answers: Vec<no::No>,
    pub arrows: Vec<Arrow>,
    pub marks: Vec<Mark>,
    /// When a client had an operation: its rows.
    pub busy: Vec<(u8, usize, usize)>,
}

/// A letter of the bag, with the step that sent it.
#[derive(Clone)]
struct Sent {
    from: Point,
    letter: Letter,
}

struct Watch {
    yard: Yard,
    bag: Vec<Sent>,
    began: [usize; 4],
    scene: Scene,
}

/// To whom a letter goes.
fn goes_to(letter: &Letter) -> Lane {
    match &letter.body {
        Body::Answers(..) => Lane::Client(letter.stamp.client),
        Body::Asks(Ask::Fetch | Ask::Offer { .. }) => Lane::Holder,
        Body::Asks(Ask::Token { .. } | Ask::Start { .. }) => Lane::Sequencer,
        Body::Asks(ask) => Lane::Unit(ask.unit().unwrap_or_default()),
    }
}

fn says(letter: &Letter) -> String {
    match &letter.body {
        Body::Asks(ask) => says::ask(ask),
        Body::Answers(reply, _) => says::reply(reply),
    }
}

impl Watch {
    fn row(&self) -> usize {
        self.scene.answers.len()
    }

    fn mark(&mut self, lane: Lane, what: What) {
        let at = Point { lane, row: self.row() };
        self.scene.marks.push(Mark { at, what });
    }

    fn arrow(&mut self, sent: &Sent, end: End) {
        let to = Point { lane: goes_to(&sent.letter), row: self.row() };
        let is_answer = matches!(sent.letter.body, Body::Answers(..));
        let arrow =
            Arrow { from: sent.from, to, client: sent.letter.stamp.client, is_answer, says: says(&sent.letter), end };
        self.scene.arrows.push(arrow);
    }

    /// What a machine does with a request that it answers so.
    fn effect(&mut self, ask: &Ask, before: &Yard) {
        let unit = |yard: &Yard, unit: u8| yard.units[usize::from(unit) - 1].clone();
        match ask {
            Ask::Seal { unit: u, epoch }
                if unit(&self.yard, *u).sealed == *epoch && unit(before, *u).sealed <= *epoch =>
            {
                self.mark(Lane::Unit(*u), What::Seals(*epoch));
            }
            Ask::Write { unit: u, position, page, .. } if unit(&self.yard, *u) != unit(before, *u) => {
                self.mark(Lane::Unit(*u), What::Stores { junk: *page == Page::Junk, position: *position });
            }
            Ask::Trim { unit: u, .. } | Ask::Prune { unit: u, .. } if unit(&self.yard, *u) != unit(before, *u) => {
                self.mark(Lane::Unit(*u), What::Trims(says::ask(ask)));
            }
            Ask::Offer { .. } if self.yard.held != before.held => {
                let says = says::layout(&self.yard.held);
                self.mark(Lane::Holder, What::Layout(says));
            }
            Ask::Start { .. } if self.yard.sequencer != before.sequencer => {
                let says = format!("epoch {}, next {}", self.yard.sequencer.epoch, self.yard.sequencer.next);
                self.mark(Lane::Sequencer, What::Says(says));
            }
            _ => {}
        }
    }

    fn delivered(&mut self, place: usize, keep: bool, keep_answer: bool, before: &Yard) {
        let sent = self.bag[place].clone();
        self.arrow(&sent, End::Arrives);
        if !keep {
            self.bag.remove(place);
        }
        if let Body::Asks(ask) = &sent.letter.body {
            self.effect(ask, before);
            if !keep_answer {
                self.mark(goes_to(&sent.letter), What::Loses);
            }
        }
        self.posted(goes_to(&sent.letter));
    }

    /// What was put at the end of the bag was sent from this lane.
    fn posted(&mut self, lane: Lane) {
        let from = Point { lane, row: self.row() };
        for letter in &self.yard.bag[self.bag.len()..] {
            self.bag.push(Sent { from, letter: letter.clone() });
        }
    }

    fn ended(&mut self, client: u8) {
        self.scene.busy.push((client, self.began[usize::from(client) - 1], self.row()));
    }

    fn taken(&mut self, step: &Step, before: &Yard) {
        match step {
            Step::Begin(client, job) => {
                self.began[usize::from(*client) - 1] = self.row();
                self.mark(Lane::Client(*client), What::Begins(says::job(job)));
                self.posted(Lane::Client(*client));
            }
            Step::Deliver { place, keep, keep_answer } => self.delivered(*place, *keep, *keep_answer, before),
            Step::Drop(place) => {
                let sent = self.bag.remove(*place);
                self.arrow(&sent, End::Dropped);
            }
            Step::Stop(unit) => self.mark(Lane::Unit(*unit), What::Stops),
            Step::Restart(client) => {
                if before.clients[usize::from(*client) - 1].operation.is_some() {
                    self.ended(*client);
                }
                let life = self.yard.clients[usize::from(*client) - 1].life;
                self.mark(Lane::Client(*client), What::Says(format!("restarts, life {life}")));
            }
            Step::GiveUp(_) => {}
            Step::Forget => self.mark(Lane::Sequencer, What::Says("forgets".into())),
        }
    }

    fn step(&mut self, step: &Step) {
        let before = self.yard.clone();
        let (answer, ended) = self.yard.step(step);
        self.scene.answers.push(answer);
        if answer == no::FINE {
            self.taken(step, &before);
        } else if let Step::Deliver { place, .. } = step {
            // a letter that is there, and whose unit has stopped
            if let Some(sent) = self.bag.get(*place).filter(|_| answer == no::NOBODY).cloned() {
                self.arrow(&sent, End::Nobody);
            }
        }
        if let Some(ended) = ended {
            self.ended(ended.client);
            let says = says::outcome(&ended.job, &ended.outcome);
            self.mark(Lane::Client(ended.client), What::Flag { well: ended.outcome.number == no::FINE, says });
        }
    }

    /// What is still under way when the play ends.
    fn close(&mut self) {
        self.scene.answers.push(no::FINE);
        for sent in self.bag.clone() {
            self.arrow(&sent, End::UnderWay);
        }
        let row = self.row();
        for client in &self.yard.clients {
            if client.operation.is_some() {
                self.scene.busy.push((client.me, self.began[usize::from(client.me) - 1], row));
            }
        }
        self.scene.answers.pop();
    }
}

/// Clients that are spoken of, the sequencer, the holder, and units that are in a layout or spoken of.
fn lanes(play: &Play, scene: &Scene) -> Vec<Lane> {
    let mut all: BTreeSet<Lane> = play.layout.units().into_iter().map(Lane::Unit).collect();
    all.extend([Lane::Sequencer, Lane::Holder]);
    all.extend(scene.marks.iter().map(|mark| mark.at.lane));
    all.extend(scene.arrows.iter().flat_map(|arrow| [arrow.from.lane, arrow.to.lane]));
    for step in &play.steps {
        if let Step::Begin(_, Job::Reorganise(change)) = step {
            all.extend(
                change.sets.iter().flatten().filter(|unit| (1..=8).contains(*unit)).map(|unit| Lane::Unit(*unit)),
            );
        }
    }
    all.into_iter().collect()
}

pub fn scene(play: &Play) -> Scene {
    let yard = Yard::fresh(play.layout.clone()).expect("a play starts a fresh yard");
    let mut watch = Watch { yard, bag: Vec::new(), began: [0; 4], scene: Scene::default() };
    watch.mark(Lane::Holder, What::Layout(says::layout(&play.layout)));
    for step in &play.steps {
        watch.step(step);
    }
    watch.close();
    watch.scene.lanes = lanes(play, &watch.scene);
    watch.scene
}
