//! An operation under way: what it waits for, and what it does with the answer.

use crate::client::Job;
use crate::layout::Layout;
use crate::letter::{Ask, Reply};
use crate::no::{self, No, LIMIT};
use crate::plan::{plan, Plan};
use crate::shape::Shape;
use crate::shortcut::Shortcut;
use crate::unit::{Edges, Page};

/// Units still to be asked after the one that is being asked.
type Route = Vec<u8>;

/// What the outstanding request was.
#[derive(Clone, Debug, PartialEq, Eq)]
pub enum Wait {
    Layout,
    /// The nth token of an append.
    Token {
        nth: u8,
    },
    /// The append's write, after the nth token; the head is asked first.
    Write {
        nth: u8,
        first: bool,
        rest: Route,
    },
    Read,
    /// A fill's write of the page carried.
    Fill {
        page: Page,
        first: bool,
        rest: Route,
    },
    /// A fill's look at the head.
    Look {
        rest: Route,
    },
    Trim {
        rest: Route,
    },
    Prune {
        rest: Route,
    },
    Seal {
        plan: Plan,
        edges: Edges,
        rest: Route,
    },
    Offer {
        epoch: u32,
        start: u64,
    },
    Start,
    /// Shortcut: edges asked for before any seal.
    Edges {
        plan: Plan,
        edges: Edges,
        rest: Route,
    },
}

#[derive(Clone, Debug, PartialEq, Eq)]
pub enum Next {
    /// Not the outstanding request's answer.
    Ignore,
    Send(Ask),
    End(No, Option<Page>),
}

#[derive(Clone, Debug, PartialEq, Eq)]
pub struct Operation {
    pub job: Job,
    pub layout: Option<Layout>,
    /// The position under way: an append's last token, 0 before the first.
    pub position: u64,
    /// Requests sent so far.
    pub sent: u32,
    pub wait: Wait,
}

const TOKENS: u8 = 8;

fn done() -> Next {
    Next::End(no::FINE, None)
}

/// Any other answer ends the operation with its number; one without a number that a machine gives never answers the request.
fn other(reply: &Reply) -> Next {
    match reply {
        Reply::Refused(number) if (no::MEMORY..=no::SUCCESSOR).contains(number) => Next::End(*number, None),
        _ => Next::Ignore,
    }
}

/// A page that a unit may show.
fn showable(page: &Page) -> bool {
    page.bytes().len() <= Shape::Large.payload()
}

fn pop(mut route: Route) -> Option<(u8, Route)> {
    if route.is_empty() {
        return None;
    }
    let unit = route.remove(0);
    Some((unit, route))
}

impl Operation {
    pub fn new(job: Job) -> Operation {
        let position = job.position();
        Operation { job, layout: None, position, sent: 0, wait: Wait::Layout }
    }

    /// The epoch of the layout fetched, 0 before.
    pub fn epoch(&self) -> u32 {
        self.layout.as_ref().map_or(0, |layout| layout.epoch)
    }

    /// Head to tail.
    fn chain(&self, shortcut: Option<Shortcut>) -> Route {
        let layout = self.layout.as_ref().expect("fetched");
        let mut route = layout.set_of(self.position).clone();
        if shortcut == Some(Shortcut::TailBeforeHead) {
            route.reverse();
        }
        route
    }

    fn wait_for(&mut self, wait: Wait, ask: Ask) -> Next {
        self.wait = wait;
        Next::Send(ask)
    }

    pub fn take(&mut self, reply: &Reply, shortcut: Option<Shortcut>, first_seen: Option<&Layout>) -> Next {
        match (self.wait.clone(), reply) {
            (Wait::Layout, Reply::Held(layout)) if layout.good() => {
                self.layout = Some(layout.clone());
                self.go(shortcut, first_seen)
            }
            (Wait::Layout, Reply::Held(_)) => Next::End(no::LAYOUT, None),

            (Wait::Token { nth }, Reply::Given(p)) if *p < LIMIT => {
                self.position = *p;
                self.write(nth, true, self.chain(shortcut))
            }
            (Wait::Write { nth, rest, .. }, Reply::Fine) => self.write(nth, false, rest),
            (Wait::Write { nth, first: true, .. }, Reply::Refused(no::TRIMMED | no::WRITTEN)) if nth < TOKENS => self.token(nth + 1),
            (Wait::Write { nth, first: false, rest }, Reply::Refused(no::WRITTEN)) => self.write(nth, false, rest),

            (Wait::Read, Reply::Shown(page)) if showable(page) => Next::End(no::FINE, Some(page.clone())),

            (Wait::Fill { page, rest, .. }, Reply::Fine) => self.fill(page, false, rest),
            (Wait::Fill { first: true, rest, .. }, Reply::Refused(no::WRITTEN)) if shortcut != Some(Shortcut::FillBlind) => self.look(rest, shortcut),
            (Wait::Fill { page, rest, .. }, Reply::Refused(no::WRITTEN)) => self.fill(page, false, rest),
            (Wait::Look { rest }, Reply::Shown(page)) if showable(page) => self.fill(page.clone(), false, rest),

            (Wait::Trim { rest }, Reply::Fine) => self.trim(rest),
            (Wait::Prune { rest }, Reply::Fine) => self.prune(rest),

            (Wait::Seal { plan, edges, rest }, Reply::Edges(told)) if told.edge.max(told.written) <= LIMIT => {
                let known = shortcut == Some(Shortcut::EdgeThenSeal);
                self.seal(plan, if known { edges } else { edges.largest(*told) }, rest)
            }
            (Wait::Edges { plan, edges, rest }, Reply::Edges(told)) => self.ask_edges(plan, edges.largest(*told), rest),
            (Wait::Offer { epoch, start }, Reply::Fine) => self.wait_for(Wait::Start, Ask::Start { epoch, position: start }),
            (Wait::Start, Reply::Fine) => done(),
            (Wait::Start, Reply::Refused(no::SEALED)) => Next::End(no::OVERTAKEN, None),

            _ => other(reply),
        }
    }

    /// The first request after the fetch.
    fn go(&mut self, shortcut: Option<Shortcut>, first_seen: Option<&Layout>) -> Next {
        let layout = self.layout.clone().expect("fetched");
        match self.job.clone() {
            Job::Append(_) => self.token(1),
            Job::Read(p) => {
                let tail = *layout.set_of(p).last().expect("a good set");
                self.wait_for(Wait::Read, Ask::Read { unit: tail, epoch: layout.epoch, position: p })
            }
            Job::Fill(_) => self.fill(Page::Junk, true, self.chain(shortcut)),
            Job::Trim(_) => self.trim(self.chain(None)),
            Job::Prune(_) => self.prune(layout.units().into_iter().collect()),
            Job::Reorganise(change) => match plan(&layout, &change) {
                Err(number) => Next::End(number, None),
                Ok(mut plan) => {
                    if let (Some(Shortcut::PutBack), Some(earlier)) = (shortcut, first_seen) {
                        plan.put_back(earlier, &change.drops);
                    }
                    let units = plan.units();
                    match shortcut {
                        Some(Shortcut::EdgeThenSeal) => self.ask_edges(plan, Edges::default(), units),
                        _ => self.seal(plan, Edges::default(), units),
                    }
                }
            },
        }
    }

    fn token(&mut self, nth: u8) -> Next {
        let epoch = self.epoch();
        self.wait_for(Wait::Token { nth }, Ask::Token { epoch })
    }

    /// After the tail: done at p.
    fn write(&mut self, nth: u8, first: bool, route: Route) -> Next {
        let Some((unit, rest)) = pop(route) else {
            return done();
        };
        let Job::Append(data) = &self.job else {
            return Next::Ignore;
        };
        let ask = Ask::Write { unit, epoch: self.epoch(), position: self.position, page: Page::Data(data.clone()) };
        self.wait_for(Wait::Write { nth, first, rest }, ask)
    }

    fn fill(&mut self, page: Page, first: bool, route: Route) -> Next {
        let Some((unit, rest)) = pop(route) else {
            return done();
        };
        let ask = Ask::Write { unit, epoch: self.epoch(), position: self.position, page: page.clone() };
        self.wait_for(Wait::Fill { page, first, rest }, ask)
    }

    /// Looks at the unit that was asked first.
    fn look(&mut self, rest: Route, shortcut: Option<Shortcut>) -> Next {
        let ask = Ask::Read { unit: self.chain(shortcut)[0], epoch: self.epoch(), position: self.position };
        self.wait_for(Wait::Look { rest }, ask)
    }

    fn trim(&mut self, route: Route) -> Next {
        let Some((unit, rest)) = pop(route) else {
            return done();
        };
        let ask = Ask::Trim { unit, epoch: self.epoch(), position: self.position };
        self.wait_for(Wait::Trim { rest }, ask)
    }

    fn prune(&mut self, route: Route) -> Next {
        let Some((unit, rest)) = pop(route) else {
            return done();
        };
        let ask = Ask::Prune { unit, epoch: self.epoch(), position: self.position };
        self.wait_for(Wait::Prune { rest }, ask)
    }

    /// Seals with the held epoch; when all are sealed, offers the layout.
    fn seal(&mut self, plan: Plan, edges: Edges, route: Route) -> Next {
        if let Some((unit, rest)) = pop(route) {
            let ask = Ask::Seal { unit, epoch: self.epoch() };
            return self.wait_for(Wait::Seal { plan, edges, rest }, ask);
        }
        match plan.with_edges(edges) {
            Err(number) => Next::End(number, None),
            Ok((layout, start)) => self.wait_for(Wait::Offer { epoch: layout.epoch, start }, Ask::Offer { layout }),
        }
    }

    fn ask_edges(&mut self, plan: Plan, edges: Edges, route: Route) -> Next {
        match pop(route) {
            Some((unit, rest)) => self.wait_for(Wait::Edges { plan, edges, rest }, Ask::EdgesOnly { unit }),
            None => {
                let units = plan.units();
                self.seal(plan, edges, units)
            }
        }
    }
}
