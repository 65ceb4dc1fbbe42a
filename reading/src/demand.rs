//! Demand 3, watched at run time: what a reader may believe, checked against all that was asked and reported so far.

use crate::client::Job;
use crate::letter::Note;
use crate::no;
use crate::unit::Page;
use crate::yard::{Ended, Step};
use std::collections::{BTreeMap, BTreeSet};

#[derive(Clone, Default)]
pub struct History {
    /// Data that some append was asked to store.
    appended: BTreeSet<Vec<u8>>,
    /// Positions that somebody asked to fill, or to trim.
    filled: BTreeSet<u64>,
    trimmed: BTreeSet<u64>,
    /// The highest prune asked for.
    pruned: u64,
    /// The page that reads of a position returned.
    read: BTreeMap<u64, Page>,
    /// Pages whose append was reported done, and when.
    done: BTreeMap<u64, Vec<(Page, u64)>>,
}

impl History {
    /// To be told of each step in turn. An error says what a reader was misled by.
    pub fn note(&mut self, clock: u64, step: &Step, answer: u8, ended: Option<&Ended>) -> Result<(), String> {
        if let (Step::Begin(_, job), no::FINE) = (step, answer) {
            self.asked(job);
        }
        match ended {
            Some(ended) => self.ended(clock, ended),
            None => Ok(()),
        }
    }

    fn asked(&mut self, job: &Job) {
        match job {
            Job::Append(data) => {
                self.appended.insert(data.clone());
            }
            Job::Fill(p) => {
                self.filled.insert(*p);
            }
            Job::Trim(p) => {
                self.trimmed.insert(*p);
            }
            Job::Prune(p) => self.pruned = self.pruned.max(*p),
            Job::Read(_) | Job::Reorganise(_) => {}
        }
    }

    fn ended(&mut self, clock: u64, ended: &Ended) -> Result<(), String> {
        let outcome = &ended.outcome;
        match (&ended.job, outcome.number, &outcome.page) {
            (Job::Append(data), no::FINE, _) => {
                self.done.entry(outcome.position).or_default().push((Page::Data(data.clone()), clock));
                Ok(())
            }
            (Job::Read(p), number, page) => match ended.note {
                Some(note) => self.read(*p, number, page.as_ref(), note),
                None => Ok(()),
            },
            _ => Ok(()),
        }
    }

    /// A read's outcome, and what was noted when it reached its unit.
    pub fn read(&mut self, p: u64, number: u8, page: Option<&Page>, note: Note) -> Result<(), String> {
        if let Some(page) = page {
            self.same_page(p, page)?;
            self.was_asked(p, page)?;
        }
        self.after_done(p, number, page, note)
    }

    /// All reads of one position that return a page return the same page.
    fn same_page(&mut self, p: u64, page: &Page) -> Result<(), String> {
        let first = self.read.entry(p).or_insert_with(|| page.clone());
        if first == page {
            return Ok(());
        }
        Err(format!("reads of {p} returned {first:?} and {page:?}"))
    }

    /// It is one that somebody asked for.
    fn was_asked(&self, p: u64, page: &Page) -> Result<(), String> {
        let asked = match page {
            Page::Data(data) => self.appended.contains(data),
            Page::Junk => self.filled.contains(&p),
        };
        if asked {
            return Ok(());
        }
        Err(format!("a read of {p} returned {page:?}, which nobody asked for"))
    }

    /// A trim of p, or a prune above p, was asked for.
    pub fn cut_asked(&self, p: u64) -> bool {
        self.trimmed.contains(&p) || p < self.pruned
    }

    /// After an append was reported done at p, a read under the layout in force is answered that page, or trimmed if that was asked for.
    fn after_done(&self, p: u64, number: u8, page: Option<&Page>, note: Note) -> Result<(), String> {
        for (stored, _) in self.done_at(p).iter().filter(|(_, done)| note.in_force && *done < note.when) {
            self.expected(p, stored, number, page)?;
        }
        Ok(())
    }

    /// What a read of p may be answered where `stored` was appended; to be turned away as sealed says nothing.
    pub fn expected(&self, p: u64, stored: &Page, number: u8, page: Option<&Page>) -> Result<(), String> {
        let right = match number {
            no::FINE => page == Some(stored),
            no::TRIMMED => self.cut_asked(p),
            no::UNWRITTEN => false,
            _ => true,
        };
        if right {
            return Ok(());
        }
        Err(format!("{stored:?} was appended at {p}, and a read was answered {number} {page:?}"))
    }

    /// The pages reported done at p, and when.
    pub fn done_at(&self, p: u64) -> &[(Page, u64)] {
        self.done.get(&p).map_or(&[], Vec::as_slice)
    }

    /// All positions at which an append was reported done.
    pub fn done_positions(&self) -> Vec<u64> {
        self.done.keys().copied().collect()
    }
}
