//! What a unit does. Positions that hold something are a map; the memory's bytes are in `memory`.

use crate::no::{self, unless, No, LIMIT};
use crate::shape::Shape;
use std::collections::BTreeMap;

/// What somebody asked to be stored.
#[derive(Clone, Debug, PartialEq, Eq, PartialOrd, Ord)]
pub enum Page {
    Data(Vec<u8>),
    Junk,
}

impl Page {
    pub fn kind(&self) -> u8 {
        match self {
            Page::Data(_) => 1,
            Page::Junk => 2,
        }
    }

    pub fn bytes(&self) -> &[u8] {
        match self {
            Page::Data(bytes) => bytes,
            Page::Junk => &[],
        }
    }

    /// Kind 1 with at most as many bytes as the shape's payload, or kind 2 with none.
    pub fn of(kind: u8, bytes: &[u8], shape: Shape) -> Option<Page> {
        match (kind, bytes.len()) {
            (1, length) if length <= shape.payload() => Some(Page::Data(bytes.to_vec())),
            (2, 0) => Some(Page::Junk),
            _ => None,
        }
    }
}

#[derive(Clone, Debug, PartialEq, Eq)]
pub enum Cell {
    Holds(Page),
    Trimmed,
    /// Trimmed without having been written.
    Stray,
}

impl Cell {
    pub const JUNK: Cell = Cell::Holds(Page::Junk);

    pub fn data(bytes: &[u8]) -> Cell {
        Cell::Holds(Page::Data(bytes.to_vec()))
    }
}

/// The two numbers that an edge request answers, and a seal.
#[derive(Clone, Copy, Debug, Default, PartialEq, Eq)]
pub struct Edges {
    /// It bounds the start of a new range.
    pub edge: u64,
    /// The sequencer restarts there without one.
    pub written: u64,
}

impl Edges {
    /// The larger of each.
    pub fn largest(self, other: Edges) -> Edges {
        Edges { edge: self.edge.max(other.edge), written: self.written.max(other.written) }
    }
}

#[derive(Clone, Debug, PartialEq, Eq)]
pub struct Unit {
    pub number: u8,
    pub shape: Shape,
    pub sealed: u32,
    pub floor: u64,
    pub cells: BTreeMap<u64, Cell>,
}

impl Unit {
    pub fn fresh(number: u8, shape: Shape) -> Unit {
        Unit { number, shape, sealed: 0, floor: 0, cells: BTreeMap::new() }
    }

    /// The larger of the floor and the last used position plus 1.
    pub fn edge(&self) -> u64 {
        let past_last = self.cells.keys().next_back().map_or(0, |last| last + 1);
        past_last.max(self.floor)
    }

    /// The same, counting what was written: slots of kinds 1 to 3.
    pub fn written_edge(&self) -> u64 {
        let written = self.cells.iter().filter(|(_, cell)| **cell != Cell::Stray);
        let past_last = written.map(|(position, _)| position + 1).max().unwrap_or(0);
        past_last.max(self.floor)
    }

    /// The edge request: it bears no epoch, and a unit that works tells both.
    pub fn edges(&self) -> Edges {
        Edges { edge: self.edge(), written: self.written_edge() }
    }

    pub fn is_trimmed(&self, p: u64) -> bool {
        p < self.floor || matches!(self.cells.get(&p), Some(Cell::Trimmed | Cell::Stray))
    }

    /// The position is one, and the epoch is above the sealed one.
    fn admits(&self, epoch: u32, p: u64) -> Result<(), No> {
        unless(p >= LIMIT, no::POSITION)?;
        unless(epoch <= self.sealed, no::SEALED)
    }

    fn take_slot(&mut self, p: u64, cell: Cell) -> Result<(), No> {
        unless(self.cells.len() >= self.shape.slots(), no::FULL)?;
        self.cells.insert(p, cell);
        Ok(())
    }

    pub fn write(&mut self, epoch: u32, p: u64, kind: u8, bytes: &[u8]) -> Result<(), No> {
        unless(p >= LIMIT, no::POSITION)?;
        let page = Page::of(kind, bytes, self.shape).ok_or(no::PAGE)?;
        self.admits(epoch, p)?;
        unless(self.is_trimmed(p), no::TRIMMED)?;
        unless(self.cells.contains_key(&p), no::WRITTEN)?;
        self.take_slot(p, Cell::Holds(page))
    }

    pub fn read(&self, epoch: u32, p: u64) -> Result<&Page, No> {
        self.admits(epoch, p)?;
        unless(self.is_trimmed(p), no::TRIMMED)?;
        match self.cells.get(&p) {
            Some(Cell::Holds(page)) => Ok(page),
            Some(Cell::Trimmed | Cell::Stray) => Err(no::TRIMMED),
            None => Err(no::UNWRITTEN),
        }
    }

    pub fn trim(&mut self, epoch: u32, p: u64) -> Result<(), No> {
        self.admits(epoch, p)?;
        if self.is_trimmed(p) {
            return Ok(());
        }
        match self.cells.get_mut(&p) {
            Some(cell) => {
                *cell = Cell::Trimmed;
                Ok(())
            }
            None => self.take_slot(p, Cell::Stray),
        }
    }

    pub fn prune(&mut self, epoch: u32, p: u64) -> Result<(), No> {
        unless(p > LIMIT, no::POSITION)?;
        unless(epoch <= self.sealed, no::SEALED)?;
        if p > self.floor {
            self.floor = p;
            self.cells = self.cells.split_off(&p);
        }
        Ok(())
    }

    pub fn seal(&mut self, n: u32) -> Result<Edges, No> {
        unless(n < self.sealed, no::SEALED)?;
        self.sealed = n;
        Ok(self.edges())
    }
}
