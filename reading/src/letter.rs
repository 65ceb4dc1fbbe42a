//! Letters: requests and answers.

use crate::layout::Layout;
use crate::no::No;
use crate::unit::{Edges, Page};

/// A request bears client, life and number, and so does its answer.
#[derive(Clone, Copy, Debug, PartialEq, Eq)]
pub struct Stamp {
    pub client: u8,
    pub life: u16,
    pub number: u32,
}

#[derive(Clone, Debug, PartialEq, Eq)]
pub enum Ask {
    Fetch,
    Token {
        epoch: u32,
    },
    Write {
        unit: u8,
        epoch: u32,
        position: u64,
        page: Page,
    },
    Read {
        unit: u8,
        epoch: u32,
        position: u64,
    },
    Trim {
        unit: u8,
        epoch: u32,
        position: u64,
    },
    Prune {
        unit: u8,
        epoch: u32,
        position: u64,
    },
    Seal {
        unit: u8,
        epoch: u32,
    },
    Offer {
        layout: Layout,
    },
    Start {
        epoch: u32,
        position: u64,
    },
    /// No request of the rules: only a shortcut sends it.
    EdgesOnly {
        unit: u8,
    },
}

impl Ask {
    /// The unit it goes to, if it goes to one.
    pub fn unit(&self) -> Option<u8> {
        match self {
            Ask::Write { unit, .. }
            | Ask::Read { unit, .. }
            | Ask::Trim { unit, .. }
            | Ask::Prune { unit, .. }
            | Ask::Seal { unit, .. }
            | Ask::EdgesOnly { unit } => Some(*unit),
            Ask::Fetch | Ask::Token { .. } | Ask::Offer { .. } | Ask::Start { .. } => None,
        }
    }

    /// The epoch it bears, if it bears one.
    pub fn epoch(&self) -> Option<u32> {
        match self {
            Ask::Token { epoch }
            | Ask::Write { epoch, .. }
            | Ask::Read { epoch, .. }
            | Ask::Trim { epoch, .. }
            | Ask::Prune { epoch, .. }
            | Ask::Seal { epoch, .. }
            | Ask::Start { epoch, .. } => Some(*epoch),
            Ask::Fetch | Ask::Offer { .. } | Ask::EdgesOnly { .. } => None,
        }
    }
}

#[derive(Clone, Debug, PartialEq, Eq)]
pub enum Reply {
    Held(Layout),
    Given(u64),
    Fine,
    Shown(Page),
    Edges(Edges),
    Refused(No),
}

/// What an onlooker wrote on an answer when its request reached the machine. No machine sees it.
#[derive(Clone, Copy, Debug, PartialEq, Eq)]
pub struct Note {
    /// The yard's clock at the delivery.
    pub when: u64,
    /// The request's epoch was the holder's then.
    pub in_force: bool,
}

#[derive(Clone, Debug, PartialEq, Eq)]
pub enum Body {
    Asks(Ask),
    Answers(Reply, Note),
}

#[derive(Clone, Debug, PartialEq, Eq)]
pub struct Letter {
    pub stamp: Stamp,
    pub body: Body,
}
