//! One call, to be made on any side.

use crate::side::Side;
use reading::unit_call::{self, Outputs};
use std::hint::black_box;

#[derive(Clone, Debug)]
pub enum Call {
    Write {
        epoch: u32,
        position: u64,
        kind: u8,
        data: Vec<u8>,
    },
    /// Of these positions, one after the other and over again.
    Read {
        epoch: u32,
        positions: Vec<u64>,
    },
    Trim {
        epoch: u32,
        position: u64,
    },
    Prune {
        epoch: u32,
        position: u64,
    },
    Seal {
        epoch: u32,
    },
    Edges,
}

/// What a call gives: its answer, and the outputs after it.
#[derive(Clone, Copy, PartialEq, Eq, Debug)]
pub struct Seen {
    pub answer: u8,
    pub outputs: Outputs,
}

/// Before a call: what no call gives.
pub const UNSEEN: Seen = Seen { answer: 255, outputs: Outputs::UNTOUCHED };

/// A call on one side, to be made on a memory as often as wanted.
pub type Made<'a> = Box<dyn FnMut(&mut [u8]) -> Seen + 'a>;

impl Call {
    /// The same call as the reading has it; of several reads the first.
    pub fn read(&self) -> unit_call::Call {
        match *self {
            Call::Write { epoch, position, kind, ref data } => {
                unit_call::Call::Write { epoch, position, kind, data: data.clone() }
            }
            Call::Read { epoch, ref positions } => unit_call::Call::Read { epoch, position: positions[0] },
            Call::Trim { epoch, position } => unit_call::Call::Trim { epoch, position },
            Call::Prune { epoch, position } => unit_call::Call::Prune { epoch, position },
            Call::Seal { epoch } => unit_call::Call::Seal { epoch },
            Call::Edges => unit_call::Call::Edges,
        }
    }

    /// The call on one side, for whatever memory; the compiler knows none of its numbers.
    pub fn on<'a>(&'a self, side: &'a Side) -> Made<'a> {
        match *self {
            Call::Write { epoch, position, kind, ref data } => Box::new(move |mem| {
                let answer = (side.write)(mem, epoch, black_box(position), kind, black_box(data));
                Seen { answer, ..UNSEEN }
            }),
            Call::Read { epoch, ref positions } => {
                let mut next = positions.iter().cycle();
                Box::new(move |mem| {
                    let mut outputs = Outputs::UNTOUCHED;
                    let Outputs { kind, start, length, .. } = &mut outputs;
                    let position = *next.next().expect("a position to read");
                    let answer = (side.read)(mem, epoch, black_box(position), kind, start, length);
                    Seen { answer, outputs }
                })
            }
            Call::Trim { epoch, position } => Box::new(move |mem| {
                let answer = (side.trim)(mem, epoch, black_box(position));
                Seen { answer, ..UNSEEN }
            }),
            Call::Prune { epoch, position } => Box::new(move |mem| {
                let answer = (side.prune)(mem, epoch, black_box(position));
                Seen { answer, ..UNSEEN }
            }),
            Call::Seal { epoch } => Box::new(move |mem| {
                let mut outputs = Outputs::UNTOUCHED;
                let Outputs { edge, written, .. } = &mut outputs;
                let answer = (side.seal)(mem, black_box(epoch), edge, written);
                Seen { answer, outputs }
            }),
            Call::Edges => Box::new(move |mem| {
                let mut outputs = Outputs::UNTOUCHED;
                let Outputs { edge, written, .. } = &mut outputs;
                let answer = (side.edges)(mem, edge, written);
                Seen { answer, outputs }
            }),
        }
    }
}
