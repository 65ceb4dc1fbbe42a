//! A unit as a station's own program calls it: with numbers and byte slices, over the memory that it lends.

use crate::memory::{decode, encode, fresh, payload_at};
use crate::no::{self, No};
use crate::unit::{Edges, Unit};

/// A call, with the numbers and bytes as C passes them.
#[derive(Clone, PartialEq, Eq, Debug)]
pub enum Call {
    Fresh { number: u32, shape: u8 },
    Write { epoch: u32, position: u64, kind: u8, data: Vec<u8> },
    Read { epoch: u32, position: u64 },
    Trim { epoch: u32, position: u64 },
    Prune { epoch: u32, position: u64 },
    Seal { epoch: u32 },
    Edges,
}

impl Call {
    /// A name for the kind of call, for tallies.
    pub fn name(&self) -> &'static str {
        match self {
            Call::Fresh { .. } => "fresh",
            Call::Write { .. } => "write",
            Call::Read { .. } => "read",
            Call::Trim { .. } => "trim",
            Call::Prune { .. } => "prune",
            Call::Seal { .. } => "seal",
            Call::Edges => "edges",
        }
    }
}

/// What a call may give besides its number. A call that gives none, or is refused, leaves them as they are.
#[derive(Clone, Copy, PartialEq, Eq, Debug)]
pub struct Outputs {
    pub kind: u8,
    /// Where the payload stands in the unit's own memory: it is a part of that and not a copy.
    pub start: u64,
    pub length: u64,
    pub edge: u64,
    pub written: u64,
}

impl Outputs {
    /// Something that no call gives.
    pub const UNTOUCHED: Outputs =
        Outputs { kind: 0xEE, start: 0xDEAD_0001, length: 0xDEAD_0002, edge: u64::MAX, written: u64::MAX - 1 };

    fn tell(&mut self, edges: Edges) {
        (self.edge, self.written) = (edges.edge, edges.written);
    }
}

/// All that a caller can see after a call.
#[derive(Clone, PartialEq, Eq, Debug)]
pub struct After {
    pub answer: No,
    pub outputs: Outputs,
    pub memory: Vec<u8>,
}

/// A way to make a call on a memory, with outputs that hold something already.
pub type Side = fn(&[u8], &Call, Outputs) -> After;

/// What is seen after a call, by the rules of docs/RULES.md.
pub fn after(memory: &[u8], call: &Call, outputs: Outputs) -> After {
    match accepted(memory, call, outputs) {
        Ok((unit, outputs)) => After { answer: no::FINE, outputs, memory: encode(&unit) },
        Err(answer) => After { answer, outputs, memory: memory.to_vec() },
    }
}

fn accepted(memory: &[u8], call: &Call, mut outputs: Outputs) -> Result<(Unit, Outputs), No> {
    let mut unit = match *call {
        // whatever the bytes were
        Call::Fresh { number, shape } => fresh(memory.len(), number, shape)?,
        _ => decode(memory).ok_or(no::MEMORY)?,
    };
    match *call {
        Call::Fresh { .. } => {}
        Call::Write { epoch, position, kind, ref data } => unit.write(epoch, position, kind, data)?,
        Call::Read { epoch, position } => {
            let page = unit.read(epoch, position)?;
            (outputs.kind, outputs.length) = (page.kind(), page.bytes().len() as u64);
            outputs.start = payload_at(&unit, position) as u64;
        }
        Call::Trim { epoch, position } => unit.trim(epoch, position)?,
        Call::Prune { epoch, position } => unit.prune(epoch, position)?,
        Call::Seal { epoch } => outputs.tell(unit.seal(epoch)?),
        Call::Edges => outputs.tell(unit.edges()),
    }
    Ok((unit, outputs))
}
