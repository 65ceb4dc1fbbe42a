//! A call made on the proved library.

use crate::fence::lent;
use crate::library::{edges, fresh, prune, read, seal, trim, write};
use reading::unit_call::{After, Call, Outputs};

/// What is seen after a call, by the library.
pub fn after(memory: &[u8], call: &Call, mut outputs: Outputs) -> After {
    let (answer, memory) = lent(memory, call, |mem| match *call {
        Call::Fresh { number, shape } => fresh(mem, number, shape),
        Call::Write { epoch, position, kind, ref data } => write(mem, epoch, position, kind, data),
        Call::Read { epoch, position } => {
            read(mem, epoch, position, &mut outputs.kind, &mut outputs.start, &mut outputs.length)
        }
        Call::Trim { epoch, position } => trim(mem, epoch, position),
        Call::Prune { epoch, position } => prune(mem, epoch, position),
        Call::Seal { epoch } => seal(mem, epoch, &mut outputs.edge, &mut outputs.written),
        Call::Edges => edges(mem, &mut outputs.edge, &mut outputs.written),
    });
    After { answer, outputs, memory }
}
