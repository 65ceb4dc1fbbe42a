//! The sides: the proved unit through its C entries, and the Rust versions.

use crate::plain::Plain;
use crate::tuned::Tuned;
use crate::unit::{shape, Version, LARGE, SMALL};
use crate::whole::Whole;
use crate::{library, unit};

/// The calls of one side.
pub struct Side {
    pub name: &'static str,
    pub write: fn(&mut [u8], u32, u64, u8, &[u8]) -> u8,
    pub read: fn(&[u8], u32, u64, &mut u8, &mut u64, &mut u64) -> u8,
    pub trim: fn(&mut [u8], u32, u64) -> u8,
    pub prune: fn(&mut [u8], u32, u64) -> u8,
    pub seal: fn(&mut [u8], u32, &mut u64, &mut u64) -> u8,
    pub edges: fn(&[u8], &mut u64, &mut u64) -> u8,
}

const OURS: Side = Side {
    name: "ours",
    write: library::write,
    read: library::read,
    trim: library::trim,
    prune: library::prune,
    seal: library::seal,
    edges: library::edges,
};

/// Whether a memory says that it is a large unit's.
fn large(mem: &[u8]) -> bool {
    mem.get(1) == Some(&shape(LARGE))
}

/// A Rust version for either shape: the memory itself names it.
struct Either<V>(std::marker::PhantomData<V>);

impl<V: Version<SMALL> + Version<LARGE>> Either<V> {
    fn write(mem: &mut [u8], epoch: u32, position: u64, kind: u8, data: &[u8]) -> u8 {
        let write = if large(mem) { unit::write::<V, LARGE> } else { unit::write::<V, SMALL> };
        write(mem, epoch, position, kind, data)
    }

    fn read(mem: &[u8], epoch: u32, position: u64, kind: &mut u8, start: &mut u64, length: &mut u64) -> u8 {
        let read = if large(mem) { unit::read::<V, LARGE> } else { unit::read::<V, SMALL> };
        read(mem, epoch, position, kind, start, length)
    }

    fn trim(mem: &mut [u8], epoch: u32, position: u64) -> u8 {
        let trim = if large(mem) { unit::trim::<V, LARGE> } else { unit::trim::<V, SMALL> };
        trim(mem, epoch, position)
    }

    fn prune(mem: &mut [u8], epoch: u32, position: u64) -> u8 {
        let prune = if large(mem) { unit::prune::<V, LARGE> } else { unit::prune::<V, SMALL> };
        prune(mem, epoch, position)
    }

    fn seal(mem: &mut [u8], epoch: u32, edge: &mut u64, written: &mut u64) -> u8 {
        let seal = if large(mem) { unit::seal::<V, LARGE> } else { unit::seal::<V, SMALL> };
        seal(mem, epoch, edge, written)
    }

    fn edges(mem: &[u8], edge: &mut u64, written: &mut u64) -> u8 {
        let edges = if large(mem) { unit::edges::<V, LARGE> } else { unit::edges::<V, SMALL> };
        edges(mem, edge, written)
    }

    const fn side(name: &'static str) -> Side {
        let (write, read, trim, prune) = (Either::<V>::write, Either::<V>::read, Either::<V>::trim, Either::<V>::prune);
        Side { name, write, read, trim, prune, seal: Either::<V>::seal, edges: Either::<V>::edges }
    }
}

/// How many sides there are.
pub const SIDES: usize = 4;

/// All sides, ours first.
pub const fn sides() -> [Side; SIDES] {
    [OURS, Either::<Plain>::side("plain"), Either::<Whole>::side("whole"), Either::<Tuned>::side("tuned")]
}
