//! A play: the layout of a fresh yard and the steps taken from there, as the bytes of a file (docs/PLAY.md).

use crate::bytes::Reader;
use crate::client::Job;
use crate::layout::{Layout, Set, SETS, SET_UNITS};
use crate::layout_bytes;
use crate::plan::{Change, DROPS};
use crate::yard::{Step, Yard};

#[derive(Clone, Debug, PartialEq, Eq)]
pub struct Play {
    pub layout: Layout,
    pub steps: Vec<Step>,
}

/// The longest file.
pub const BYTES: usize = 65_536;

const APPEND: u8 = 1;
const READ: u8 = 2;
const FILL: u8 = 3;
const TRIM: u8 = 4;
const PRUNE: u8 = 5;
const REORGANISE: u8 = 6;
const DELIVER: u8 = 7;
const DROP: u8 = 8;
const STOP: u8 = 9;
const RESTART: u8 = 10;
const GIVE_UP: u8 = 11;
const FORGET: u8 = 12;

/// 1 or 0, and no other byte.
fn flag(reader: &mut Reader) -> Option<bool> {
    match reader.byte()? {
        0 => Some(false),
        1 => Some(true),
        _ => None,
    }
}

/// A count and so many units, where there is room for them.
fn units(reader: &mut Reader, room: usize) -> Option<Set> {
    reader.counted().filter(|units| units.len() <= room)
}

fn change(reader: &mut Reader) -> Option<Change> {
    let drops = units(reader, DROPS)?;
    let count = reader.byte()?;
    if usize::from(count) > SETS {
        return None;
    }
    let sets = (0..count).map(|_| units(reader, SET_UNITS)).collect::<Option<Vec<_>>>()?;
    Some(Change { drops, sets })
}

fn job(tag: u8, reader: &mut Reader) -> Option<Job> {
    match tag {
        APPEND => Some(Job::Append(reader.counted()?)),
        READ => Some(Job::Read(reader.number(8)?)),
        FILL => Some(Job::Fill(reader.number(8)?)),
        TRIM => Some(Job::Trim(reader.number(8)?)),
        PRUNE => Some(Job::Prune(reader.number(8)?)),
        REORGANISE => Some(Job::Reorganise(change(reader)?)),
        _ => None,
    }
}

fn step(reader: &mut Reader) -> Option<Step> {
    match reader.byte()? {
        tag @ APPEND..=REORGANISE => Some(Step::Begin(reader.byte()?, job(tag, reader)?)),
        DELIVER => {
            Some(Step::Deliver { place: reader.byte()?.into(), keep: flag(reader)?, keep_answer: flag(reader)? })
        }
        DROP => Some(Step::Drop(reader.byte()?.into())),
        STOP => Some(Step::Stop(reader.byte()?)),
        RESTART => Some(Step::Restart(reader.byte()?)),
        GIVE_UP => Some(Step::GiveUp(reader.byte()?)),
        FORGET => Some(Step::Forget),
        _ => None,
    }
}

/// A count and so many units; none where a step has no room for them.
fn counted(units: &[u8], room: usize) -> Option<Vec<u8>> {
    let mut bytes = vec![u8::try_from(units.len()).ok().filter(|count| usize::from(*count) <= room)?];
    bytes.extend(units);
    Some(bytes)
}

fn change_bytes(change: &Change) -> Option<Vec<u8>> {
    let mut bytes = counted(&change.drops, DROPS)?;
    bytes.push(u8::try_from(change.sets.len()).ok().filter(|count| usize::from(*count) <= SETS)?);
    for set in &change.sets {
        bytes.extend(counted(set, SET_UNITS)?);
    }
    Some(bytes)
}

/// The tag of what is begun, and its fields behind the client.
fn job_bytes(job: &Job) -> Option<(u8, Vec<u8>)> {
    Some(match job {
        Job::Append(data) => (APPEND, counted(data, usize::from(u8::MAX))?),
        Job::Read(p) => (READ, p.to_le_bytes().to_vec()),
        Job::Fill(p) => (FILL, p.to_le_bytes().to_vec()),
        Job::Trim(p) => (TRIM, p.to_le_bytes().to_vec()),
        Job::Prune(p) => (PRUNE, p.to_le_bytes().to_vec()),
        Job::Reorganise(change) => (REORGANISE, change_bytes(change)?),
    })
}

/// The bytes of a step; none where it has a number that no byte holds, or more units than there is room for.
pub fn step_bytes(step: &Step) -> Option<Vec<u8>> {
    let place = |place: &usize| u8::try_from(*place).ok();
    Some(match step {
        Step::Begin(client, job) => {
            let (tag, fields) = job_bytes(job)?;
            [vec![tag, *client], fields].concat()
        }
        Step::Deliver { place: at, keep, keep_answer } => {
            vec![DELIVER, place(at)?, (*keep).into(), (*keep_answer).into()]
        }
        Step::Drop(at) => vec![DROP, place(at)?],
        Step::Stop(unit) => vec![STOP, *unit],
        Step::Restart(client) => vec![RESTART, *client],
        Step::GiveUp(client) => vec![GIVE_UP, *client],
        Step::Forget => vec![FORGET],
    })
}

impl Play {
    /// The play that a file is; none (22) where it does not read, starts no fresh yard or is too long.
    pub fn read(file: &[u8]) -> Option<Play> {
        if file.len() > BYTES {
            return None;
        }
        let mut reader = Reader { left: file };
        let length = reader.number(2)? as usize;
        let layout = layout_bytes::decode(reader.bytes(length)?)?;
        let count = reader.number(4)?;
        let steps = (0..count).map(|_| step(&mut reader)).collect::<Option<Vec<_>>>()?;
        let fresh = Yard::fresh(layout.clone()).is_ok();
        (fresh && reader.left.is_empty()).then_some(Play { layout, steps })
    }

    /// The file's bytes; none where a step has none, or they are too many.
    pub fn write(&self) -> Option<Vec<u8>> {
        let layout = layout_bytes::encode(&self.layout);
        let mut file = u16::try_from(layout.len()).ok()?.to_le_bytes().to_vec();
        file.extend(layout);
        file.extend(u32::try_from(self.steps.len()).ok()?.to_le_bytes());
        for step in &self.steps {
            file.extend(step_bytes(step)?);
        }
        (file.len() <= BYTES).then_some(file)
    }
}
