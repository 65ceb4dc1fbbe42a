//! The short words of a picture: what a letter says, what an operation asks for, how it ended.

use crate::book::hex;
use crate::client::{Job, Outcome};
use crate::layout::Layout;
use crate::letter::{Ask, Reply};
use crate::no::{self, No};
use crate::unit::{Edges, Page};

/// As many letters as a label has room for.
const ROOM: usize = 22;

/// A number with its name.
pub fn number(number: No) -> String {
    let name = match number {
        no::FINE => "fine",
        no::MEMORY => "memory",
        no::POSITION => "position",
        no::PAGE => "page",
        no::SEALED => "sealed",
        no::TRIMMED => "trimmed",
        no::WRITTEN => "written",
        no::UNWRITTEN => "unwritten",
        no::FULL => "full",
        no::SPENT => "spent",
        no::LAYOUT => "layout",
        no::OVERTAKEN => "overtaken",
        no::SUCCESSOR => "successor",
        no::SET_LOST => "set lost",
        no::LAYOUT_FULL => "layout full",
        no::EPOCHS_SPENT => "epochs spent",
        no::BAG_FULL => "bag full",
        no::NOBODY => "nobody",
        no::BUSY => "busy",
        no::NUMBERS_SPENT => "numbers spent",
        no::UNKNOWN => "unknown",
        _ => "",
    };
    format!("{number} {name}")
}

fn short(text: String) -> String {
    if text.chars().count() <= ROOM {
        return text;
    }
    text.chars().take(ROOM - 2).collect::<String>() + ".."
}

fn list(units: &[u8]) -> String {
    units.iter().map(u8::to_string).collect::<Vec<_>>().join(",")
}

pub fn page(page: &Page) -> String {
    match page {
        Page::Data(bytes) => short(format!("data {}", hex(bytes))),
        Page::Junk => "junk".into(),
    }
}

pub fn ask(ask: &Ask) -> String {
    match ask {
        Ask::Fetch => "fetch".into(),
        Ask::Token { .. } => "token".into(),
        Ask::Write { position, page: Page::Junk, .. } => format!("write {position}: junk"),
        Ask::Write { position, .. } => format!("write {position}"),
        Ask::Read { position, .. } => format!("read {position}"),
        Ask::Trim { position, .. } => format!("trim {position}"),
        Ask::Prune { position, .. } => format!("prune {position}"),
        Ask::Seal { epoch, .. } => format!("seal {epoch}"),
        Ask::Offer { layout } => format!("offer {}", layout.epoch),
        Ask::Start { epoch, position } => format!("start {epoch} at {position}"),
        Ask::EdgesOnly { .. } => "edges".into(),
    }
}

pub fn reply(reply: &Reply) -> String {
    match reply {
        Reply::Held(layout) => format!("layout {}", layout.epoch),
        Reply::Given(position) => format!("token {position}"),
        Reply::Fine => "fine".into(),
        Reply::Shown(shown) => page(shown),
        Reply::Edges(Edges { edge, written }) if edge == written => format!("edge {edge}"),
        Reply::Edges(Edges { edge, written }) => short(format!("edge {edge}, written {written}")),
        Reply::Refused(refused) => number(*refused),
    }
}

pub fn job(job: &Job) -> String {
    short(match job {
        Job::Append(data) => format!("append {}", hex(data)),
        Job::Read(p) => format!("read {p}"),
        Job::Fill(p) => format!("fill {p}"),
        Job::Trim(p) => format!("trim {p}"),
        Job::Prune(p) => format!("prune {p}"),
        Job::Reorganise(change) => {
            let drops = if change.drops.is_empty() { String::new() } else { format!(" drop {}", list(&change.drops)) };
            let sets: String = change.sets.iter().map(|set| format!(" +{{{}}}", list(set))).collect();
            format!("reorganise{drops}{sets}")
        }
    })
}

/// What stands on the flag of an operation that ended.
pub fn outcome(job: &Job, outcome: &Outcome) -> String {
    match (outcome.number, &outcome.page, job) {
        (no::FINE, Some(shown), _) => page(shown),
        (no::FINE, None, Job::Append(_)) => format!("done at {}", outcome.position),
        (no::FINE, None, _) => "done".into(),
        (refused, _, _) => number(refused),
    }
}

/// Which units keep which positions.
pub fn layout(layout: &Layout) -> String {
    let mut sets = layout.sets.iter();
    let ranges = layout.ranges.iter().map(|range| {
        let used: String = sets.by_ref().take(range.uses.into()).map(|set| format!("{{{}}} ", list(set))).collect();
        format!("{used}from {}", range.start)
    });
    format!("epoch {}: {}", layout.epoch, ranges.collect::<Vec<_>>().join(", "))
}
