//! What the play book shows: a line for each step of a play, run from its fresh yard.

use crate::client::{Job, Outcome};
use crate::no;
use crate::play::Play;
use crate::yard::{Ended, Step, Yard};

/// Two digits a byte; `-` for no bytes.
pub fn hex(bytes: &[u8]) -> String {
    if bytes.is_empty() {
        return "-".into();
    }
    bytes.iter().map(|byte| format!("{byte:02x}")).collect()
}

fn outcome(ended: &Ended) -> String {
    let Outcome { number, position, epoch, page, sent } = &ended.outcome;
    let (kind, bytes) = page.as_ref().map_or((0, &[][..]), |page| (page.kind(), page.bytes()));
    let sent = match ended.job {
        Job::Append(_) => format!(" sent {sent}"),
        _ => String::new(),
    };
    format!(" : {} {number} {position} {epoch} {kind} {}{sent}", ended.client, hex(bytes))
}

/// NUMBER ANSWER, and the outcome where an operation ended.
fn line(number: usize, answer: no::No, ended: Option<&Ended>) -> String {
    let end = ended.map_or(String::new(), outcome);
    format!("{number} {answer}{end}\n")
}

/// The numbers in a line: the step's answer, and the outcome's where an operation ended.
pub fn numbers(line: &str) -> impl Iterator<Item = no::No> + '_ {
    let word = |i: usize| line.split(' ').nth(i).and_then(|word| word.trim().parse().ok());
    word(1).into_iter().chain(word(4))
}

/// The lines of steps, numbered from 1, in a yard as `take` steps it.
pub fn lines(steps: &[Step], mut take: impl FnMut(&Step) -> (no::No, Option<Ended>)) -> Vec<String> {
    let numbered = steps.iter().enumerate();
    numbered.map(|(i, step)| (i, take(step))).map(|(i, (answer, ended))| line(i + 1, answer, ended.as_ref())).collect()
}

/// The lines of a file: the one line 22 where it is no play.
pub fn text(file: &[u8]) -> Vec<String> {
    let refused = || vec![format!("{}\n", no::PLAY)];
    let Some(Play { layout, steps }) = Play::read(file) else {
        return refused();
    };
    match Yard::fresh(layout) {
        Ok(mut yard) => lines(&steps, |step| yard.step(step)),
        Err(_) => refused(),
    }
}
