//! The words of a play, read: the layout's line, then a line for each step. What follows a `#` is a comment, and a line may be
//! empty. A number in front of a step has it taken so many times.

use crate::client::Job;
use crate::layout::{Layout, Range, Set};
use crate::plan::Change;
use crate::play::{self, step_bytes, Play};
use crate::shape::Shape;
use crate::yard::{Step, Yard};
use std::fmt;
use std::str::FromStr;

/// The first line that is refused, counted from 1, and why.
#[derive(Clone, Debug, PartialEq, Eq)]
pub struct Refused {
    pub line: usize,
    pub why: String,
}

impl fmt::Display for Refused {
    fn fmt(&self, f: &mut fmt::Formatter) -> fmt::Result {
        write!(f, "line {}: {}", self.line, self.why)
    }
}

type Read<T> = Result<T, String>;

/// The words of a line that are still to be read.
struct Words<'a> {
    left: std::str::SplitWhitespace<'a>,
}

impl<'a> Words<'a> {
    fn next(&mut self, what: &str) -> Read<&'a str> {
        self.left.next().ok_or_else(|| format!("{what} is missing"))
    }

    fn number<T: FromStr>(&mut self, what: &str) -> Read<T> {
        number(self.next(what)?, what)
    }

    /// One word of two: whether it is the first.
    fn either(&mut self, yes: &str, no: &str) -> Read<bool> {
        match self.next(&format!("{yes} or {no}"))? {
            word if word == yes => Ok(true),
            word if word == no => Ok(false),
            word => Err(format!("{word} is neither {yes} nor {no}")),
        }
    }

    fn end(&mut self) -> Read<()> {
        self.left.next().map_or(Ok(()), |word| Err(format!("{word} is one word too many")))
    }
}

fn number<T: FromStr>(word: &str, what: &str) -> Read<T> {
    let digits = word.bytes().all(|byte| byte.is_ascii_digit());
    word.parse().ok().filter(|_| digits).ok_or_else(|| format!("{what}: {word} is no such number"))
}

/// Numbers with commas between; `-` for none.
fn list(word: &str, what: &str) -> Read<Set> {
    if word == "-" {
        return Ok(Set::new());
    }
    word.split(',').map(|part| number(part, what)).collect()
}

/// Two digits a byte; `-` for none.
fn hex(word: &str) -> Read<Vec<u8>> {
    let digits = if word == "-" { &[] } else { word.as_bytes() };
    let wrong = || format!("{word} is no hex of whole bytes");
    let digit = |byte: &u8| (*byte as char).to_digit(16).map(|digit| digit as u8).ok_or_else(wrong);
    let byte = |pair: &[u8]| Ok(digit(&pair[0])? * 16 + digit(pair.get(1).ok_or_else(wrong)?)?);
    digits.chunks(2).map(byte).collect()
}

fn data(words: &mut Words) -> Read<Vec<u8>> {
    let length: u8 = words.number("length")?;
    let bytes = hex(words.next("payload")?)?;
    if bytes.len() != usize::from(length) {
        return Err(format!("the payload has {} bytes and not {length}", bytes.len()));
    }
    Ok(bytes)
}

fn change(words: &mut Words) -> Read<Change> {
    let drops = list(words.next("units to drop")?, "unit")?;
    let sets = words.left.by_ref().map(|word| list(word, "unit")).collect::<Read<Vec<_>>>()?;
    Ok(Change { drops, sets })
}

fn job(words: &mut Words) -> Read<Job> {
    match words.next("operation")? {
        "append" => Ok(Job::Append(data(words)?)),
        "read" => Ok(Job::Read(words.number("position")?)),
        "fill" => Ok(Job::Fill(words.number("position")?)),
        "trim" => Ok(Job::Trim(words.number("position")?)),
        "prune" => Ok(Job::Prune(words.number("position")?)),
        "reorganise" => Ok(Job::Reorganise(change(words)?)),
        word => Err(format!("{word} is no operation")),
    }
}

fn step(first: &str, words: &mut Words) -> Read<Step> {
    match first {
        "begin" => Ok(Step::Begin(words.number("client")?, job(words)?)),
        "deliver" => {
            let place: u8 = words.number("place")?;
            let (keep, keep_answer) = (words.either("keep", "drop")?, words.either("answer", "lose")?);
            Ok(Step::Deliver { place: place.into(), keep, keep_answer })
        }
        "drop" => words.number("place").map(|place: u8| Step::Drop(place.into())),
        "stop" => Ok(Step::Stop(words.number("unit")?)),
        "restart" => Ok(Step::Restart(words.number("client")?)),
        "giveup" => Ok(Step::GiveUp(words.number("client")?)),
        "forget" => Ok(Step::Forget),
        word => Err(format!("{word} is no step")),
    }
}

/// A step, and how many times.
fn steps(line: &str) -> Read<(Step, usize)> {
    let mut words = Words { left: line.split_whitespace() };
    let mut first = words.next("step")?;
    let mut times = 1;
    if first.starts_with(|sign: char| sign.is_ascii_digit()) {
        times = number(first, "how many times")?;
        first = words.next("step")?;
    }
    let step = step(first, &mut words)?;
    words.end()?;
    // more would fit in no file
    if times > play::BYTES {
        return Err(format!("{times} times are too many"));
    }
    step_bytes(&step).ok_or("more than 8 units to drop, 16 new sets or 4 units in one")?;
    Ok((step, times))
}

fn range(word: &str) -> Read<Range> {
    let (start, uses) = word.split_once(',').ok_or_else(|| format!("{word} is no range: START,SETS"))?;
    Ok(Range { start: number(start, "start")?, uses: number(uses, "sets used")? })
}

fn layout(line: &str) -> Read<Layout> {
    let mut words = Words { left: line.split_whitespace() };
    if words.next("layout")? != "layout" {
        return Err("a play begins with its layout".into());
    }
    let epoch = words.number("epoch")?;
    let mut sets: Vec<&str> = words.left.by_ref().take_while(|word| *word != "ranges").collect();
    let mut shape = Shape::Small;
    if sets.first() == Some(&"large") {
        shape = Shape::Large;
        sets.remove(0);
    }
    let sets = sets.into_iter().map(|word| list(word, "unit")).collect::<Read<Vec<_>>>()?;
    let ranges = words.left.map(range).collect::<Read<Vec<_>>>()?;
    let layout = Layout { epoch, shape: shape.byte(), sets, ranges };
    Yard::fresh(layout.clone()).map_err(|_| "no fresh yard is made of this layout")?;
    Ok(layout)
}

/// The lines that say something, each with its number.
fn said(text: &str) -> impl Iterator<Item = (usize, &str)> {
    let uncommented = |line: &'_ str| line.find('#').unwrap_or(line.len());
    let lines = text.lines().enumerate().map(move |(i, line)| (i + 1, line[..uncommented(line)].trim()));
    lines.filter(|(_, line)| !line.is_empty())
}

/// The play that a text tells.
pub fn read(text: &str) -> Result<Play, Refused> {
    let mut said = said(text);
    let (line, first) = said.next().ok_or(Refused { line: 1, why: "there is no layout".into() })?;
    let layout = layout(first).map_err(|why| Refused { line, why })?;
    let mut play = Play { layout, steps: Vec::new() };
    for (line, words) in said {
        let (step, times) = steps(words).map_err(|why| Refused { line, why })?;
        play.steps.extend(std::iter::repeat_n(step, times));
        if play.steps.len() > play::BYTES {
            return Err(Refused { line, why: "the file would be longer than 65536 bytes".into() });
        }
    }
    Ok(play)
}
