//! A run: a drawn layout, a fresh yard, drawn steps.

use crate::draw_step::{draw_step, Memo};
use crate::layout::Layout;
use crate::lehmer::Lehmer;
use crate::mood::{draw_age, draw_layout, draw_mood, Mood};
use crate::no::No;
use crate::odd::Odd;
use crate::shortcut::Shortcut;
use crate::yard::{Ended, Step, Yard};

pub struct Run {
    generator: Lehmer,
    mood: Mood,
    memo: Memo,
    /// Steps taken.
    pub number: u32,
    pub yard: Yard,
}

/// A step that was taken, and what came of it.
pub struct Taken {
    pub step: Step,
    pub answer: No,
    pub ended: Option<Ended>,
}

impl Run {
    fn make(seed: u32, shortcut: Option<Shortcut>, aged: bool) -> (Layout, Result<Run, No>) {
        let mut generator = Lehmer::seeded(seed);
        let raw = generator.raw();
        let layout = draw_layout(&raw);
        let run = Yard::fresh(layout.clone()).map(|mut yard| {
            if let (true, Some(age)) = (aged, draw_age(&raw)) {
                age.apply(&mut yard);
            }
            yard.shortcut = shortcut;
            Run { generator, mood: draw_mood(&raw), memo: Memo::default(), number: 0, yard }
        });
        (layout, run)
    }

    /// The layout drawn, and the run where the layout makes a fresh yard, which is as old as it is drawn.
    pub fn start(seed: u32, shortcut: Option<Shortcut>) -> (Layout, Result<Run, No>) {
        Run::make(seed, shortcut, true)
    }

    /// The same with the fresh yard as it is, as a play has it.
    pub fn fresh(seed: u32) -> (Layout, Result<Run, No>) {
        Run::make(seed, None, false)
    }

    pub fn step(&mut self) -> Taken {
        self.number += 1;
        let raw = self.generator.raw();
        let step = draw_step(&raw, &self.yard, &self.mood, &self.memo, self.number);
        let (answer, ended) = self.yard.step(&step);
        self.memo.note(self.number, &step, answer, ended.as_ref(), self.yard.bag.len());
        Taken { step, answer, ended }
    }
}

/// How old the yard of a seed's run is, where its layout makes one and it is not fresh.
pub fn age(seed: u32) -> Option<Odd> {
    let raw = Lehmer::seeded(seed).raw();
    draw_age(&raw).filter(|_| Yard::fresh(draw_layout(&raw)).is_ok())
}

/// Seeds and numbers of steps: a line for each run, as seeds.txt has them; none where a line is of another form.
pub fn seeds(text: &str) -> Option<Vec<(u32, u32)>> {
    let number = |word: &str| word.parse().ok();
    let line = |line: &str| line.split_once(' ').and_then(|(seed, steps)| Some((number(seed)?, number(steps)?)));
    text.lines().map(line).collect()
}
