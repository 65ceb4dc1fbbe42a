//! Runs as plays.

use crate::play::{self, step_bytes, Play};
use crate::run::Run;

/// The play of a run: so many steps, or as many as its file has room for; none where the layout drawn makes no yard.
fn played(run: (crate::layout::Layout, Result<Run, u8>), steps: u32) -> Play {
    let mut play = Play { layout: run.0, steps: Vec::new() };
    let mut room = play.write().map_or(0, |file| play::BYTES - file.len());
    let Ok(mut run) = run.1 else {
        return play;
    };
    for _ in 0..steps {
        let taken = run.step();
        let bytes = step_bytes(&taken.step).expect("what is drawn has room").len();
        if bytes > room {
            break;
        }
        room -= bytes;
        play.steps.push(taken.step);
    }
    play
}

/// From the fresh yard of the layout drawn.
pub fn draw_play(seed: u32, steps: u32) -> Play {
    played(Run::fresh(seed), steps)
}

/// In a yard as old as it is drawn.
pub fn draw_old_play(seed: u32, steps: u32) -> Play {
    played(Run::start(seed, None), steps)
}
