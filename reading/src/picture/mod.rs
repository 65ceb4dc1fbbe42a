//! A play as a space-time picture: a lane for each client, the sequencer, the holder and each unit; a row for each step.
//! `scene` says what is to be seen, `draw` draws it with the strokes of `svg`.

pub mod draw;
pub mod legend;
pub mod says;
pub mod scene;
pub mod svg;

use crate::play::Play;

/// The picture of a play's bytes; none (22) where they are no play.
pub fn picture(file: &[u8], title: &str) -> Option<String> {
    Play::read(file).map(|play| draw::draw(&scene::scene(&play), title))
}

/// What a play's words are about: the first sentence of their first comment.
pub fn title_of(words: &str) -> Option<String> {
    let comments = words.lines().map_while(|line| line.strip_prefix('#')).map(str::trim);
    let text = comments.collect::<Vec<_>>().join(" ");
    let end = text.find(['.', ':']).unwrap_or(text.len());
    (end > 0).then(|| text[..end].to_string())
}
