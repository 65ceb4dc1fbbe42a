//! A play as a picture: picture FILE.play writes SVG to standard output. Where FILE.txt has its words, its first comment is the title.

use reading::picture::{picture, title_of};
use std::env;
use std::fs;
use std::io::{self, Write};
use std::path::Path;
use std::process::ExitCode;

fn drawn(name: &str) -> Result<String, String> {
    let path = Path::new(name);
    let file = fs::read(path).map_err(|error| format!("{name}: {error}"))?;
    let words = fs::read_to_string(path.with_extension("txt")).ok();
    let stem = path.file_stem().map_or(String::new(), |stem| stem.to_string_lossy().into_owned());
    let title = words.as_deref().and_then(title_of).unwrap_or(stem);
    picture(&file, &title).ok_or_else(|| format!("{name}: 22, this is no play"))
}

fn main() -> ExitCode {
    let args: Vec<String> = env::args().skip(1).collect();
    let made = match &args[..] {
        [name] if !name.starts_with("--") => drawn(name),
        _ => Err("usage: picture FILE.play".into()),
    };
    match made.and_then(|svg| io::stdout().write_all(svg.as_bytes()).map_err(|error| error.to_string())) {
        Ok(()) => ExitCode::SUCCESS,
        Err(said) => {
            eprintln!("picture: {said}");
            ExitCode::from(2)
        }
    }
}
