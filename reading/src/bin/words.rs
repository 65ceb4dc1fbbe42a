//! A play told in words becomes bytes, and bytes become words (docs/PLAY.md).

use reading::play::Play;
use reading::{tell, words};
use std::env;
use std::fs;
use std::io::{self, Write};
use std::process::ExitCode;

const USAGE: &str = "usage: words FILE.txt (its bytes) | words --tell FILE.play (its words)";

/// The file's bytes, or the words that are no play.
fn written(name: &str) -> Result<Vec<u8>, String> {
    let text = fs::read(name).map_err(|error| format!("{name}: {error}"))?;
    let play = words::read(&String::from_utf8_lossy(&text)).map_err(|refused| format!("{name}: {refused}"))?;
    play.write().ok_or_else(|| format!("{name}: the file would be longer than 65536 bytes"))
}

fn told(name: &str) -> Result<Vec<u8>, String> {
    let file = fs::read(name).map_err(|error| format!("{name}: {error}"))?;
    let play = Play::read(&file).ok_or_else(|| format!("{name}: 22, this is no play"))?;
    Ok(tell::play(&play).into_bytes())
}

fn main() -> ExitCode {
    let args: Vec<String> = env::args().skip(1).collect();
    let args: Vec<&str> = args.iter().map(String::as_str).collect();
    let made = match args[..] {
        ["--tell", name] => told(name),
        [name] if !name.starts_with("--") => written(name),
        _ => Err(USAGE.into()),
    };
    match made.and_then(|bytes| io::stdout().write_all(&bytes).map_err(|error| error.to_string())) {
        Ok(()) => ExitCode::SUCCESS,
        Err(said) => {
            eprintln!("words: {said}");
            ExitCode::from(2)
        }
    }
}
