//! Compares the programs `book` and `odd` with the reading, on as many drawn runs as asked: each from its fresh yard, by `book`,
//! and where its yard is drawn old once more, by `odd`.

use reading::compare::{compare, said};
use reading::draw_play::{draw_old_play, draw_play};
use reading::run::age;
use reading::{book, odd};
use std::env;
use std::path::Path;
use std::process::ExitCode;

const USAGE: &str = "usage: compare FOLDER_OF_PROGRAMS FIRST_SEED RUNS STEPS";

/// How many steps of the run were compared.
fn one(folder: &Path, seed: u32, steps: u32) -> Result<usize, String> {
    let program = |name: &str, input: &[u8], read: &[String]| {
        let printed = said(&folder.join(name), input).map_err(|error| error.to_string())?;
        compare(read, &printed).map_err(|found| format!("DIFFERENCE: {name}, seed {seed} (steps {steps}): {found}"))
    };
    let play = draw_play(seed, steps);
    let file = play.write().expect("it fits");
    program("book", &file, &book::text(&file))?;
    let Some(age) = age(seed) else {
        return Ok(play.steps.len());
    };
    let old = draw_old_play(seed, steps);
    let input = [vec![age.byte()], old.write().expect("it fits")].concat();
    program("odd", &input, &odd::text(&input))?;
    Ok(play.steps.len() + old.steps.len())
}

fn main() -> ExitCode {
    let words: Vec<String> = env::args().skip(1).collect();
    let numbers: Vec<u32> = words.iter().skip(1).filter_map(|word| word.parse().ok()).collect();
    let (4, [first, count, steps]) = (words.len(), &numbers[..]) else {
        eprintln!("{USAGE}");
        return ExitCode::from(2);
    };
    let seeds = (0..*count).map(|i| first.wrapping_add(i));
    match seeds.map(|seed| one(Path::new(&words[0]), seed, *steps)).sum::<Result<usize, String>>() {
        Ok(compared) => {
            println!("runs {count}, steps compared {compared}, no difference");
            ExitCode::SUCCESS
        }
        Err(said) => {
            println!("{said}");
            ExitCode::FAILURE
        }
    }
}
