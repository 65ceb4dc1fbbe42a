//! The lines of the table: memories with short, full and mixed pages, and the calls on them.

use crate::call::{Call, Made, Seen, UNSEEN};
use crate::random::Random;
use crate::side::{sides, SIDES};
use crate::time::{turns, Time};
use crate::unit::{page, shape, slots, MEMORY};
use crate::{alike, library, tuned};

const EPOCH: u32 = 1;

/// What pages a memory has.
#[derive(Clone, Copy)]
enum Pages {
    Short,
    Full,
    Mixed,
}

impl Pages {
    const ALL: [(Pages, &'static str); 3] = [(Pages::Short, "short"), (Pages::Full, "full"), (Pages::Mixed, "mixed")];

    /// The bytes of a data page, for the slot with this index.
    fn data<const SLOT: usize>(self, index: usize) -> Vec<u8> {
        let length = match self {
            Pages::Short => 8,
            Pages::Full => page(SLOT),
            Pages::Mixed => 7 * index % (page(SLOT) + 1),
        };
        (0..length).map(|byte| (index + byte) as u8 | 1).collect()
    }

    /// A memory of unit 1 with `count` slots, at positions 0, 2, 4, ..; of mixed ones some are junk and some trimmed.
    fn memory<const SLOT: usize>(self, count: usize) -> Vec<u8> {
        let mut memory = vec![0; MEMORY];
        assert_eq!(library::fresh(&mut memory, 1, shape(SLOT)), 0);
        for index in 0..count {
            let position = 2 * index as u64;
            let answer = match (self, index % 8) {
                (Pages::Mixed, 3) => library::write(&mut memory, EPOCH, position, 2, &[]),
                (Pages::Mixed, 5) => library::trim(&mut memory, EPOCH, position),
                _ => library::write(&mut memory, EPOCH, position, 1, &self.data::<SLOT>(index)),
            };
            assert_eq!(answer, 0);
        }
        memory
    }
}

/// A call that is timed, in words, and how many slots are used before it.
struct Line {
    words: String,
    used: usize,
    call: Call,
}

fn lines<const SLOT: usize>(pages: Pages) -> Vec<Line> {
    let all = slots(SLOT);
    let (middle, epoch) = (all as u64, EPOCH);
    let line = |words: String, used, call| Line { words, used, call };
    let write = |position: usize, used| Call::Write {
        epoch,
        position: position as u64,
        kind: 1,
        data: pages.data::<SLOT>(used),
    };
    let read = |words: &str, slots: Vec<usize>| {
        let positions = slots.iter().map(|slot| 2 * *slot as u64).collect();
        line(format!("read {words} of {all}"), all, Call::Read { epoch, positions })
    };
    let mut random = Random::new(1);
    // the slots of mixed pages that are neither junk nor trimmed
    let drawn = (0..1000).map(|_| 4 * random.below(all as u64 / 4) as usize).collect();
    vec![
        line("write at the edge, 0 used".to_string(), 0, write(0, 0)),
        line(format!("write at the edge, {} used", all / 2), all / 2, write(all, all / 2)),
        line(format!("write at the edge, {} used", all - 1), all - 1, write(2 * all - 2, all - 1)),
        line(format!("write in the middle, {} used", all - 1), all - 1, write(all + 1, all - 1)),
        read("the first", vec![0]),
        read("the middle", vec![all / 2]),
        read("the last", vec![all - 1]),
        read("any", drawn),
        line(format!("trim the middle of {all}"), all, Call::Trim { epoch, position: middle }),
        line(format!("prune {} of {all}", all / 2), all, Call::Prune { epoch, position: middle }),
        line(format!("seal, {all} used"), all, Call::Seal { epoch }),
        line(format!("edges, {all} used"), all, Call::Edges),
    ]
}

/// One pass over all bytes of a memory: what no side can do without.
fn pass<'a>() -> Made<'a> {
    Box::new(|mem| Seen { answer: tuned::sum(mem), ..UNSEEN })
}

/// The times of all sides, ours first, and of the pass, last.
fn times<const SLOT: usize>(pages: Pages, line: &Line, rounds: usize, idle: f64) -> Vec<Time> {
    let sides = sides();
    let memory = pages.memory::<SLOT>(line.used);
    assert_eq!(alike::answer(&sides, &memory, &line.call), 0, "{}: refused", line.words);
    let calls = sides.iter().map(|side| line.call.on(side)).chain([pass()]).collect();
    turns(&memory, rounds, idle, calls)
}

fn row(first: &str, times: &[String], ratios: &[String]) {
    let times: String = times.iter().map(|time| format!(" {time:>16} |")).collect();
    let ratios: String = ratios.iter().map(|ratio| format!(" {ratio:>12} |")).collect();
    println!("| {first:<36} |{times}{ratios}");
}

/// Prints the table, in Markdown.
pub fn print<const SLOT: usize>(rounds: usize) {
    let names: Vec<&str> = sides().iter().map(|side| side.name).collect();
    let idle = turns(&vec![0; MEMORY], rounds, 0.0, vec![Box::new(|_| UNSEEN)])[0].median;
    println!(
        "\nNanoseconds of a call on {} slots of {SLOT} bytes, native code for {}: the median of {rounds} rounds, and their quartiles.\n",
        slots(SLOT),
        std::env::consts::ARCH
    );
    let head: Vec<String> = names.iter().chain(&["one pass"]).map(|name| name.to_string()).collect();
    let ratios: Vec<String> = names[1..].iter().map(|name| format!("ours / {name}")).collect();
    row("Pages, call", &head, &ratios);
    row("---", &vec!["---:".to_string(); SIDES + 1], &vec!["---:".to_string(); SIDES - 1]);
    for (pages, name) in Pages::ALL {
        for line in lines::<SLOT>(pages) {
            let times = times::<SLOT>(pages, &line, rounds, idle);
            let shown: Vec<String> =
                times.iter().map(|time| format!("{:.0} ({:.0}-{:.0})", time.median, time.low, time.high)).collect();
            let ratios: Vec<String> =
                times[1..SIDES].iter().map(|time| format!("{:.2}", times[0].median / time.median)).collect();
            row(&format!("{name}, {}", line.words), &shown, &ratios);
        }
    }
}
