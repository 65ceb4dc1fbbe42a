//! The bytes of a play: what reads is what it writes, and nothing else reads.

use reading::book::text;
use reading::client::Job;
use reading::damage::{changed, cut, lengthened, nearly_play, play_of, RandomBytes};
use reading::draw_play::draw_play;
use reading::layout::{Layout, Range};
use reading::lehmer::Lehmer;
use reading::plan::Change;
use reading::play::{self, Play};
use reading::yard::Step;

const REFUSED: [&str; 1] = ["22\n"];

/// The layout of unit 1 alone, and these steps.
fn file(count: u32, steps: &[u8]) -> Vec<u8> {
    let layout = [1, 0, 0, 0, 0, 1, 1, 1, 1, 1, 1, 0, 0, 0, 0, 0, 0, 0, 0, 1];
    [&[20, 0][..], &layout, &count.to_le_bytes(), steps].concat()
}

fn steps(count: u32, bytes: &[u8]) -> Option<Vec<Step>> {
    Play::read(&file(count, bytes)).map(|play| play.steps)
}

/// Whether it reads; where it does, it is written as it was.
fn reads(file: &[u8]) -> bool {
    let play = Play::read(file);
    if let Some(play) = &play {
        assert_eq!(play.write().as_deref(), Some(file), "{play:?}");
        assert_eq!(text(file).len(), play.steps.len());
    } else {
        assert_eq!(text(file), REFUSED);
    }
    play.is_some()
}

#[test]
fn each_step_field_by_field() {
    let position = [8, 7, 6, 5, 4, 3, 2, 1];
    let p = 0x0102_0304_0506_0708;
    let with = |tag: u8| [&[tag, 3][..], &position].concat();
    assert_eq!(steps(1, &[1, 3, 2, 10, 11]), Some(vec![Step::Begin(3, Job::Append(vec![10, 11]))]));
    assert_eq!(steps(1, &with(2)), Some(vec![Step::Begin(3, Job::Read(p))]));
    assert_eq!(steps(1, &with(3)), Some(vec![Step::Begin(3, Job::Fill(p))]));
    assert_eq!(steps(1, &with(4)), Some(vec![Step::Begin(3, Job::Trim(p))]));
    assert_eq!(steps(1, &with(5)), Some(vec![Step::Begin(3, Job::Prune(p))]));
    let change = Change { drops: vec![4, 5], sets: vec![vec![6], vec![], vec![7, 8]] };
    let bytes = [6, 3, 2, 4, 5, 3, 1, 6, 0, 2, 7, 8];
    assert_eq!(steps(1, &bytes), Some(vec![Step::Begin(3, Job::Reorganise(change))]));
    assert_eq!(steps(1, &[7, 9, 1, 0]), Some(vec![Step::Deliver { place: 9, keep: true, keep_answer: false }]));
    assert_eq!(steps(1, &[7, 9, 0, 1]), Some(vec![Step::Deliver { place: 9, keep: false, keep_answer: true }]));
    assert_eq!(steps(1, &[8, 200]), Some(vec![Step::Drop(200)]));
    assert_eq!(steps(1, &[9, 200]), Some(vec![Step::Stop(200)]));
    assert_eq!(steps(1, &[10, 0]), Some(vec![Step::Restart(0)]));
    assert_eq!(steps(1, &[11, 4]), Some(vec![Step::GiveUp(4)]));
    assert_eq!(steps(1, &[12]), Some(vec![Step::Forget]));
    assert_eq!(steps(3, &[12, 12, 8, 0]), Some(vec![Step::Forget, Step::Forget, Step::Drop(0)]));
}

#[test]
fn what_does_not_read() {
    let no_tag = [[0].to_vec(), [13].to_vec(), [22].to_vec(), [255].to_vec()];
    let flags = [[7, 0, 2, 1].to_vec(), [7, 0, 1, 2].to_vec(), [7, 0, 255, 0].to_vec(), [7, 0, 0, 255].to_vec()];
    let nine = [&[6, 1, 9][..], &[1; 9], &[0]].concat();
    let five = [6, 1, 0, 1, 5, 1, 2, 3, 4, 5].to_vec();
    let seventeen = [&[6, 1, 0, 17][..], &[0; 17]].concat();
    for bytes in no_tag.into_iter().chain(flags).chain([nine, five, seventeen]) {
        assert_eq!(steps(1, &bytes), None, "{bytes:?}");
    }
    // as many as there is room for
    let eight = [&[6, 1, 8][..], &[200; 8], &[0]].concat();
    let sixteen = [&[6, 1, 0, 16][..], &[4, 1, 1, 1, 1].repeat(16)].concat();
    assert!(steps(1, &eight).is_some() && steps(1, &sixteen).is_some());
    assert!(steps(1, &[&[1, 1, 255][..], &[7; 255]].concat()).is_some());
    // the count is not that of the steps
    assert_eq!((steps(0, &[12]), steps(2, &[12]), steps(u32::MAX, &[12])), (None, None, None));
    assert_eq!(steps(0, &[]), Some(vec![]));
    assert!(text(&file(0, &[])).is_empty());
}

#[test]
fn a_layout_that_starts_no_fresh_yard() {
    let good = Layout { epoch: 1, shape: 0, sets: vec![vec![1, 2]], ranges: vec![Range { start: 0, uses: 1 }] };
    let play = |layout: &Layout| Play { layout: layout.clone(), steps: vec![Step::Forget] }.write().unwrap();
    assert!(reads(&play(&good)));
    assert!(!reads(&play(&Layout { epoch: 2, ..good.clone() })));
    assert!(!reads(&play(&Layout { epoch: 0, ..good.clone() })));
    assert!(reads(&play(&Layout { shape: 1, ..good.clone() })));
    assert!(!reads(&play(&Layout { shape: 2, ..good.clone() })));
    assert!(!reads(&play(&Layout { sets: vec![vec![2, 1]], ..good.clone() })));
    assert!(!reads(&play(&Layout { sets: vec![vec![1, 9]], ..good.clone() })));
    // the layout's count is one too small, or too large
    for wrong in [-1_i16, 1] {
        let mut file = play(&good);
        file[0] = (i16::from(file[0]) + wrong) as u8;
        assert!(!reads(&file));
    }
}

#[test]
fn the_longest_file() {
    for (length, is_play) in
        [(100, true), (play::BYTES - 1, true), (play::BYTES, true), (play::BYTES + 1, false), (70_000, false)]
    {
        assert_eq!(reads(&play_of(length)), is_play, "{length} bytes");
    }
    // the longest play, and one byte behind it
    assert!(!reads(&[play_of(play::BYTES), vec![12]].concat()));
}

#[test]
fn drawn_plays_read_back() {
    for seed in 1..=100 {
        let play = draw_play(seed, 300);
        let file = play.write().expect("it fits");
        assert_eq!(Play::read(&file).as_ref(), Some(&play).filter(|play| !play.steps.is_empty()), "seed {seed}");
    }
}

#[test]
fn damaged_plays_read_exactly_or_not_at_all() {
    let file = draw_play(7, 60).write().expect("it fits");
    assert!(reads(&file));
    assert!(!cut(&file).any(|cut| reads(&cut)), "a part of it reads");
    assert!(!lengthened(&file).iter().any(|longer| reads(longer)), "with more behind it, it reads");
    let other: usize = (0..file.len()).flat_map(|at| changed(&file, at)).map(|file| usize::from(reads(&file))).sum();
    assert!(other > 500, "only {other} changed files read");
}

#[test]
fn random_files_read_exactly_or_not_at_all() {
    let random = RandomBytes { chance: Lehmer::seeded(1), left: 1_000_000 };
    assert!(!random.into_iter().any(|file| reads(&file)), "random bytes are hardly a play");
    let mut chance = Lehmer::seeded(2);
    let read = (0..4_000).filter(|_| reads(&nearly_play(&mut chance))).count();
    assert!((1_000..3_000).contains(&read), "{read} of 4,000 files read");
}
