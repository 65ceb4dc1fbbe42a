//! Damaged plays and random files, by the proved library and by the reading of the yard: 22 exactly where the reading says so, the same lines otherwise.

use reading::damage::{changed, cut, lengthened, nearly_play, play_of, RandomBytes};
use reading::lehmer::Lehmer;
use reading::play;
use station_tests::plays::{agree, plays, shown};

/// Room for the lines of every play of plays/.
const ROOM: usize = 1 << 15;

/// A file that reads anew at every byte would take long where it is a thousand steps: of those every change is tried at some bytes only.
const SHORT: usize = 1_000;

#[test]
fn cut_at_every_byte() {
    for (name, file, _) in plays() {
        for cut in cut(&file) {
            assert_eq!(agree(&name, &cut, 1, ROOM).answer, 22, "{name}, cut at {}", cut.len());
        }
    }
}

#[test]
fn lengthened_by_anything() {
    for (name, file, _) in plays() {
        for longer in lengthened(&file) {
            assert_eq!(agree(&name, &longer, 1, ROOM).answer, 22, "{name}, of {} bytes", longer.len());
        }
    }
}

#[test]
fn with_each_byte_changed() {
    let (mut tried, mut refused) = (0, 0);
    for (name, file, _) in plays() {
        for at in 0..file.len() {
            let few = if file.len() < SHORT { usize::MAX } else { 1 };
            for other in changed(&file, at).take(few) {
                tried += 1;
                refused += u32::from(agree(&format!("{name}, byte {at}"), &other, 1, ROOM).answer == 22);
            }
        }
    }
    println!("damaged plays compared: {tried}, of which {refused} are 22");
    assert!(tried > 50_000 && refused > 20_000 && tried - refused > 20_000, "{tried} tried, {refused} refused");
}

#[test]
fn a_million_random_bytes() {
    for file in (RandomBytes { chance: Lehmer::seeded(11), left: 1_000_000 }) {
        assert_eq!(agree("random bytes", &file, 1, ROOM).answer, 22);
    }
}

#[test]
fn random_steps_behind_a_layout() {
    let mut chance = Lehmer::seeded(12);
    let files = (0..20_000).map(|_| nearly_play(&mut chance));
    let read = files.filter(|file| agree("random steps", file, 1, ROOM).answer == 0).count();
    assert!((5_000..15_000).contains(&read), "{read} of 20,000 files read");
}

#[test]
fn the_longest_play() {
    for length in [play::BYTES - 1, play::BYTES] {
        assert_eq!(agree("long", &play_of(length), 60_000, ROOM).answer, 0);
    }
    for length in [play::BYTES + 1, play::BYTES + 2, 70_000] {
        assert_eq!(agree("too long", &play_of(length), 1, ROOM).answer, 22);
    }
    assert_eq!(shown(&[play_of(play::BYTES), vec![12]].concat(), 1, ROOM).answer, 22);
}
