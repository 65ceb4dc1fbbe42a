//! Round trips: a good layout's bytes are read, planned with nothing to do and written, and come back with the next epoch only.

use reading::layout::{RANGES, SETS};
use reading::layout_bytes::{decode, encode, BYTES};
use reading::layout_call::Call;
use station_tests::layouts::compare::agree;
use station_tests::layouts::{desk, draw};
use station_tests::random::Random;

#[test]
fn written_layouts_are_read_back() {
    let mut longest = 0;
    for seed in 0..100_000 {
        let mut random = Random::new(seed);
        let mut layout = draw::layout(&mut random);
        let bytes = encode(&layout);
        assert!(layout.good(), "seed {seed}: {layout:?} was to be good");
        assert_eq!(desk::good(&bytes), 0, "seed {seed}: {layout:?}");
        let call = Call::Plan { held: bytes.clone(), drops: Vec::new(), sets: Vec::new(), edge: random.next() };
        let after = agree(&format!("seed {seed}"), &call, &[0xEE; 200]);
        if layout.epoch == u32::MAX {
            assert_eq!(after.answer, 15, "seed {seed}");
            continue;
        }
        layout.epoch += 1;
        let written = &after.buffer[..after.number as usize];
        assert_eq!(decode(written).as_ref(), Some(&layout), "seed {seed}: bytes to value");
        assert_eq!(written, encode(&layout), "seed {seed}: value to bytes");
        assert_eq!(desk::good(written), 0, "seed {seed}");
        assert!(after.buffer[written.len()..].iter().all(|byte| *byte == 0xEE), "seed {seed}: bytes behind the layout");
        if (layout.sets.len(), layout.ranges.len()) == (SETS, RANGES) {
            longest = longest.max(written.len());
        }
    }
    assert_eq!((longest, BYTES), (168, 168), "no layout was as large as can be");
}

#[test]
fn buffers_of_every_length() {
    for seed in 0..300 {
        let layout = draw::layout(&mut Random::new(seed));
        let held = encode(&layout);
        for room in 0..=held.len() + 2 {
            let call = Call::Plan { held: held.clone(), drops: Vec::new(), sets: vec![0], edge: 0 };
            agree(&format!("seed {seed}, room for {room}"), &call, &vec![0x77; room]);
        }
    }
}
