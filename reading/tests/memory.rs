//! Good memory, byte by byte.

use reading::memory::{decode, encode, fresh, SIZE};
use reading::no::{self, LIMIT};
use reading::shape::Shape;
use reading::unit::Unit;

fn sample() -> Unit {
    let mut unit = Unit::fresh(3, Shape::Small);
    unit.prune(1, 4).unwrap();
    unit.write(1, 5, 1, b"fix").unwrap();
    unit.write(1, 7, 2, &[]).unwrap();
    unit.trim(1, LIMIT - 1).unwrap();
    unit.seal(2).unwrap();
    unit
}

#[test]
fn round_trip() {
    let unit = sample();
    let memory = encode(&unit);
    assert_eq!(memory.len(), SIZE);
    assert_eq!(memory[..24], [3, 0, 0, 0, 2, 0, 0, 0, 4, 0, 0, 0, 0, 0, 0, 0, 3, 0, 0, 0, 0, 0, 0, 0]);
    assert_eq!(memory[24..43], [5, 0, 0, 0, 0, 0, 0, 0, 1, 3, 0, 0, 0, 0, 0, 0, b'f', b'i', b'x']);
    assert_eq!(decode(&memory), Some(unit));
    assert_eq!(fresh(SIZE, 3, 0), Ok(Unit::fresh(3, Shape::Small)));
    assert_eq!(
        (fresh(SIZE - 1, 9, 2), fresh(SIZE, 9, 2), fresh(SIZE, 9, 1)),
        (Err(no::MEMORY), Err(no::LAYOUT), Err(no::NOBODY))
    );
}

#[test]
fn large() {
    let mut unit = Unit::fresh(3, Shape::Large);
    unit.write(1, 5, 1, &[7; 80]).unwrap();
    unit.write(1, 6, 1, b"fix").unwrap();
    let memory = encode(&unit);
    assert_eq!((memory.len(), memory[1], memory[24 + 9], memory[24 + 96]), (SIZE, 1, 80, 6));
    assert_eq!(decode(&memory), Some(unit));
    assert_eq!(
        decode(&encode(&Unit { shape: Shape::Small, ..Unit::fresh(3, Shape::Large) })),
        Some(Unit::fresh(3, Shape::Small))
    );
}

#[test]
fn each_fault_is_seen() {
    let good = encode(&sample());
    // unit, its shape and its last two bytes, floor, count, spare bytes of the header, then of the first slot: position, kind, length, spare bytes, payload past the length
    let faults: [(usize, u8); 16] = [
        (0, 9),
        (0, 0),
        (1, 1),
        (1, 2),
        (2, 1),
        (3, 1),
        (8, 6),
        (13, 2),
        (16, 2),
        (16, 129),
        (18, 1),
        (24, 7),
        (32, 0),
        (32, 2),
        (33, 33),
        (34, 1),
    ];
    for (at, byte) in faults {
        let mut bad = good.clone();
        bad[at] = byte;
        assert_eq!(decode(&bad), None, "byte {at} as {byte}");
    }
    for at in [43, 24 + 48 + 9, 24 + 3 * 48, SIZE - 1] {
        let mut bad = good.clone();
        bad[at] = 1;
        assert_eq!(decode(&bad), None, "byte {at} as 1");
    }
    assert_eq!(decode(&good[1..]), None);
}
