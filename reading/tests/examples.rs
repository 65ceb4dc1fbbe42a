//! The examples 1 to 11 of docs/RULES.md, 13.

use reading::layout::Layout;
use reading::plan::{plan, Change};
use reading::unit::Edges;
use reading::{examples, layout_bytes, no, unit_call};

#[test]
fn examples_1_to_9() {
    examples::hold(unit_call::after);
}

const BYTES: &str = "01000000 00 03010203 03 020102 020203 020103 02 0000000000000000 02 0A00000000000000 01";

fn example_layout() -> Layout {
    let digits: Vec<char> = BYTES.chars().filter(|digit| *digit != ' ').collect();
    let bytes: Vec<u8> =
        digits.chunks(2).map(|pair| u8::from_str_radix(&pair.iter().collect::<String>(), 16).unwrap()).collect();
    assert_eq!(bytes.len(), 38);
    let layout = layout_bytes::decode(&bytes).expect("good");
    assert_eq!(layout_bytes::encode(&layout), bytes);
    layout
}

#[test]
fn example_10() {
    let layout = example_layout();
    assert_eq!([0, 9, 10, 11].map(|p| layout.set_number(p)), [0, 1, 2, 2]);
}

#[test]
fn example_11() {
    let layout = example_layout();
    let dropping = |drops: &[u8]| {
        plan(&layout, &Change { drops: drops.to_vec(), sets: vec![] }).and_then(|plan| plan.with_edges(Edges::default()))
    };
    let (new, _) = dropping(&[2]).expect("lawful");
    assert_eq!(new.sets, vec![vec![1], vec![3], vec![1, 3]]);
    assert_eq!(dropping(&[2, 3]), Err(no::SET_LOST));
}
