//! The order of refusals, and that a refused step changes nothing.

use reading::client::Job;
use reading::layout::{Layout, Range};
use reading::lent::{test, Lent};
use reading::letter::{Ask, Body, Letter, Reply, Stamp};
use reading::memory;
use reading::no::{self, number_of, LIMIT};
use reading::plan::{plan, Change};
use reading::sequencer::Sequencer;
use reading::successor::offer;
use reading::shape::Shape;
use reading::unit::{Edges, Page, Unit};
use reading::yard::{Step, Yard};

fn layout(epoch: u32, sets: &[&[u8]], ranges: &[(u64, u8)]) -> Layout {
    let sets = sets.iter().map(|set| set.to_vec()).collect();
    let ranges = ranges.iter().map(|(start, uses)| Range { start: *start, uses: *uses }).collect();
    Layout { epoch, shape: 0, sets, ranges }
}

fn yard() -> Yard {
    Yard::fresh(layout(1, &[&[1, 2]], &[(0, 1)])).expect("good")
}

fn refused(yard: &mut Yard, step: Step) -> u8 {
    let before = yard.clone();
    let (answer, ended) = yard.step(&step);
    yard.clock = before.clock;
    assert!(answer != no::FINE && ended.is_none() && *yard == before);
    answer
}

fn full(yard: &mut Yard) {
    let stamp = Stamp { client: 1, life: 1, number: 0 };
    yard.bag = vec![Letter { stamp, body: Body::Asks(Ask::Fetch) }; 32];
}

#[test]
fn begin_refuses_in_order() {
    let mut yard = yard();
    let bad = |client| Step::Begin(client, Job::Read(LIMIT));
    yard.step(&Step::Begin(1, Job::Read(0)));
    full(&mut yard);
    assert_eq!(refused(&mut yard, bad(5)), no::NOBODY);
    assert_eq!(refused(&mut yard, bad(0)), no::NOBODY);
    yard.clients[0].used = u32::MAX;
    assert_eq!(refused(&mut yard, bad(1)), no::BUSY);
    yard.clients[1].used = u32::MAX;
    assert_eq!(refused(&mut yard, bad(2)), no::NUMBERS_SPENT);
    assert_eq!(refused(&mut yard, bad(3)), no::BAG_FULL);
    yard.bag.clear();
    assert_eq!(refused(&mut yard, bad(3)), no::POSITION);
    assert_eq!(refused(&mut yard, Step::Begin(3, Job::Append(vec![0; 33]))), no::PAGE);
    assert_eq!(refused(&mut yard, Step::Begin(3, Job::Prune(LIMIT + 1))), no::POSITION);
    assert_eq!(yard.step(&Step::Begin(3, Job::Prune(LIMIT))).0, no::FINE);
    let dropping = |count| Step::Begin(4, Job::Reorganise(Change { drops: vec![2; count], sets: Vec::new() }));
    assert_eq!(refused(&mut yard, dropping(9)), no::LAYOUT);
    assert_eq!(yard.step(&dropping(8)).0, no::FINE);
}

/// What never answers a read leaves its client waiting; the unit's own number then ends it.
#[test]
fn misfits_are_ignored() {
    let mut yard = yard();
    yard.step(&Step::Begin(1, Job::Read(0)));
    let deliver = Step::Deliver { place: 0, keep: false, keep_answer: true };
    for _ in 0..3 {
        yard.step(&deliver);
    }
    let Body::Answers(Reply::Refused(no::UNWRITTEN), note) = yard.bag[0].body.clone() else {
        panic!("the tail holds nothing");
    };
    let stamp = yard.bag[0].stamp;
    let mut hand = |reply| {
        yard.bag = vec![Letter { stamp, body: Body::Answers(reply, note) }];
        let (answer, ended) = yard.step(&deliver);
        assert_eq!(answer, no::FINE);
        ended
    };
    for misfit in [no::FINE, no::SET_LOST, no::UNKNOWN, u8::MAX] {
        assert!(hand(Reply::Refused(misfit)).is_none());
    }
    assert!(hand(Reply::Shown(Page::Data(vec![0; 81]))).is_none());
    assert!(hand(Reply::Refused(no::SUCCESSOR)).is_some());
}

#[test]
fn deliver_refuses_in_order() {
    let mut yard = yard();
    let deliver = |place, keep, keep_answer| Step::Deliver { place, keep, keep_answer };
    full(&mut yard);
    assert_eq!(refused(&mut yard, deliver(32, true, true)), no::NOBODY);
    assert_eq!(refused(&mut yard, deliver(0, true, true)), no::BAG_FULL);
    assert_eq!(yard.step(&deliver(0, true, false)).0, no::FINE);
    assert_eq!(yard.step(&deliver(0, false, true)).0, no::FINE);
    assert_eq!(yard.bag.len(), 32);
    yard.bag[0].body = Body::Asks(Ask::Seal { unit: 3, epoch: 1 });
    assert_eq!(yard.step(&Step::Stop(3)).0, no::FINE);
    assert_eq!(refused(&mut yard, deliver(0, true, true)), no::NOBODY);
    assert_eq!(refused(&mut yard, Step::Stop(3)), no::NOBODY);
    assert_eq!(refused(&mut yard, Step::Stop(9)), no::NOBODY);
    assert_eq!(refused(&mut yard, Step::Drop(32)), no::NOBODY);
}

#[test]
fn a_full_bag_keeps_a_client_from_sending_but_not_from_ending() {
    let mut yard = yard();
    yard.step(&Step::Begin(1, Job::Read(0)));
    yard.step(&Step::Deliver { place: 0, keep: false, keep_answer: true });
    let answer = yard.bag[0].clone();
    full(&mut yard);
    yard.bag[0] = answer;
    let keep = Step::Deliver { place: 0, keep: true, keep_answer: false };
    assert_eq!(refused(&mut yard, keep.clone()), no::BAG_FULL);
    yard.clients[0].used = u32::MAX;
    yard.bag[0].stamp.number = u32::MAX;
    let (number, ended) = yard.step(&keep);
    assert_eq!((number, ended.map(|ended| ended.outcome.number)), (no::FINE, Some(no::NUMBERS_SPENT)));
}

#[test]
fn restart_and_give_up() {
    let mut yard = yard();
    assert_eq!(refused(&mut yard, Step::Restart(5)), no::NOBODY);
    assert_eq!(refused(&mut yard, Step::GiveUp(0)), no::NOBODY);
    yard.clients[0].life = u16::MAX;
    assert_eq!(refused(&mut yard, Step::Restart(1)), no::NUMBERS_SPENT);
    let before = yard.clone();
    assert_eq!(yard.step(&Step::GiveUp(1)), (no::FINE, None));
    yard.clock = before.clock;
    assert_eq!(yard, before);
}

#[test]
fn reorganise_refuses_in_order() {
    let change = |drops: &[u8], sets: &[&[u8]]| Change { drops: drops.to_vec(), sets: sets.iter().map(|set| set.to_vec()).collect() };
    let number = |held: &Layout, change: Change| number_of(&plan(held, &change));
    let crowded = layout(1, &[&[1u8, 2][..]; 16], &[(0, 16)]);
    let spent = Layout { epoch: u32::MAX, ..crowded.clone() };
    assert_eq!(number(&spent, change(&[9, 1, 2], &[&[3]])), no::EPOCHS_SPENT);
    assert_eq!(number(&crowded, change(&[9, 1, 2], &[&[3]])), no::LAYOUT);
    assert_eq!(number(&crowded, change(&[3], &[&[3]])), no::LAYOUT);
    assert_eq!(number(&crowded, change(&[], &[&[3, 2]])), no::LAYOUT);
    assert_eq!(number(&crowded, change(&[], &[&[]])), no::LAYOUT);
    assert_eq!(number(&crowded, change(&[1, 2], &[&[3]])), no::SET_LOST);
    assert_eq!(number(&crowded, change(&[1], &[&[3]])), no::LAYOUT_FULL);
    assert_eq!(number(&crowded, change(&[1, 8], &[])), no::FINE);
    let last = plan(&layout(1, &[&[1]], &[(0, 1)]), &change(&[], &[&[2]])).expect("fine");
    assert_eq!(last.clone().with_edges(Edges { edge: LIMIT, written: 0 }), Err(no::SPENT));
    assert_eq!(last.with_edges(Edges { edge: 0, written: 5 }).map(|(_, start)| start), Ok(1));
}

#[test]
fn the_holder_refuses_in_order() {
    let mut held = layout(3, &[&[1, 2], &[3]], &[(0, 2)]);
    let mut number = |offered: Layout| number_of(&offer(&mut held, &offered));
    assert_eq!(number(layout(9, &[&[2, 1]], &[(0, 1)])), no::LAYOUT);
    assert_eq!(number(Layout { shape: 2, ..layout(4, &[&[1, 2], &[3]], &[(0, 2)]) }), no::LAYOUT);
    assert_eq!(number(layout(5, &[&[8]], &[(0, 1)])), no::OVERTAKEN);
    assert_eq!(number(Layout { shape: 1, ..layout(4, &[&[1, 2], &[3]], &[(0, 2)]) }), no::SUCCESSOR);
    assert_eq!(number(layout(4, &[&[1, 2, 4], &[3]], &[(0, 2)])), no::SUCCESSOR);
    assert_eq!(number(layout(4, &[&[1], &[3], &[4]], &[(0, 3)])), no::SUCCESSOR);
    assert_eq!(number(layout(4, &[&[1], &[3], &[4], &[4]], &[(0, 2), (5, 1), (6, 1)])), no::SUCCESSOR);
    assert_eq!(number(layout(4, &[&[1], &[3], &[4]], &[(0, 2), (5, 1)])), no::FINE);
}

#[test]
fn the_sequencer_refuses_in_order() {
    let mut sequencer = Sequencer { epoch: 2, next: LIMIT };
    assert_eq!(sequencer.token(1), Err(no::SEALED));
    assert_eq!(sequencer.token(2), Err(no::SPENT));
    assert_eq!(sequencer.start(2, LIMIT + 1), Err(no::POSITION));
    assert_eq!(sequencer.start(2, 0), Err(no::SEALED));
    assert_eq!(sequencer.start(3, 7), Ok(()));
    assert_eq!((sequencer.token(3), sequencer.token(3)), (Ok(7), Ok(8)));
    sequencer.forget();
    assert_eq!(sequencer, Sequencer { epoch: 3, next: 0 });
}

#[test]
fn what_is_lent_is_tested_first() {
    let held = layout(1, &[&[1]], &[(0, 1)]);
    let bad = layout(0, &[&[1]], &[(0, 1)]);
    let memories: Vec<Vec<u8>> = (1..=8).map(|unit| memory::encode(&Unit::fresh(unit, Shape::Small))).collect();
    let mut swapped = memories.clone();
    swapped.swap(0, 1);
    let large = Layout { shape: 1, ..held.clone() };
    let number = |memories: &[Vec<u8>], held: &Layout, places, count| number_of(&test(&Lent { memories, held, fetched: &[], places, count }));
    assert_eq!(number(&swapped, &bad, 31, 33), no::MEMORY);
    assert_eq!(number(&memories, &large, 31, 33), no::MEMORY);
    assert_eq!(number(&memories, &bad, 31, 33), no::LAYOUT);
    assert_eq!(number(&memories, &held, 31, 0), no::BAG_FULL);
    assert_eq!(number(&memories, &held, 32, 33), no::BAG_FULL);
    assert_eq!(number(&memories, &held, 32, 32), no::FINE);
}
