//! The comparison bites: readings that are wrong in one place each are told from the library by the same random calls.

use reading::memory::{HEADER, SIZE};
use reading::shape::Shape;
use reading::unit_call::{self, After, Call, Outputs, Side};
use station_tests::run::{sequence, Tally};
use station_tests::weather::WEATHERS;

/// Slots in use, as the header has them.
fn count(memory: &[u8]) -> usize {
    usize::from(u16::from_le_bytes([memory[16], memory[17]]))
}

/// The shape that the memory names: the sequences only ever have good memory.
fn shape(memory: &[u8]) -> Shape {
    Shape::of(memory[1]).unwrap_or(Shape::Small)
}

fn junk_as_zeros(memory: &[u8], call: &Call, outputs: Outputs) -> After {
    let mut after = unit_call::after(memory, call, outputs);
    if matches!(call, Call::Read { .. }) && after.answer == 0 && after.outputs.kind == 2 {
        after.outputs.length = 32;
    }
    after
}

fn junk_as_data(memory: &[u8], call: &Call, outputs: Outputs) -> After {
    let mut after = unit_call::after(memory, call, outputs);
    if matches!(call, Call::Read { .. }) && after.answer == 0 {
        after.outputs.kind = 1;
    }
    after
}

fn payload_one_byte_late(memory: &[u8], call: &Call, outputs: Outputs) -> After {
    let mut after = unit_call::after(memory, call, outputs);
    if matches!(call, Call::Read { .. }) && after.answer == 0 {
        after.outputs.start += 1;
    }
    after
}

fn all_refused(memory: &[u8], _: &Call, outputs: Outputs) -> After {
    After { answer: 1, outputs, memory: memory.to_vec() }
}

fn no_work(memory: &[u8], call: &Call, outputs: Outputs) -> After {
    After { memory: memory.to_vec(), ..unit_call::after(memory, call, outputs) }
}

fn tells_edges(call: &Call) -> bool {
    matches!(call, Call::Seal { .. } | Call::Edges)
}

fn made_up_edge(memory: &[u8], call: &Call, outputs: Outputs) -> After {
    let mut after = unit_call::after(memory, call, outputs);
    if tells_edges(call) && after.answer == 0 {
        after.outputs.edge = count(memory) as u64;
    }
    after
}

fn stray_trims_count_as_written(memory: &[u8], call: &Call, outputs: Outputs) -> After {
    let mut after = unit_call::after(memory, call, outputs);
    if tells_edges(call) && after.answer == 0 {
        after.outputs.written = after.outputs.edge;
    }
    after
}

fn edges_exchanged(memory: &[u8], call: &Call, outputs: Outputs) -> After {
    let mut after = unit_call::after(memory, call, outputs);
    if matches!(call, Call::Edges) && after.answer == 0 {
        (after.outputs.edge, after.outputs.written) = (after.outputs.written, after.outputs.edge);
    }
    after
}

fn a_sealed_unit_tells_no_edges(memory: &[u8], call: &Call, outputs: Outputs) -> After {
    match call {
        Call::Edges if memory[4..8] != [0; 4] => After { answer: 4, outputs, memory: memory.to_vec() },
        _ => unit_call::after(memory, call, outputs),
    }
}

fn asking_for_edges_seals(memory: &[u8], call: &Call, outputs: Outputs) -> After {
    let mut after = unit_call::after(memory, call, outputs);
    if matches!(call, Call::Edges) {
        after.memory[4] |= 1;
    }
    after
}

/// The kind byte of each used slot: of the bytes before a fresh unit too, whatever they say.
fn kinds(memory: &[u8]) -> impl Iterator<Item = usize> + '_ {
    (0..count(memory)).map(|slot| HEADER + slot * shape(memory).slot() + 8).take_while(|at| *at < memory.len())
}

fn only_pages_count_as_written(memory: &[u8], call: &Call, outputs: Outputs) -> After {
    let mut seen = memory.to_vec();
    kinds(memory).filter(|at| memory[*at] == 3).for_each(|at| seen[at] = 4);
    let mut after = unit_call::after(memory, call, outputs);
    if tells_edges(call) {
        after.outputs.written = unit_call::after(&seen, call, outputs).outputs.written;
    }
    after
}

fn a_page_is_trimmed_to_kind_4(memory: &[u8], call: &Call, outputs: Outputs) -> After {
    let mut after = unit_call::after(memory, call, outputs);
    if matches!(call, Call::Trim { .. }) && count(memory) == count(&after.memory) {
        let changed: Vec<usize> = kinds(memory).filter(|at| after.memory[*at] != memory[*at]).collect();
        changed.into_iter().for_each(|at| after.memory[at] = 4);
    }
    after
}

fn a_stray_position_is_written(memory: &[u8], call: &Call, outputs: Outputs) -> After {
    let stray = |at: usize, p: u64| memory[at] == 4 && memory[at - 8..at] == p.to_le_bytes();
    match *call {
        Call::Write { position, .. } if kinds(memory).any(|at| stray(at, position)) => {
            After { answer: 6, ..unit_call::after(memory, call, outputs) }
        }
        _ => unit_call::after(memory, call, outputs),
    }
}

fn refusals_clear_the_outputs(memory: &[u8], call: &Call, outputs: Outputs) -> After {
    let mut after = unit_call::after(memory, call, outputs);
    if matches!(call, Call::Read { .. }) && after.answer != 0 {
        after.outputs.length = 0;
    }
    after
}

fn a_sealed_epoch_still_writes(memory: &[u8], call: &Call, outputs: Outputs) -> After {
    match call {
        Call::Write { epoch, position, kind, data } => {
            let call =
                Call::Write { epoch: epoch.saturating_add(1), position: *position, kind: *kind, data: data.clone() };
            unit_call::after(memory, &call, outputs)
        }
        _ => unit_call::after(memory, call, outputs),
    }
}

fn full_before_written(memory: &[u8], call: &Call, outputs: Outputs) -> After {
    let mut after = unit_call::after(memory, call, outputs);
    if after.answer == 6 && count(memory) == shape(memory).slots() {
        after.answer = 8;
    }
    after
}

fn page_before_position(memory: &[u8], call: &Call, outputs: Outputs) -> After {
    let mut after = unit_call::after(memory, call, outputs);
    if let Call::Write { data, .. } = call {
        if after.answer == 2 && data.len() > shape(memory).payload() {
            after.answer = 3;
        }
    }
    after
}

fn lengths_cut_to_a_byte(memory: &[u8], call: &Call, outputs: Outputs) -> After {
    let mut call = call.clone();
    if let Call::Write { data, .. } = &mut call {
        data.truncate(data.len() % 256);
    }
    unit_call::after(memory, &call, outputs)
}

fn trims_keep_the_last_byte(memory: &[u8], call: &Call, outputs: Outputs) -> After {
    let mut after = unit_call::after(memory, call, outputs);
    if matches!(call, Call::Trim { .. }) && count(memory) == count(&after.memory) {
        let size = shape(memory).slot();
        let lasts = (1..=count(memory)).map(|slots| HEADER + slots * size - 1);
        lasts.for_each(|at| after.memory[at] = memory[at]);
    }
    after
}

fn pruned_slots_are_left(memory: &[u8], call: &Call, outputs: Outputs) -> After {
    let mut after = unit_call::after(memory, call, outputs);
    if matches!(call, Call::Prune { .. }) {
        let free = HEADER + count(&after.memory) * shape(memory).slot();
        after.memory[free..].copy_from_slice(&memory[free..]);
    }
    after
}

fn one_bit_more(memory: &[u8], call: &Call, outputs: Outputs) -> After {
    let mut after = unit_call::after(memory, call, outputs);
    if after.answer == 8 {
        after.memory[SIZE - 1] ^= 128;
    }
    after
}

fn every_page_is_short(memory: &[u8], call: &Call, outputs: Outputs) -> After {
    match call {
        Call::Write { data, .. } if data.len() > 32 => {
            let after = unit_call::after(memory, call, outputs);
            After { answer: if after.answer == 2 { 2 } else { 3 }, outputs, memory: memory.to_vec() }
        }
        _ => unit_call::after(memory, call, outputs),
    }
}

fn half_as_many_slots(memory: &[u8], call: &Call, outputs: Outputs) -> After {
    let after = unit_call::after(memory, call, outputs);
    if matches!(call, Call::Write { .. }) && after.answer == 0 && count(memory) >= 64 {
        return After { answer: 8, outputs, memory: memory.to_vec() };
    }
    after
}

fn fresh_units_are_small(memory: &[u8], call: &Call, outputs: Outputs) -> After {
    match call {
        Call::Fresh { number, shape: 1 } => {
            unit_call::after(memory, &Call::Fresh { number: *number, shape: 0 }, outputs)
        }
        _ => unit_call::after(memory, call, outputs),
    }
}

fn an_unknown_shape_is_nobody(memory: &[u8], call: &Call, outputs: Outputs) -> After {
    let mut after = unit_call::after(memory, call, outputs);
    if after.answer == 10 {
        after.answer = 17;
    }
    after
}

/// Whether some sequence of the random calls tells this reading from the library.
fn is_caught(wrong: Side) -> bool {
    let mut runs = WEATHERS.iter().flat_map(|weather| (0..3).map(move |seed| (weather, seed)));
    runs.any(|(weather, seed)| sequence(wrong, weather, seed, 2_000, &mut Tally::new()).is_err())
}

#[test]
fn wrong_readings_are_caught() {
    let wrong: [(&str, Side); 25] = [
        ("junk_as_zeros", junk_as_zeros),
        ("junk_as_data", junk_as_data),
        ("payload_one_byte_late", payload_one_byte_late),
        ("all_refused", all_refused),
        ("no_work", no_work),
        ("made_up_edge", made_up_edge),
        ("stray_trims_count_as_written", stray_trims_count_as_written),
        ("edges_exchanged", edges_exchanged),
        ("a_sealed_unit_tells_no_edges", a_sealed_unit_tells_no_edges),
        ("asking_for_edges_seals", asking_for_edges_seals),
        ("only_pages_count_as_written", only_pages_count_as_written),
        ("a_page_is_trimmed_to_kind_4", a_page_is_trimmed_to_kind_4),
        ("a_stray_position_is_written", a_stray_position_is_written),
        ("refusals_clear_the_outputs", refusals_clear_the_outputs),
        ("a_sealed_epoch_still_writes", a_sealed_epoch_still_writes),
        ("full_before_written", full_before_written),
        ("page_before_position", page_before_position),
        ("lengths_cut_to_a_byte", lengths_cut_to_a_byte),
        ("trims_keep_the_last_byte", trims_keep_the_last_byte),
        ("pruned_slots_are_left", pruned_slots_are_left),
        ("one_bit_more", one_bit_more),
        ("every_page_is_short", every_page_is_short),
        ("half_as_many_slots", half_as_many_slots),
        ("fresh_units_are_small", fresh_units_are_small),
        ("an_unknown_shape_is_nobody", an_unknown_shape_is_nobody),
    ];
    for (name, side) in wrong {
        assert!(is_caught(side), "no random call tells the reading `{name}` from the library");
    }
    assert!(!is_caught(unit_call::after), "the right reading is told from the library");
}

#[test]
fn a_difference_names_its_seed_and_step() {
    let said = sequence(all_refused, &WEATHERS[0], 42, 10, &mut Tally::new()).unwrap_err();
    assert!(said.contains("seed 42, step 0") && said.contains("answers 0 and 1"), "{said}");
}
