//! The comparison bites: readings of the layouts that are wrong in one place each are told from the library by the same calls.

use reading::layout_bytes::{decode, encode, BYTES};
use reading::layout_call::{self, After, Call, Side};
use station_tests::layouts::compare::on;
use station_tests::layouts::{desk, draw};
use station_tests::random::Random;

fn sets_counted_from_one(call: &Call, lent: u64, buffer: &[u8]) -> After {
    let mut after = layout_call::after(call, lent, buffer);
    if matches!(call, Call::Set { .. }) && after.answer == 0 {
        after.number += 1;
    }
    after
}

fn a_byte_left_over_is_taken(call: &Call, lent: u64, buffer: &[u8]) -> After {
    match call {
        Call::Good { bytes } if bytes.last().is_some_and(|byte| *byte == 0) => {
            layout_call::after(&Call::Good { bytes: bytes[..bytes.len() - 1].to_vec() }, lent, buffer)
        }
        _ => layout_call::after(call, lent, buffer),
    }
}

fn any_unit_section(call: &Call, lent: u64, buffer: &[u8]) -> After {
    let mut after = layout_call::after(call, lent, buffer);
    if let Call::Good { bytes } = call {
        let cut = bytes.get(5).filter(|count| **count > 1 && 6 + usize::from(**count) <= bytes.len());
        if let Some(count) = cut {
            let end = 5 + usize::from(*count);
            let shorter = [&bytes[..5], &[count - 1], &bytes[6..end], &bytes[end + 1..]].concat();
            if decode(&shorter).is_some() {
                after.answer = 0;
            }
        }
    }
    after
}

fn lost_before_bad(call: &Call, lent: u64, buffer: &[u8]) -> After {
    let mut after = layout_call::after(call, lent, buffer);
    if let Call::Plan { held, drops, edge, .. } = call {
        let plain = Call::Plan { held: held.clone(), drops: drops.clone(), sets: Vec::new(), edge: *edge };
        if after.answer == 10 && layout_call::after(&plain, lent, buffer).answer == 13 {
            after.answer = 13;
        }
    }
    after
}

fn late_sets_name_nothing(call: &Call, lent: u64, buffer: &[u8]) -> After {
    let after = layout_call::after(call, lent, buffer);
    match call {
        Call::Plan { held, sets, edge, .. } if after.answer == 10 && sets.first().is_some_and(|count| *count > 16) => {
            let call = Call::Plan { held: held.clone(), drops: Vec::new(), sets: sets.clone(), edge: *edge };
            layout_call::after(&call, lent, buffer)
        }
        _ => after,
    }
}

fn the_edge_is_ignored(call: &Call, lent: u64, buffer: &[u8]) -> After {
    match call {
        Call::Plan { held, drops, sets, .. } => {
            let call = Call::Plan { held: held.clone(), drops: drops.clone(), sets: sets.clone(), edge: 0 };
            layout_call::after(&call, lent, buffer)
        }
        _ => layout_call::after(call, lent, buffer),
    }
}

fn refusals_clear_the_number(call: &Call, lent: u64, buffer: &[u8]) -> After {
    let mut after = layout_call::after(call, lent, buffer);
    if matches!(call, Call::Plan { .. }) && after.answer != 0 {
        after.number = 0;
    }
    after
}

fn what_is_too_long_is_cut(call: &Call, lent: u64, buffer: &[u8]) -> After {
    let after = layout_call::after(call, lent, buffer);
    let whole = layout_call::after(call, lent, &[0; BYTES]);
    if matches!(call, Call::Plan { .. }) && after.answer == 10 && whole.answer == 0 {
        return After { answer: 10, number: lent, buffer: whole.buffer[..buffer.len()].to_vec() };
    }
    after
}

fn any_epoch_is_taken(call: &Call, lent: u64, buffer: &[u8]) -> After {
    let mut after = layout_call::after(call, lent, buffer);
    if let (Call::Offer { held, offered }, 11) = (call, after.answer) {
        let (old, mut new) = (decode(held).expect("good"), decode(offered).expect("good"));
        new.epoch = old.epoch.saturating_add(1);
        after.answer =
            layout_call::after(&Call::Offer { held: held.clone(), offered: encode(&new) }, lent, buffer).answer;
    }
    after
}

fn any_shape_is_good(call: &Call, lent: u64, buffer: &[u8]) -> After {
    match call {
        Call::Good { bytes } if bytes.len() > 4 => {
            let small = [&bytes[..4], &[0], &bytes[5..]].concat();
            layout_call::after(&Call::Good { bytes: small }, lent, buffer)
        }
        _ => layout_call::after(call, lent, buffer),
    }
}

fn a_changed_shape_is_taken(call: &Call, lent: u64, buffer: &[u8]) -> After {
    let mut after = layout_call::after(call, lent, buffer);
    if let (Call::Offer { held, offered }, 12) = (call, after.answer) {
        let (old, mut new) = (decode(held).expect("good"), decode(offered).expect("good"));
        new.shape = old.shape;
        after.answer =
            layout_call::after(&Call::Offer { held: held.clone(), offered: encode(&new) }, lent, buffer).answer;
    }
    after
}

fn plans_are_of_small_units(call: &Call, lent: u64, buffer: &[u8]) -> After {
    let mut after = layout_call::after(call, lent, buffer);
    if matches!(call, Call::Plan { .. }) && after.answer == 0 {
        after.buffer[4] = 0;
    }
    after
}

fn all_refused(_: &Call, lent: u64, buffer: &[u8]) -> After {
    After { answer: 10, number: lent, buffer: buffer.to_vec() }
}

/// The first seed whose calls tell this reading from the library, and what is said of it.
fn caught(wrong: Side) -> Option<(u64, String)> {
    (0..4_000).find_map(|seed| {
        let mut random = Random::new(seed);
        let bytes = draw::near(&mut random);
        let (plan, room) = draw::plan(&mut random);
        let position = random.below(1 << 20);
        let calls =
            [Call::Good { bytes: bytes.clone() }, Call::Set { bytes, position }, draw::offer(&mut random), plan];
        let said = calls.iter().find_map(|call| on([desk::after, wrong], call, &vec![9; room]).err())?;
        Some((seed, said))
    })
}

#[test]
fn wrong_readings_are_caught() {
    let wrong: [(&str, Side); 13] = [
        ("sets_counted_from_one", sets_counted_from_one),
        ("a_byte_left_over_is_taken", a_byte_left_over_is_taken),
        ("any_unit_section", any_unit_section),
        ("lost_before_bad", lost_before_bad),
        ("late_sets_name_nothing", late_sets_name_nothing),
        ("the_edge_is_ignored", the_edge_is_ignored),
        ("refusals_clear_the_number", refusals_clear_the_number),
        ("what_is_too_long_is_cut", what_is_too_long_is_cut),
        ("any_epoch_is_taken", any_epoch_is_taken),
        ("any_shape_is_good", any_shape_is_good),
        ("a_changed_shape_is_taken", a_changed_shape_is_taken),
        ("plans_are_of_small_units", plans_are_of_small_units),
        ("all_refused", all_refused),
    ];
    for (name, side) in wrong {
        let Some((seed, said)) = caught(side) else { panic!("no call tells the reading `{name}` from the library") };
        println!("{name}: seed {seed}: {}", said.lines().next().unwrap_or(""));
    }
    assert_eq!(caught(layout_call::after), None, "the right reading is told from the library");
}
