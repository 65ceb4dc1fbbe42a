//! A long sequence of random calls on one memory, both sides compared after each.

use crate::compare;
use crate::proved;
use crate::random::Random;
use crate::weather::{outputs, Weather};
use reading::memory::{decode, SIZE};
use reading::unit_call::{Call, Side};
use std::collections::BTreeMap;

/// How often each call gave each answer.
pub type Tally = BTreeMap<(&'static str, u8), u64>;

/// Makes `steps` calls after a fresh unit of random number was pruned to the weather's floor; its shape goes by the seed, odd or
/// even. `reading` is held to the library.
pub fn sequence(reading: Side, weather: &Weather, seed: u64, steps: usize, tally: &mut Tally) -> Result<(), String> {
    let mut random = Random::new(seed);
    let mut memory = random.bytes(SIZE);
    let first = Call::Fresh { number: 1 + random.below(8) as u32, shape: (seed % 2) as u8 };
    let second = Call::Prune { epoch: 1, position: weather.floor };
    for step in 0..steps {
        let call = match step {
            0 => first.clone(),
            1 => second.clone(),
            _ => {
                let unit = decode(&memory).ok_or(format!("{}, seed {seed}, step {step}: not good", weather.name))?;
                weather.call(&mut random, &unit)
            }
        };
        let after = compare::on([proved::after, reading], &memory, &call, outputs(&mut random))
            .map_err(|said| format!("weather {:?}, seed {seed}, step {step}: {said}", weather.name))?;
        *tally.entry((call.name(), after.answer)).or_default() += 1;
        memory = after.memory;
    }
    Ok(())
}
