//! What holds of a yard after every step, whatever the steps: the laws behind demand 3, and good memory.

use crate::layout::Layout;
use crate::letter::{Body, Letter};
use crate::memory;
use crate::unit::{Cell, Unit};
use crate::yard::{Yard, LETTERS};

/// The layouts laid so far, oldest first.
pub struct Watch {
    laid: Vec<Layout>,
}

fn must(holds: bool, what: impl Fn() -> String) -> Result<(), String> {
    if holds {
        Ok(())
    } else {
        Err(what())
    }
}

/// Positions at which a unit holds something, and the last one below its floor.
fn marked(unit: &Unit) -> Vec<u64> {
    unit.cells.keys().copied().chain(unit.floor.checked_sub(1)).collect()
}

/// What the later unit has at p, the earlier one had too: the same page, unless it was trimmed since.
fn had_too(earlier: &Unit, later: &Unit, p: u64) -> bool {
    if earlier.is_trimmed(p) {
        return true;
    }
    match (later.is_trimmed(p), later.cells.get(&p)) {
        (true, _) => false,
        (false, Some(cell)) => earlier.cells.get(&p) == Some(cell),
        (false, None) => true,
    }
}

impl Watch {
    pub fn new(yard: &Yard) -> Watch {
        Watch { laid: vec![yard.held.clone()] }
    }

    /// To be called after each step.
    pub fn check(&mut self, yard: &Yard) -> Result<(), String> {
        if self.laid.last() != Some(&yard.held) {
            self.installed(yard)?;
        }
        sealed(&self.laid, yard)?;
        for layout in &self.laid {
            head_to_tail(layout, yard)?;
        }
        letters(yard)
    }

    /// From a layout to the next: where a unit of the new one is marked, the position's set is a part of the old one.
    fn installed(&mut self, yard: &Yard) -> Result<(), String> {
        let (old, new) = (self.laid.last().expect("one is laid"), &yard.held);
        must(new.good() && old.epoch + 1 == new.epoch, || format!("{new:?} follows {old:?}"))?;
        for unit in new.units() {
            for p in marked(&yard.units[usize::from(unit) - 1]) {
                let part = new.set_of(p).iter().all(|unit| old.set_of(p).contains(unit));
                must(part, || format!("{p} is marked at unit {unit} and moved by epoch {}", new.epoch))?;
            }
        }
        self.laid.push(new.clone());
        Ok(())
    }
}

/// A unit of a laid layout e is sealed at e - 1 at least; nothing is sealed above the held epoch, nor the sequencer above it.
fn sealed(laid: &[Layout], yard: &Yard) -> Result<(), String> {
    for layout in laid {
        for unit in layout.units() {
            let at = yard.units[usize::from(unit) - 1].sealed;
            must(at >= layout.epoch - 1, || format!("unit {unit} of epoch {} is sealed at {at}", layout.epoch))?;
        }
    }
    let low = yard.units.iter().all(|unit| unit.sealed <= yard.held.epoch);
    must(low && yard.sequencer.epoch <= yard.held.epoch, || "sealed above the held epoch".into())
}

/// Where a unit may still take requests of this layout, or it is the held one: what the unit has, every unit before it in the set had.
fn head_to_tail(layout: &Layout, yard: &Yard) -> Result<(), String> {
    for unit in layout.units() {
        let later = &yard.units[usize::from(unit) - 1];
        if later.sealed >= layout.epoch && layout.epoch != yard.held.epoch {
            continue;
        }
        for p in marked(later) {
            for before in layout.set_of(p).iter().take_while(|before| **before != unit) {
                let earlier = &yard.units[usize::from(*before) - 1];
                let in_set = layout.set_of(p).contains(&unit);
                must(!in_set || had_too(earlier, later, p), || format!("unit {unit} has at {p} what {before} has not"))?;
            }
        }
    }
    Ok(())
}

fn letters(yard: &Yard) -> Result<(), String> {
    must(yard.bag.len() <= LETTERS, || "too many letters".into())?;
    for Letter { stamp, body } in &yard.bag {
        let client = &yard.clients[usize::from(stamp.client) - 1];
        let sent = stamp.life < client.life || (stamp.life == client.life && stamp.number <= client.used);
        must(sent, || format!("a letter that {} never sent: {body:?}", stamp.client))?;
        if let Body::Asks(ask) = body {
            must(ask.epoch().is_none_or(|epoch| epoch <= yard.held.epoch), || format!("an epoch to come: {ask:?}"))?;
        }
    }
    Ok(())
}

/// Every memory is good and says what the unit is.
pub fn good_memories(yard: &Yard) -> Result<(), String> {
    for unit in &yard.units {
        must(memory::decode(&memory::encode(unit)).as_ref() == Some(unit), || format!("the memory of {}", unit.number))?;
        let most = unit.shape.payload();
        let right = unit.cells.values().all(|cell| !matches!(cell, Cell::Holds(page) if page.bytes().len() > most));
        must(right, || format!("a page of unit {}", unit.number))?;
        must(unit.shape.byte() == yard.held.shape, || format!("the shape of unit {}", unit.number))?;
    }
    Ok(())
}
