//! What no play from a fresh yard can reach: the fresh yard is made odd before its first step.

use crate::book::lines;
use crate::layout::Layout;
use crate::lent::{self, Lent};
use crate::letter::{Ask, Body, Letter, Stamp};
use crate::memory;
use crate::no::{self, No};
use crate::play::Play;
use crate::yard::{Ended, Step, Yard, LETTERS};

#[derive(Clone, Copy, Debug, PartialEq, Eq)]
pub enum Odd {
    /// Clients near their last life and request numbers.
    OldClients,
    /// A held layout near the last epoch, with its units and its sequencer.
    OldEpochs,
    /// A spare byte in the memory of unit 3.
    SpareByte,
    /// Unit 3 is lent a memory of unit 4.
    OtherUnit,
    /// A held layout without sets.
    NoSets,
    /// A count of 33 letters.
    Letters,
    /// The first letter is an offer of client 1, under its first number, of a layout in which the first set is unit 8 alone.
    Offer,
    /// Unit 3 is lent a memory of the other shape.
    OtherShape,
}

impl Odd {
    /// In the order of the bytes that name them, from 1 on.
    pub const ALL: [Odd; 8] = [
        Odd::OldClients,
        Odd::OldEpochs,
        Odd::SpareByte,
        Odd::OtherUnit,
        Odd::NoSets,
        Odd::Letters,
        Odd::Offer,
        Odd::OtherShape,
    ];

    pub const LIFE: u16 = 65_534;
    pub const USED: u32 = u32::MAX - 60;
    pub const EPOCH: u32 = u32::MAX - 4;

    pub fn byte(self) -> u8 {
        1 + Odd::ALL.iter().position(|odd| *odd == self).expect("it is one of them") as u8
    }

    pub fn of(byte: u8) -> Option<Odd> {
        Odd::ALL.into_iter().find(|odd| odd.byte() == byte)
    }

    /// Makes a fresh yard odd; what is lent odd is made so at each step.
    pub fn apply(self, yard: &mut Yard) {
        match self {
            Odd::OldClients => {
                for client in &mut yard.clients {
                    client.life = Odd::LIFE;
                    client.used = Odd::USED;
                }
            }
            Odd::OldEpochs => {
                for unit in &mut yard.units {
                    unit.seal(Odd::EPOCH - 1).expect("sealed at 0");
                }
                yard.sequencer.start(Odd::EPOCH, 0).expect("above 1");
                yard.held.epoch = Odd::EPOCH;
            }
            Odd::Offer => yard.bag.push(unlawful_offer(&yard.held)),
            Odd::SpareByte | Odd::OtherUnit | Odd::OtherShape | Odd::NoSets | Odd::Letters => {}
        }
    }

    /// What a step of the yard is lent, tested.
    fn lent(self, yard: &Yard) -> Result<(), No> {
        let mut memories: Vec<Vec<u8>> = yard.units.iter().map(memory::encode).collect();
        let mut held = yard.held.clone();
        let mut count = yard.bag.len();
        match self {
            Odd::SpareByte => memories[2][20] = 1,
            Odd::OtherUnit => memories[2][0] = 4,
            Odd::OtherShape => memories[2][1] = 1 - held.shape,
            Odd::NoSets => held.sets.clear(),
            Odd::Letters => count = LETTERS + 1,
            Odd::OldClients | Odd::OldEpochs | Odd::Offer => {}
        }
        let operations = yard.clients.iter().filter_map(|client| client.operation.as_ref());
        let fetched: Vec<Layout> = operations.filter_map(|operation| operation.layout.clone()).collect();
        lent::test(&Lent { memories: &memories, held: &held, fetched: &fetched, places: LETTERS, count }).map(|_| ())
    }

    fn step(self, yard: &mut Yard, step: &Step) -> (No, Option<Ended>) {
        match self.lent(yard) {
            Ok(()) => yard.step(step),
            Err(number) => (number, None),
        }
    }
}

fn unlawful_offer(held: &Layout) -> Letter {
    let mut layout = Layout { epoch: held.epoch + 1, ..held.clone() };
    layout.sets[0] = vec![8];
    Letter { stamp: Stamp { client: 1, life: 1, number: 1 }, body: Body::Asks(Ask::Offer { layout }) }
}

/// The lines of what the program `odd` reads: a byte that names an oddity, and a play.
pub fn text(input: &[u8]) -> Vec<String> {
    let (odd, play) = match input {
        [byte, file @ ..] => (Odd::of(*byte), Play::read(file)),
        [] => (None, None),
    };
    let made = play.and_then(|play| Some((Yard::fresh(play.layout).ok()?, play.steps)));
    let (Some(odd), Some((mut yard, steps))) = (odd, made) else {
        return vec![format!("{}\n", no::PLAY)];
    };
    odd.apply(&mut yard);
    lines(&steps, |step| odd.step(&mut yard, step))
}
