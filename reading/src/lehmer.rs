//! The generator: x becomes x * 48271 mod 2147483647.

pub const MODULUS: u64 = 2_147_483_647;
pub const FACTOR: u64 = 48_271;

/// Raw numbers drawn for one step, or for the start of a run.
pub struct Raw([u32; Raw::NUMBERS]);

impl Raw {
    pub const NUMBERS: usize = 64;

    /// The kth raw number, modulo n.
    pub fn of(&self, k: usize, n: u32) -> u32 {
        self.0[k] % n
    }
}

pub struct Lehmer {
    x: u64,
}

impl Lehmer {
    pub fn seeded(seed: u32) -> Lehmer {
        Lehmer { x: u64::from(seed) % (MODULUS - 1) + 1 }
    }

    fn advance(&mut self) -> u32 {
        self.x = self.x * FACTOR % MODULUS;
        self.x as u32
    }

    pub fn raw(&mut self) -> Raw {
        Raw(std::array::from_fn(|_| self.advance()))
    }
}
