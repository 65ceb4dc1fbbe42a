//! The two kinds of unit, by how long a page may be and how many slots a memory has. Both memories are of one size.

/// Where a slot's payload begins in it: behind position, kind, length and six zeros.
pub const PAYLOAD: usize = 16;

#[derive(Clone, Copy, Debug, PartialEq, Eq, PartialOrd, Ord)]
pub enum Shape {
    Small,
    Large,
}

impl Shape {
    pub const ALL: [Shape; 2] = [Shape::Small, Shape::Large];

    /// The shape that a byte of a layout or of a memory names.
    pub fn of(byte: u8) -> Option<Shape> {
        Shape::ALL.into_iter().find(|shape| shape.byte() == byte)
    }

    pub fn byte(self) -> u8 {
        match self {
            Shape::Small => 0,
            Shape::Large => 1,
        }
    }

    /// Bytes of payload in a slot.
    pub fn payload(self) -> usize {
        match self {
            Shape::Small => 32,
            Shape::Large => 80,
        }
    }

    pub fn slots(self) -> usize {
        match self {
            Shape::Small => 128,
            Shape::Large => 64,
        }
    }

    /// Bytes of a slot.
    pub fn slot(self) -> usize {
        PAYLOAD + self.payload()
    }
}
