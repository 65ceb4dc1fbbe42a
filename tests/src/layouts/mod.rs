//! The proved layouts and the independent reading of their rules, side by side.
//!
//! `desk` makes a call on the library, the reading's `layout_call` the same call by the rules of docs/RULES.md, and `compare` holds the one
//! to the other. `draw` makes up layouts, and calls near the edge of what is good.

pub mod compare;
pub mod desk;
pub mod draw;
