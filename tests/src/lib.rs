//! The proved libraries station and desk, and the package `reading`, an independent reading of the rules, side by side.
//!
//! `proved` makes a call on the library, the reading's `unit_call` the same call by the rules of docs/RULES.md, and `compare` holds all that
//! a caller can see after the one to that after the other. `weather` makes up the calls and `run` makes thousands of them in a row.
//! `layouts` has the same for layouts, and `plays` for plays.
//! `stack` makes a call on a stack as small as a relay's.

pub mod compare;
pub mod fence;
pub mod layouts;
pub mod library;
pub mod plays;
pub mod proved;
pub mod random;
pub mod run;
pub mod samples;
pub mod stack;
pub mod weather;
