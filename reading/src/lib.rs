//! A second reading of the rules: units, holder, sequencer, clients and the yard, in plain Rust.
//! It shares no code and no types with the proved machines; docs/RUNS.md says how both are compared.

pub mod no;

pub mod memory;
pub mod shape;
pub mod unit;
pub mod unit_call;

pub mod bytes;
pub mod layout;
pub mod layout_bytes;
pub mod layout_call;
pub mod plan;
pub mod successor;

pub mod sequencer;

pub mod client;
pub mod letter;
pub mod operation;

pub mod lent;
pub mod shortcut;
pub mod yard;

pub mod audit;
pub mod demand;
pub mod invariant;
pub mod last_sentence;
pub mod postage;

pub mod book;
pub mod picture;
pub mod play;
pub mod tell;
pub mod words;

pub mod draw_job;
pub mod draw_step;
pub mod lehmer;
pub mod mood;

pub mod census;
pub mod compare;
pub mod damage;
pub mod draw_play;
pub mod examples;
pub mod odd;
pub mod run;
pub mod stored;
