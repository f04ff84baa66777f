//! The gate's work in plain Rust, as the baseline of the benchmark: the same answers, the same checks
//! and refusals in the same order, written from the rules (docs/RULES.md) in the form that comes to
//! mind first when it has to be fast. Nothing is proved, and no `unsafe` stands here.
#![forbid(unsafe_code)]

pub mod book;
pub mod delivery;
pub mod event;
pub mod group;
pub mod judge;
pub mod keeper;
pub mod listing;
pub mod refusal;
pub mod spans;
