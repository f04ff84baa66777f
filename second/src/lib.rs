//! Ferrulebee's second program: the gate's answers worked out again from the rules
//! (docs/RULES.md) and the report's formula, from the whole history each time, with no
//! running state.
//! It exists to be compared with the gate; where the two differ, one of them is wrong.

pub mod answers;
pub mod bars;
pub mod book;
pub mod event;
pub mod files;
pub mod formula;
pub mod group;
pub mod judge;
pub mod keeper;
pub mod lent;
pub mod limits;
pub mod listing;
pub mod record;
pub mod refusal;
pub mod seen;
pub mod spans;
pub mod spans_of_book;
pub mod store;
pub mod wrong;

#[cfg(test)]
mod tests;
