//! The reference side: documents 01 and 02 word by word, nothing clever.
//! Candidates are built as lists, and crossings are counted pair by pair, each
//! with the product of its weights.

pub mod calls;
pub mod chart;
pub mod graph6;
pub mod layout;
pub mod list;
pub mod play;

#[cfg(test)]
mod tests;
