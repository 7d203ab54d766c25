//! Makes charts and lists of calls from a seed.

pub mod arguments;
pub mod charts;
pub mod collections;
pub mod cost;
pub mod density;
pub mod families;
pub mod five;
pub mod graph;
pub mod graph6;
pub mod held;
pub mod imported;
pub mod lists;
pub mod maker;
pub mod ops;
pub mod records;
pub mod refused;
pub mod settled;
pub mod special;
pub mod spoil;
pub mod starts;
pub mod stored;
pub mod weights;
pub mod written;
