//! A second program, written from documents 004, 01 and 02 alone, with sorted
//! adjacency lists, which hold weights, and the published algorithms. It stands
//! beside the proved one so that the two can be compared.
//!
//! Words of document 01 and of this code: ring = circular layout, device =
//! vertex, link = edge, whole = valid, saving = reduction, lay = greedy append,
//! round = sifting round, settle = converge.

pub mod append;
pub mod calls;
pub mod chart;
pub mod circle;
pub mod crossings;
pub mod graph6;
pub mod layout;
pub mod list;
pub mod play;
pub mod sifting;
