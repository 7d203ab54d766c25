//! Circular layouts with few crossings, proved.
//!
//! Vertices stand round a circle and edges are chords. A [`Layout`] is lent to
//! each call of the proved library, which changes it in place. A refused call
//! leaves it as it was and says why: a [`Refusal`].
//!
//! ```
//! use rostulanda::Layout;
//!
//! let mut layout = Layout::from_edges(4, &[(0, 2), (1, 3)])?;
//! assert_eq!(layout.count()?, 1);
//! let run = layout.converge_without_limit()?;
//! assert!(run.converged);
//! assert_eq!(layout.count()?, 0);
//! assert_eq!(layout.order()?, [1, 0, 2, 3]);
//! # Ok::<(), rostulanda::Refusal>(())
//! ```
//!
//! Each edge has a weight from 1 to 255, which is 1 where none is given, and a
//! crossing counts the product of its two edges' weights (document 02, Note 8):
//! wherever crossings are counted or compared, it is by the sum of these
//! products.
//!
//! ```
//! use rostulanda::Layout;
//!
//! let edges = [(0, 2, 200), (1, 3, 100), (1, 4, 1)];
//! let layout = Layout::from_weighted_edges(5, &edges)?;
//! assert_eq!(layout.count()?, 200 * 100 + 200);
//! assert_eq!(layout.weight(3, 1), 100);
//! # Ok::<(), rostulanda::Refusal>(())
//! ```
//!
//! The words are those of graph drawing; document 01's stand beside them once.

#[doc(hidden)]
pub mod boundary;
mod check;
#[doc(hidden)]
pub mod ffi;
mod layout;
mod list;
mod refusal;
mod row;

pub use check::{check_row, check_weighted_row, Checked, Move};
pub use ffi::{GRAPH6_BYTES, MOST_EDGES, MOST_ROUNDS, PLACES, WRITTEN_CHART_BYTES};
pub use layout::{Convergence, Edge, Fields, Layout, Round, Sifted};
pub use list::{play, Answer, Call, Played, Start};
pub use refusal::Refusal;
pub use row::{list_chart, Row};

/// One edge in so many of n vertices, with weights from 1 to 255.
#[cfg(test)]
fn scattered(n: usize, one_in: usize) -> Vec<(usize, usize, u8)> {
    let pairs = (0..n).flat_map(|a| (a + 1..n).map(move |b| (a, b)));
    pairs
        .filter(|(a, b)| (7 * a + 5 * b) % one_in == 0)
        .map(|(a, b)| (a, b, 1 + ((97 * a + 31 * b) % 255) as u8))
        .collect()
}

/// Four vertices, 0-2 and 1-3: one crossing.
#[cfg(test)]
const FIRST_CHART: &[u8] = include_bytes!("../../../charts/first.chart");

/// Five vertices and seven edges with weights: one crossing, of 9 · 2.
#[cfg(test)]
const WEIGHTED_CHART: &[u8] = include_bytes!("../../../charts/weighted.chart");

/// Fifty rounds do not settle it.
#[cfg(test)]
const MANY_ROUNDS_CHART: &[u8] = include_bytes!("../../../charts/many-rounds.chart");

/// The first one in graph6: 0-2 is the second pair, 1-3 the fifth.
#[cfg(test)]
const FIRST_GRAPH6: &[u8] = &[4 + 63, 0b010010 + 63];
