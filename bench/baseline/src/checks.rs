//! The checks that are put to a call (document 01: questions).

use second::layout::{Layout, PLACES};

use crate::words::{bits_below, non_zero, transposed_bytes};

/// A check: whether it is passed, and its number.
type Check = (bool, u8);

/// The number of the first check that fails, the layout's validity before all
/// others; 0 if none does.
pub fn first_failed(layout: &Layout, checks: &[Check]) -> u8 {
    if !is_valid(layout) {
        return 11;
    }
    let failed = checks.iter().find(|check| !check.0);
    failed.map_or(0, |&(_, number)| number)
}

/// Whether the layout is valid (document 01: whole; document 02, Note 8). Weights
/// that are equal both ways round, and 0 exactly where there is no edge, leave no
/// edge that is there one way round only.
fn is_valid(layout: &Layout) -> bool {
    layout.n <= PLACES as u64
        && order_is_valid(layout)
        && adjacency_is_valid(layout)
        && weights_match(layout)
        && weights_are_symmetric(layout)
}

/// Each vertex once, and 0 in the unused places.
fn order_is_valid(layout: &Layout) -> bool {
    let (used, unused) = layout.order.split_at(layout.n as usize);
    let below = used.iter().all(|&v| u64::from(v) < layout.n);
    let seen = used.iter().fold(0, |seen, &v| seen | 1_u64 << (v & 63));
    below && seen == bits_below(used.len()) && unused.iter().all(|&v| v == 0)
}

/// No vertex from n on is joined to any, and none to itself.
fn adjacency_is_valid(layout: &Layout) -> bool {
    let below = bits_below(layout.n as usize);
    let words = layout.adjacency.iter().enumerate();
    words.fold(0, |wrong, (v, word)| wrong | word & (!below | 1 << v)) == 0
}

/// Each weight is 0 exactly where there is no edge.
fn weights_match(layout: &Layout) -> bool {
    let rows = layout.weights.iter().map(non_zero);
    let words = rows.zip(layout.adjacency);
    words.fold(0, |wrong, (row, word)| wrong | row ^ word) == 0
}

/// Each weight is the same the other way round: each square of eight by eight
/// weights is the one across the diagonal with rows and columns exchanged.
fn weights_are_symmetric(layout: &Layout) -> bool {
    let mut wrong = 0;
    for i in 0..8 {
        for j in i..8 {
            let across = transposed_bytes(square(layout, i, j));
            let rows = across.into_iter().zip(square(layout, j, i));
            wrong = rows.fold(wrong, |wrong, (one, other)| wrong | one ^ other);
        }
    }
    wrong == 0
}

/// The weights in the i-th eight rows and the j-th eight columns, each row a word.
fn square(layout: &Layout, i: usize, j: usize) -> [u64; 8] {
    let word = |row: usize| layout.weights[8 * i + row].as_chunks().0[j];
    std::array::from_fn(|row| u64::from_le_bytes(word(row)))
}
