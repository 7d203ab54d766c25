//! Reading and writing graph6, the format of the nauty tools (document 02,
//! Note 4): the size, and the upper triangle of the adjacency matrix, column by
//! column.

use std::ops::RangeInclusive;

use crate::circle::Circle;
use crate::crossings::counted;
use crate::layout::{Layout, WeightedEdge};

/// Each byte stands for so many bits, the high one first.
const BITS: usize = 6;

/// What a byte has more than its bits.
const OFFSET: u8 = 63;

/// The byte before a size of three bytes.
const LONG: u8 = OFFSET + 63;

/// The sizes that have one byte, and those that have three.
const SHORT_SIZES: RangeInclusive<usize> = 0..=62;
const LONG_SIZES: RangeInclusive<usize> = 63..=64;

/// Reads a graph6 into a layout in rising order with weights of 1 that carries
/// its crossings, or gives the number of the first check that fails.
pub fn read(input: &[u8]) -> Result<Layout, u8> {
    let (n, data) = read_size(input).ok_or(20)?;
    let bits: Option<Vec<usize>> = data.iter().map(|&byte| bits_of(byte)).collect();
    let due = column(n);
    let bits = bits
        .filter(|bits| bits.len() == due.div_ceil(BITS))
        .ok_or(21)?;
    let is_set = |bit: usize| bits[bit / BITS] & mask(bit) != 0;
    if (due..BITS * bits.len()).any(is_set) {
        return Err(22);
    }
    let below = |w: usize| (0..w).filter(move |v| is_set(column(w) + v));
    let edges = |w: usize| below(w).map(move |v| (v as u8, w as u8, 1));
    let edges: Vec<WeightedEdge> = (0..n).flat_map(edges).collect();
    let order: Vec<u8> = (0..n as u8).collect();
    Ok(counted(&order, &edges))
}

/// The size, if it is in the form due to it, and what comes behind it.
fn read_size(input: &[u8]) -> Option<(usize, &[u8])> {
    let (size, data, sizes) = match input {
        [LONG, behind @ ..] => {
            let (size, data) = behind.split_at_checked(3)?;
            (size, data, LONG_SIZES)
        }
        _ => {
            let (size, data) = input.split_at_checked(1)?;
            (size, data, SHORT_SIZES)
        }
    };
    let add = |n, &byte| Some(n << BITS | bits_of(byte)?);
    let n = size.iter().try_fold(0, add)?;
    sizes.contains(&n).then_some((n, data))
}

/// The bits of a byte, if it stands for some.
fn bits_of(byte: u8) -> Option<usize> {
    (OFFSET..=LONG)
        .contains(&byte)
        .then(|| usize::from(byte - OFFSET))
}

/// How many bits stand before the column of a vertex: those of its predecessors,
/// each of which has as many as its number.
fn column(w: usize) -> usize {
    w * w.saturating_sub(1) / 2
}

/// Where in its byte a bit stands.
fn mask(bit: usize) -> usize {
    1 << (BITS - 1) >> (bit % BITS)
}

/// The graph6 of a valid layout, which drops weights. Each vertex has the bits of its neighbours
/// with lower numbers, which stand first in its sorted list.
pub fn bytes(layout: &Layout) -> Vec<u8> {
    let mut circle = Circle::new(layout);
    let n = circle.n();
    circle.reorder((0..n).collect());
    let mut data = vec![0; column(n).div_ceil(BITS)];
    for w in 0..n {
        for v in circle.neighbours(w).iter().take_while(|v| v.vertex < w) {
            let bit = column(w) + v.vertex;
            data[bit / BITS] |= mask(bit);
        }
    }
    let parts = [size(n), data].concat();
    parts.iter().map(|&bits| OFFSET + bits as u8).collect()
}

/// The bits of the bytes of a size.
fn size(n: usize) -> Vec<usize> {
    if SHORT_SIZES.contains(&n) {
        return vec![n];
    }
    let low = (1 << BITS) - 1;
    vec![low, n >> (2 * BITS), n >> BITS & low, n & low]
}
