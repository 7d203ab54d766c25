//! graph6: Note 4 of document 02. Both ways the graph is a row of bits, each 0
//! or 1, six to a byte.

use super::layout::{crossings, empty, join, joined, list, weighted, Edge, Layout};

/// The refusal number, and the layout: the empty one where it isn't 0.
pub fn import(input: &[u8]) -> (u8, Layout) {
    let Some((n, rest)) = size(input) else {
        return (20, empty());
    };
    let pairs = pairs(n);
    if rest.len() != pairs.len().div_ceil(6) || !rest.iter().all(is_six_bits) {
        return (21, empty());
    }
    let row = row(rest);
    if row[pairs.len()..].contains(&1) {
        return (22, empty());
    }
    let mut layout = empty();
    layout.n = n as u64;
    for v in 0..n {
        layout.order[v] = v as u8;
    }
    for (i, &(v, w)) in pairs.iter().enumerate() {
        if row[i] == 1 {
            join(&mut layout, v, w, 1);
        }
    }
    layout.count = crossings(&list(&layout), &weighted(&layout));
    (0, layout)
}

/// The number of vertices (devices) and the bytes that remain, if the size is
/// in one of the two forms and at most 64.
pub fn size(input: &[u8]) -> Option<(usize, &[u8])> {
    if input.is_empty() || !is_six_bits(&input[0]) {
        return None;
    }
    if input[0] != 126 {
        return Some((input[0] as usize - 63, &input[1..]));
    }
    let n = long_size(input)?;
    (n == 63 || n == 64).then_some((n, &input[4..]))
}

/// The number in three bytes of six bits each behind the byte 126.
pub fn long_size(input: &[u8]) -> Option<usize> {
    if input.len() < 4 || input[0] != 126 || !input[1..4].iter().all(is_six_bits) {
        return None;
    }
    Some(number(&row(&input[1..4])))
}

fn is_six_bits(byte: &u8) -> bool {
    63 <= *byte && *byte <= 126
}

/// The pairs 0-1, 0-2, 1-2, 0-3 and so on by rising higher end.
fn pairs(n: usize) -> Vec<Edge> {
    let mut pairs = Vec::new();
    for high in 0..n {
        for low in 0..high {
            pairs.push((low, high));
        }
    }
    pairs
}

/// The bits of some bytes one behind the other, each byte from the high bit.
fn row(bytes: &[u8]) -> Vec<u8> {
    bytes
        .iter()
        .flat_map(|byte| bits(*byte as usize - 63, 6))
        .collect()
}

/// A number in so many bits, the high one first.
fn bits(number: usize, length: usize) -> Vec<u8> {
    (0..length).rev().map(|i| (number >> i & 1) as u8).collect()
}

/// The number that some bits stand for.
fn number(bits: &[u8]) -> usize {
    bits.iter().fold(0, |sum, &bit| 2 * sum + bit as usize)
}

/// The graph6 of a valid layout, which has no place for weights.
pub fn exported(layout: &Layout) -> Vec<u8> {
    let n = layout.n as usize;
    let mut row = if n <= 62 {
        bits(n, 6)
    } else {
        [bits(63, 6), bits(n, 18)].concat()
    };
    for (v, w) in pairs(n) {
        row.push(u8::from(joined(&layout.words, v, w)));
    }
    while row.len() % 6 != 0 {
        row.push(0);
    }
    row.chunks(6).map(|six| number(six) as u8 + 63).collect()
}
