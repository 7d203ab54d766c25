//! Reading and writing chart files.

use std::collections::BTreeSet;

use crate::circle::Circle;
use crate::crossings::counted;
use crate::layout::{Layout, WeightedEdge, PLACES};

/// The longest input that passes the first check.
pub const MAX_BYTES: usize = 8192;

/// The tags of a chart's fields. The last may be missing.
const SIZE: u8 = 0x44;
const EDGES: u8 = 0x4C;
const ORDER: u8 = 0x52;
const WEIGHTS: u8 = 0x57;

/// Reads a chart into a layout that carries its crossings, or gives the number
/// of the first check (document 01: question) that fails.
pub fn read(input: &[u8]) -> Result<Layout, u8> {
    if input.len() > MAX_BYTES {
        return Err(1);
    }
    let fields = fields(input).ok_or(2)?;
    let (size, edges, order, weights) = match fields[..] {
        [(SIZE, size), (EDGES, edges), (ORDER, order)] => (size, edges, order, None),
        [(SIZE, size), (EDGES, edges), (ORDER, order), (WEIGHTS, weights)] => {
            (size, edges, order, Some(weights))
        }
        _ => return Err(3),
    };
    let n = match *size {
        [n] if usize::from(n) <= PLACES => n,
        _ => return Err(4),
    };
    let edges = read_edges(edges, n)?;
    let mut sorted = order.to_vec();
    sorted.sort_unstable();
    if !sorted.into_iter().eq(0..n) {
        return Err(8);
    }
    let weights = read_weights(weights, edges.len())?;
    let weighted = edges.into_iter().zip(weights);
    let weighted: Vec<WeightedEdge> = weighted.map(|((a, b), weight)| (a, b, weight)).collect();
    Ok(counted(order, &weighted))
}

/// Divides the input into fields of tag and body.
fn fields(mut rest: &[u8]) -> Option<Vec<(u8, &[u8])>> {
    let mut fields = Vec::new();
    while !rest.is_empty() {
        let (&[tag, high, low], after) = rest.split_first_chunk()?;
        let length = usize::from(u16::from_be_bytes([high, low]));
        let (body, after) = after.split_at_checked(length)?;
        fields.push((tag, body));
        rest = after;
    }
    Some(fields)
}

/// The edges, ends as written.
fn read_edges(body: &[u8], n: u8) -> Result<Vec<(u8, u8)>, u8> {
    if !body.len().is_multiple_of(2) {
        return Err(5);
    }
    let edges: Vec<(u8, u8)> = body.chunks(2).map(|ends| (ends[0], ends[1])).collect();
    if edges.iter().any(|&(a, b)| a >= n || b >= n || a == b) {
        return Err(6);
    }
    let pairs: BTreeSet<_> = edges.iter().map(|&(a, b)| (a.min(b), a.max(b))).collect();
    if pairs.len() < edges.len() {
        return Err(7);
    }
    Ok(edges)
}

/// The weights of m edges, each 1 where the field is missing.
fn read_weights(body: Option<&[u8]>, m: usize) -> Result<Vec<u8>, u8> {
    let Some(body) = body else {
        return Ok(vec![1; m]);
    };
    if body.len() != m {
        return Err(24);
    }
    if body.contains(&0) {
        return Err(25);
    }
    Ok(body.to_vec())
}

/// The chart of a valid layout: its edges lower end first, sorted by lower,
/// then by higher end, and their weights, unless each is 1.
pub fn bytes(layout: &Layout) -> Vec<u8> {
    let circle = Circle::new(layout);
    let ends: Vec<usize> = circle
        .edges()
        .into_iter()
        .flat_map(<[_; 2]>::from)
        .collect();
    let mut fields = vec![
        field(SIZE, &[circle.n()]),
        field(EDGES, &ends),
        field(ORDER, circle.order()),
    ];
    if layout.is_weighted() {
        let edges = circle.weighted_edges().into_iter();
        let weights: Vec<usize> = edges.map(|(_, weight)| weight as usize).collect();
        fields.push(field(WEIGHTS, &weights));
    }
    fields.concat()
}

/// A field: its tag, the length of its body, and the body.
fn field(tag: u8, body: &[usize]) -> Vec<u8> {
    let length = (body.len() as u16).to_be_bytes();
    let body = body.iter().map(|&number| number as u8);
    [tag].into_iter().chain(length).chain(body).collect()
}
