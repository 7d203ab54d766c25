//! Counting crossings by weight, all of them and those of each edge, and
//! finding the first one. A crossing counts the product of its two edges'
//! weights (document 02, Note 8).

use crate::circle::{Circle, Edge};
use crate::layout::{Layout, WeightedEdge};

/// A layout of the vertices in `order` with these edges that carries its
/// crossings.
pub fn counted(order: &[u8], edges: &[WeightedEdge]) -> Layout {
    let mut layout = Layout::new(order, edges);
    layout.count = crossings(&Circle::new(&layout));
    layout
}

/// The sums of the first 0, 1, 2 and so on numbers.
pub fn prefix_sums(numbers: &[u64]) -> Vec<u64> {
    let mut sums = vec![0];
    for (i, number) in numbers.iter().enumerate() {
        sums.push(sums[i] + number);
    }
    sums
}

/// The crossings of a layout, found in one sweep along the order. An edge is
/// open while the sweep stands between its ends. Where it closes, it crosses
/// the open edges that began after it, all of them together by their weights.
pub fn crossings(circle: &Circle) -> u64 {
    let mut total = 0;
    let mut open = vec![0; circle.n()];
    for (place, &v) in circle.order().iter().enumerate() {
        let neighbours = circle.neighbours(v).iter();
        let edges = neighbours.map(|w| (circle.position(w.vertex), w.weight));
        let (closing, opening): (Vec<_>, Vec<_>) = edges.partition(|&(other, _)| other < place);
        for &(start, weight) in &closing {
            open[start] -= weight;
        }
        let before = prefix_sums(&open[..place]);
        let crossed = closing
            .iter()
            .map(|&(start, weight)| weight * (before[place] - before[start + 1]));
        total += crossed.sum::<u64>();
        open[place] = opening.iter().map(|&(_, weight)| weight).sum();
    }
    total
}

/// The crossings that each edge takes part in, the edges in their sequence. An
/// edge is crossed by those that lead from a place between its ends to one
/// outside.
pub fn edge_crossings(circle: &Circle) -> Vec<u64> {
    let before = weights_before(circle);
    let crossed = |((a, b), weight): (Edge, u64)| {
        let (a, b) = (circle.position(a), circle.position(b));
        let (first, last) = (a.min(b), a.max(b));
        let outside = |of: &Vec<u64>| of[first] + of[circle.n()] - of[last + 1];
        let across: u64 = before[first + 1..last].iter().map(outside).sum();
        weight * across
    };
    circle.weighted_edges().into_iter().map(crossed).collect()
}

/// For each place, the weights of its vertex's edges to the first 0, 1, 2 and
/// so on places, summed.
fn weights_before(circle: &Circle) -> Vec<Vec<u64>> {
    let of_vertex = |&v: &usize| {
        let mut weights = vec![0; circle.n()];
        for w in circle.neighbours(v) {
            weights[circle.position(w.vertex)] = w.weight;
        }
        prefix_sums(&weights)
    };
    circle.order().iter().map(of_vertex).collect()
}

/// The lowest first edge that crosses another, with the lowest that it
/// crosses (document 01: the shown crossing pair). Weights don't matter.
pub fn first_crossing(circle: &Circle) -> Option<(Edge, Edge)> {
    let edges = circle.edges();
    let across = |&first: &Edge| {
        let second = edges.iter().find(|&&edge| separates(circle, first, edge));
        second.map(|&second| (first, second))
    };
    edges.iter().find_map(across)
}

/// Whether an edge parts the ends of another: one lies on the arc from a to b,
/// one on the arc from b to a, both inside.
fn separates(circle: &Circle, (a, b): Edge, (c, d): Edge) -> bool {
    let width = circle.distance(a, b);
    let from_a = |v| circle.distance(a, v);
    let on_first_arc = |v| from_a(v) > 0 && from_a(v) < width;
    let on_second_arc = |v| from_a(v) > width;
    on_first_arc(c) && on_second_arc(d) || on_first_arc(d) && on_second_arc(c)
}
