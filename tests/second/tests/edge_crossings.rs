//! The crossings of each edge: Note 7 of document 02.

mod common;

use common::{
    all_edges, all_graphs, complete, first_ring, heaviest, layout, many_weighted_layouts, rising,
    weighted, Random, FIRST,
};
use second::calls;
use second::circle::{Circle, Edge};
use second::crossings::crossings;
use second::layout::Layout;

/// The numbers of the edges, without the entries beyond them.
fn numbers(layout: Layout) -> Vec<u64> {
    common::written(calls::edge_crossings, layout)
}

/// The same, the other edges looked at one by one for each.
fn one_by_one(circle: &Circle) -> Vec<u64> {
    let places = |((a, b), weight): (Edge, u64)| {
        let (a, b) = (circle.position(a), circle.position(b));
        (a.min(b), a.max(b), weight)
    };
    let edges = circle.weighted_edges().into_iter();
    let edges: Vec<(usize, usize, u64)> = edges.map(places).collect();
    let crossed = |&(a, b, weight): &(usize, usize, u64)| {
        let cross = |c, d| a < c && c < b && b < d || c < a && a < d && d < b;
        let across = edges.iter().filter(|&&(c, d, _)| cross(c, d));
        across.map(|&(.., other)| weight * other).sum()
    };
    edges.iter().map(crossed).collect()
}

/// Each number is that of the edge, and their sum is twice the crossings. Gives
/// the numbers.
fn are_those_of_the_edges(layout: Layout) -> Vec<u64> {
    let circle = Circle::new(&layout);
    let numbers = numbers(layout);
    assert_eq!(numbers, one_by_one(&circle), "{layout:?}");
    let sum: u64 = numbers.iter().sum();
    assert_eq!(sum, 2 * crossings(&circle), "{layout:?}");
    numbers
}

#[test]
fn the_worked_rings() {
    assert_eq!(numbers(first_ring()), [1, 1]);
    assert_eq!(numbers(layout(&[0, 2, 1, 3], &FIRST)), [0, 0]);
    assert_eq!(numbers(layout(&rising(4), &[(0, 2), (0, 3)])), [0, 0]);
    let square = [(0, 1), (0, 2), (1, 3), (2, 3)];
    assert_eq!(numbers(layout(&rising(4), &square)), [0, 1, 1, 0]);
    assert_eq!(numbers(layout(&[2, 0, 1, 3], &square)), [0, 0, 0, 0]);
    assert_eq!(numbers(complete(4)), [0, 1, 0, 0, 1, 0]);
    assert_eq!(numbers(complete(5)), [0, 2, 2, 0, 0, 2, 2, 0, 2, 0]);
}

/// One edge crosses both others, which do not cross each other.
#[test]
fn edges_may_have_different_numbers() {
    let edges = [(0, 3), (1, 5), (2, 4)];
    assert_eq!(numbers(layout(&rising(6), &edges)), [2, 1, 1]);
    assert_eq!(numbers(layout(&[0, 1, 2, 4, 3, 5], &edges)), [1, 1, 0]);
}

/// Their sequence is that of the chart, whatever the order.
#[test]
fn edges_are_sorted_by_number_not_by_place() {
    let ring = layout(&[3, 0, 4, 1, 5, 2], &[(3, 4), (1, 0), (4, 2)]);
    assert_eq!(Circle::new(&ring).edges(), [(0, 1), (2, 4), (3, 4)]);
    assert_eq!(numbers(ring), [2, 1, 1]);
}

#[test]
fn every_graph_of_five_vertices() {
    let mut most = 0;
    for edges in all_graphs(5) {
        for order in [[0, 1, 2, 3, 4], [3, 1, 4, 0, 2]] {
            let numbers = are_those_of_the_edges(layout(&order, &edges));
            most = most.max(numbers.into_iter().max().unwrap_or(0));
        }
    }
    assert_eq!(most, 2);
}

#[test]
fn random_graphs() {
    let mut beside = 0;
    for seed in 0..200 {
        let numbers = are_those_of_the_edges(Random(seed).layout());
        let uncrossed = numbers.iter().filter(|&&number| number == 0).count();
        beside += usize::from(uncrossed > 0 && uncrossed < numbers.len());
    }
    assert!(beside > 100, "{beside}");
}

/// An edge that has k vertices on its one side is crossed by the edges from each
/// of these to each of the n - 2 - k on the other.
#[test]
fn all_edges_of_64_vertices() {
    let number = |(a, b): (u8, u8)| {
        let between = u64::from(b - a - 1);
        between * (62 - between)
    };
    let due: Vec<u64> = all_edges(64).into_iter().map(number).collect();
    assert_eq!(are_those_of_the_edges(complete(64)), due);
    assert_eq!((due.len(), due.iter().max()), (2016, Some(&961)));
    assert_eq!(due.iter().sum::<u64>(), 2 * 635_376);
}

#[test]
fn graphs_with_weights() {
    many_weighted_layouts().for_each(|ring| {
        are_those_of_the_edges(ring);
    });
}

/// An edge counts, for each edge that it crosses, the product of the two weights.
#[test]
fn weights_of_three_edges() {
    let edges = [(0, 3, 2), (1, 5, 3), (2, 4, 5)];
    assert_eq!(numbers(weighted(&rising(6), &edges)), [16, 6, 10]);
    assert_eq!(numbers(weighted(&[0, 1, 2, 4, 3, 5], &edges)), [6, 6, 0]);
}

/// The carried count is not looked at.
#[test]
fn any_count_may_be_carried() {
    for count in [0, 2, u64::MAX] {
        let ring = Layout {
            count,
            ..first_ring()
        };
        assert_eq!(numbers(ring), [1, 1]);
    }
}

#[test]
fn a_table_is_long_enough_or_untouched() {
    for (ring, length) in [
        (layout(&rising(2), &[(0, 1)]), 1),
        (first_ring(), 2),
        (complete(5), 10),
        (complete(64), 2016),
        (heaviest(64), 2016),
    ] {
        common::is_long_enough_or_untouched(calls::edge_crossings, ring, length, 23);
    }
}

#[test]
fn without_edges_no_entry_is_needed_or_written() {
    for n in [0, 1, 2, 64] {
        let ring = layout(&rising(n), &[]);
        common::is_long_enough_or_untouched(calls::edge_crossings, ring, 0, 23);
    }
}

#[test]
fn validity_is_asked_before_the_length() {
    let mut ring = first_ring();
    ring.adjacency[3] = 0;
    for length in [0, 1, 2, 2100] {
        common::is_untouched(calls::edge_crossings, ring, length, 11);
    }
}
