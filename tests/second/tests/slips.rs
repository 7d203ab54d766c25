//! The slips in a sifting program that document 01 lists.

mod common;

use common::{complete, first_ring, layout, order};
use second::calls;
use second::circle::Circle;
use second::sifting::swap_change;

/// Document 003 puts u before the best place; the first ring would stay.
#[test]
fn a_sifted_vertex_goes_behind_the_best_place() {
    let sifted = calls::sift(first_ring(), 0).layout;
    assert_ne!(order(&sifted), [0, 1, 2, 3]);
    assert_eq!(order(&sifted), [1, 0, 2, 3]);
}

/// Lemma 1 leaves u and v in each other's neighbour sets, which shows +1 here.
#[test]
fn swapped_vertices_are_no_neighbours_of_each_other() {
    let ring = layout(&[0, 1, 2], &[(0, 1), (0, 2)]);
    assert_eq!(swap_change(&Circle::new(&ring), 0, 1), 0);
    assert_eq!(lemma_1_as_printed(&[0, 1, 2], &[(0, 1), (0, 2)]), 1);
}

/// The sums of Lemma 1 as printed, for the swap of the first two in the order:
/// less the pairs x in N(u), y in N(v) with y before u from x, and more the
/// pairs with x before v from y after the swap.
fn lemma_1_as_printed(before: &[usize; 3], edges: &[(usize, usize)]) -> i64 {
    let [u, v, w] = *before;
    let after = [v, u, w];
    let place = |order: &[usize; 3], x| order.iter().position(|&y| y == x).unwrap();
    let steps = |order: &[usize; 3], from, to| (place(order, to) + 3 - place(order, from)) % 3;
    let joined = |a, b| edges.contains(&(a, b)) || edges.contains(&(b, a));
    let mut change = 0;
    for x in (0..3).filter(|&x| joined(u, x)) {
        for y in (0..3).filter(|&y| joined(v, y)) {
            change -= i64::from(steps(before, x, y) < steps(before, x, u));
            change += i64::from(steps(&after, y, x) < steps(&after, y, v));
        }
    }
    change
}

/// Moving on a tie, four vertices with all edges would never settle.
#[test]
fn a_tie_moves_nothing() {
    let ring = complete(4);
    for u in 0..4 {
        let sifted = calls::sift(ring, u);
        assert_eq!((sifted.value.reduction, sifted.layout), (0, ring));
    }
    let run = calls::converge(ring, 1000);
    assert_eq!((run.value.rounds, run.value.converged), (1, true));
}

/// A run isn't settled because its limit came, even if nothing would move any
/// more.
#[test]
fn a_reached_limit_is_not_settled() {
    let run = calls::converge(first_ring(), 1);
    assert_eq!(calls::sifting_round(run.layout).value.moved, 0);
    assert!(!run.value.converged);
}
