//! The rings worked by hand in document 01, starred or not.

mod common;

use common::{all_edges, complete, first_ring, layout, order, rising, FIRST};
use second::calls::{self, Crossing};
use second::chart;
use second::layout::Layout;
use second::list::listing;
use second::sifting::Convergence;

fn pair(layout: Layout) -> Crossing {
    calls::first_crossing(layout).value
}

#[test]
fn first_ring_has_one_crossing() {
    let ring = first_ring();
    assert_eq!(calls::count(ring).value, 1);
    assert_eq!(pair(ring), Crossing::Pair((0, 2), (1, 3)));
}

#[test]
fn same_edges_in_another_order_do_not_cross() {
    let ring = layout(&[0, 2, 1, 3], &FIRST);
    assert_eq!(ring.count, 0);
    assert_eq!(pair(ring), Crossing::None);
}

#[test]
fn edges_with_a_common_end_do_not_cross() {
    assert_eq!(layout(&[0, 1, 2, 3], &[(0, 2), (0, 3)]).count, 0);
}

#[test]
fn four_vertices_with_all_edges() {
    let ring = complete(4);
    assert_eq!(ring.count, 1);
    let run = calls::converge(ring, 1);
    let due = Convergence {
        reduction: 0,
        rounds: 1,
        converged: true,
        optima: 12,
    };
    assert_eq!((run.refusal, run.value), (0, due));
    assert_eq!(run.layout, ring);
}

#[test]
fn five_vertices_with_all_edges() {
    assert_eq!(complete(5).count, 5);
}

#[test]
fn most_possible_crossings() {
    assert_eq!(all_edges(64).len(), 2016);
    assert_eq!(complete(64).count, 635_376);
}

#[test]
fn sift_0_on_the_first_ring() {
    let sifted = calls::sift(first_ring(), 0);
    assert_eq!((sifted.refusal, sifted.value.reduction), (0, 1));
    assert_eq!(order(&sifted.layout), [1, 0, 2, 3]);
    assert_eq!(sifted.layout.count, 0);
}

#[test]
fn settling_the_first_ring() {
    let one = calls::converge(first_ring(), 1);
    assert_eq!((one.value.rounds, one.value.converged), (1, false));
    assert_eq!((one.value.reduction, one.layout.count), (1, 0));
    let two = calls::converge(first_ring(), 2);
    assert_eq!((two.value.rounds, two.value.converged), (2, true));
}

#[test]
fn move_3_behind_0() {
    let moved = calls::move_after(layout(&rising(4), &[]), 3, 0);
    assert_eq!(order(&moved.layout), [0, 3, 1, 2]);
}

#[test]
fn lay_from_0() {
    let ring = layout(&rising(4), &[(0, 1), (0, 2), (1, 3), (2, 3)]);
    let laid = calls::greedy_append(ring, 0);
    assert_eq!(order(&laid.layout), [2, 0, 1, 3]);
    assert_eq!((laid.refusal, laid.value), (0, 0));
}

#[test]
fn sixty_four_vertices_and_no_more() {
    let mut ring = Layout::EMPTY;
    for v in 0..64 {
        let added = calls::add_vertex(ring);
        assert_eq!((added.refusal, added.value), (0, v));
        ring = added.layout;
    }
    assert_eq!(order(&ring), rising(64));
    let refused = calls::add_vertex(ring);
    assert_eq!((refused.refusal, refused.value), (16, 0));
    assert_eq!(refused.layout, ring);
}

#[test]
fn limits_from_1_to_1000() {
    let refusal = |limit| calls::converge(first_ring(), limit).refusal;
    assert_eq!([1, 1000].map(refusal), [0, 0]);
    assert_eq!([0, 1001, u32::MAX].map(refusal), [17, 17, 17]);
}

#[test]
fn lay_on_the_empty_ring() {
    assert_eq!(calls::greedy_append(Layout::EMPTY, 0).refusal, 12);
}

#[test]
fn charts_with_bad_edges() {
    let refusal = |edges: &[u8]| chart::read(&common::chart(&[4], edges, &rising(4))).err();
    assert_eq!(refusal(&[2, 2]), Some(6));
    assert_eq!(refusal(&[0, 2, 2, 0]), Some(7));
    assert_eq!(refusal(&[0, 2, 9]), Some(5));
    assert_eq!(refusal(&[0, 2, 1, 3]), None);
}

#[test]
fn the_listing_of_the_first_ring() {
    let chart = [
        0x44, 0, 1, 4, 0x4C, 0, 4, 0, 2, 1, 3, 0x52, 0, 4, 0, 1, 2, 3,
    ];
    let due = "devices 4\nlinks 2\nbefore 1\nafter 0\nrounds 2\nsettled yes\norder 1 0 2 3\n";
    assert_eq!(listing(&chart), due);
}
