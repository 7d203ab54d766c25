//! How many candidate places have the least crossings: Note 3 of document 02.

mod common;

use std::collections::BTreeSet;

use common::{
    all_graphs, by_pair, complete, first_ring, heaviest, layout, rising, weighted, Random,
};
use second::calls;
use second::layout::Layout;
use second::sifting::Sift;

/// The optima of u, every candidate made by a move.
fn counted(layout: Layout, u: u64) -> u32 {
    let others = (0..layout.n).filter(|&v| v != u);
    let crossings: Vec<u64> = others
        .map(|v| calls::move_after(layout, u, v).layout.count)
        .collect();
    let least = crossings.iter().min();
    crossings.iter().filter(|&c| Some(c) == least).count() as u32
}

/// A sift answers the optima that are counted before and after it, and the same
/// when it is repeated. Gives its answer.
fn sifted(layout: Layout, u: u64) -> Sift {
    let first = calls::sift(layout, u);
    for counted in [layout, first.layout].map(|layout| counted(layout, u)) {
        assert_eq!(first.value.optima, counted, "{layout:?} {u}");
    }
    let again = calls::sift(first.layout, u);
    assert_eq!(again.layout, first.layout, "{layout:?} {u}");
    let due = Sift {
        reduction: 0,
        ..first.value
    };
    assert_eq!(again.value, due, "{layout:?} {u}");
    first.value
}

#[test]
fn the_worked_rings() {
    assert_eq!(calls::sift(first_ring(), 0).value.optima, 2);
    assert_eq!(calls::sifting_round(first_ring()).value.optima, 8);
    let settled = |limit| calls::converge(first_ring(), limit).value.optima;
    assert_eq!([1, 2, 1000].map(settled), [8, 16, 16]);
    for u in 0..4 {
        assert_eq!(calls::sift(complete(4), u).value.optima, 3);
    }
    assert_eq!(calls::sift(complete(2), 1).value.optima, 1);
    assert_eq!(calls::sift(layout(&[0], &[]), 0).value.optima, 0);
    assert_eq!(calls::sifting_round(Layout::EMPTY).value.optima, 0);
    assert_eq!(calls::converge(Layout::EMPTY, 2).value.optima, 0);
}

/// From 1 to 4 of the places are best; those of a vertex that moves do not have
/// the present one among them.
#[test]
fn every_graph_of_five_vertices() {
    let mut met = BTreeSet::new();
    for edges in all_graphs(5) {
        for order in [[0, 1, 2, 3, 4], [3, 1, 4, 0, 2]] {
            for u in 0..5 {
                let Sift { reduction, optima } = sifted(layout(&order, &edges), u);
                met.insert((reduction > 0, optima));
                sifted(weighted(&order, &by_pair(&edges)), u);
            }
        }
    }
    let stays = (1..=4).map(|optima| (false, optima));
    let moves = (1..=3).map(|optima| (true, optima));
    assert!(met.iter().copied().eq(stays.chain(moves)), "{met:?}");
}

#[test]
fn random_graphs() {
    let mut moves = 0;
    for seed in 0..300 {
        for layout in [Random::layout, Random::weighted_layout] {
            let mut random = Random(seed);
            let ring = layout(&mut random);
            let u = random.below(ring.n as usize) as u64;
            moves += usize::from(sifted(ring, u).reduction > 0);
        }
    }
    assert!(moves > 200, "{moves}");
}

#[test]
fn every_place_is_best_with_all_edges_and_with_none() {
    for n in [2, 3, 5, 17, 64] {
        for ring in [complete(n), heaviest(n), layout(&rising(n), &[])] {
            let places = u32::from(n) - 1;
            for u in 0..n {
                assert_eq!(calls::sift(ring, u.into()).value.optima, places);
            }
            let round = calls::sifting_round(ring).value;
            assert_eq!((round.moved, round.optima), (0, u32::from(n) * places));
        }
    }
}

#[test]
fn every_place_is_best_for_an_isolated_vertex() {
    for seed in 0..100 {
        let ring = Random(seed).weighted_layout();
        let added = calls::add_vertex(ring);
        if added.refusal == 0 {
            let sifted = calls::sift(added.layout, added.value).value;
            assert_eq!((sifted.reduction, u64::from(sifted.optima)), (0, ring.n));
        }
    }
}
