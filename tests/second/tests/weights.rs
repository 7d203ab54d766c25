//! Edges that weigh: Note 8 of document 02.

mod common;

use common::{
    all_edges, chart, complete, edge_bytes, field, first_ring, heaviest, layout, of_weight, order,
    rising, weighted, weighted_chart, Random,
};
use second::calls::{self, Crossing};
use second::chart::read;
use second::circle::Circle;
use second::layout::{Layout, WeightedEdge};
use second::list::listing;
use second::sifting::{Convergence, Round, Sift};

/// The weights of all edges of four vertices. Of the three pairs that can cross,
/// 0-2 with 1-3 counts 6, 0-3 with 1-2 counts 2, and 0-1 with 2-3 counts 1.
const FOUR: [WeightedEdge; 6] = [
    (0, 1, 1),
    (0, 2, 2),
    (0, 3, 1),
    (1, 2, 2),
    (1, 3, 3),
    (2, 3, 1),
];

fn four(order: &[u8]) -> Layout {
    weighted(order, &FOUR)
}

/// The crossings of each edge.
fn numbers(layout: Layout) -> Vec<u64> {
    common::written(calls::edge_crossings, layout)
}

#[test]
fn a_crossing_counts_the_product_of_its_weights() {
    let crossing = |a, b| weighted(&rising(4), &[(0, 2, a), (1, 3, b)]);
    for (a, b, due) in [(1, 1, 1), (1, 255, 255), (2, 3, 6), (255, 255, 65_025)] {
        let ring = crossing(a, b);
        assert_eq!((ring.count, calls::count(ring).value), (due, due));
        assert_eq!(numbers(ring), [due, due]);
        let sifted = calls::sift(ring, 0);
        let (reduction, optima) = (due, 2);
        assert_eq!(sifted.value, Sift { reduction, optima });
        assert_eq!(
            (order(&sifted.layout), sifted.layout.count),
            (&[1, 0, 2, 3][..], 0)
        );
    }
    assert_eq!(
        [[0, 1, 2, 3], [0, 2, 3, 1], [0, 2, 1, 3]].map(|o| four(&o).count),
        [6, 2, 1]
    );
}

#[test]
fn the_most_that_64_vertices_can_count() {
    let ring = heaviest(64);
    assert_eq!(ring.count, 41_315_324_400);
    assert_eq!(numbers(ring).iter().max(), Some(&(961 * 65_025)));
    assert_eq!(numbers(ring).iter().sum::<u64>(), 2 * 41_315_324_400);
    let laid = calls::greedy_append(ring, 0);
    assert_eq!(
        (laid.value, laid.layout.count),
        (41_315_324_400, 41_315_324_400)
    );
    let sifted = calls::sift(ring, 5);
    assert_eq!((sifted.value.reduction, sifted.value.optima), (0, 63));
    assert_eq!(sifted.layout, ring);
    let one_less = calls::remove_edge(ring, 0, 32);
    assert_eq!(one_less.layout.count, 41_315_324_400 - 961 * 65_025);
}

/// Without weights each place of each vertex is best here.
#[test]
fn a_vertex_is_sifted_by_weight() {
    let sifted = calls::sift(four(&rising(4)), 0);
    let (reduction, optima) = (5, 1);
    assert_eq!(sifted.value, Sift { reduction, optima });
    assert_eq!(
        (order(&sifted.layout), sifted.layout.count),
        (&[1, 2, 0, 3][..], 1)
    );
    let round = calls::sifting_round(four(&rising(4)));
    let due = Round {
        reduction: 5,
        moved: 1,
        optima: 4,
    };
    assert_eq!((round.value, round.layout), (due, sifted.layout));
    let run = calls::converge(four(&rising(4)), 1000);
    let due = Convergence {
        reduction: 5,
        rounds: 2,
        converged: true,
        optima: 8,
    };
    assert_eq!((run.value, run.layout), (due, sifted.layout));
    assert_eq!(calls::sift(complete(4), 0).layout, complete(4));
}

/// Behind 1 the vertex 0 has two crossings, each of weight 1, behind 2 and 3 it
/// has one, of weight 3.
#[test]
fn the_least_weight_is_not_the_least_number() {
    let edges = [(0, 1, 3), (0, 3, 1), (1, 2, 1), (1, 4, 3), (2, 4, 1)];
    let heavy = weighted(&rising(5), &edges);
    let light = layout(&rising(5), &edges.map(|(a, b, _)| (a, b)));
    for (ring, places, due, sift) in [
        (heavy, [2, 3, 3, 4], [1, 0, 2, 3, 4], (2, 1)),
        (light, [2, 1, 1, 2], [1, 2, 0, 3, 4], (1, 2)),
    ] {
        let counts = [1, 2, 3, 4].map(|v| calls::move_after(ring, 0, v).layout.count);
        assert_eq!(counts, places);
        let sifted = calls::sift(ring, 0);
        let (reduction, optima) = sift;
        assert_eq!(sifted.value, Sift { reduction, optima });
        assert_eq!(order(&sifted.layout), due);
    }
}

/// The ring of which lay chooses another end by weight than by number.
#[test]
fn lay_compares_its_ends_by_weight() {
    let laid = calls::greedy_append(four(&rising(4)), 2);
    assert_eq!((order(&laid.layout), laid.value), (&[1, 2, 0, 3][..], 1));
    assert_eq!(laid.layout.count, 1);
    let laid = calls::greedy_append(complete(4), 2);
    assert_eq!((order(&laid.layout), laid.value), (&[2, 0, 1, 3][..], 1));
}

/// In each graph a vertex comes later though it weighs more: it has a higher
/// number, fewer placed neighbours, or more unplaced ones.
#[test]
fn lay_chooses_by_numbers_of_edges() {
    let laid = |n, edges: &[WeightedEdge]| {
        let laid = calls::greedy_append(weighted(&rising(n), edges), 0);
        order(&laid.layout).to_vec()
    };
    assert_eq!(laid(3, &[(0, 1, 1), (0, 2, 255)]), [0, 1, 2]);
    let edges = [
        (0, 1, 1),
        (0, 2, 1),
        (1, 2, 1),
        (0, 3, 255),
        (3, 4, 1),
        (3, 5, 1),
    ];
    assert_eq!(laid(6, &edges), [0, 1, 2, 3, 4, 5]);
    let edges = [(0, 1, 1), (0, 2, 1), (1, 3, 1), (1, 4, 1), (2, 5, 255)];
    assert_eq!(laid(6, &edges), [0, 2, 5, 1, 3, 4]);
}

#[test]
fn the_shown_pair_ignores_weights() {
    let edges = [(0, 3, 1), (1, 4, 1), (2, 5, 255)];
    let pair = calls::first_crossing(weighted(&rising(6), &edges)).value;
    assert_eq!(pair, Crossing::Pair((0, 3), (1, 4)));
}

#[test]
fn an_edge_is_put_in_with_its_weight_and_taken_out_with_it() {
    let ring = layout(&rising(4), &[(0, 2)]);
    for weight in [1, 2, 255] {
        let linked = calls::add_edge(ring, 3, 1, weight);
        assert_eq!((linked.refusal, linked.layout.count), (0, weight.into()));
        let due = [(0, 2, 1), (1, 3, weight)];
        assert_eq!(linked.layout, weighted(&rising(4), &due));
        let [one, other] = [linked.layout.weights[1][3], linked.layout.weights[3][1]];
        assert_eq!([one, other], [weight; 2]);
        let unlinked = calls::remove_edge(linked.layout, 1, 3);
        assert_eq!((unlinked.refusal, unlinked.layout), (0, ring));
    }
    let refused = calls::add_edge(ring, 3, 1, 0);
    assert_eq!((refused.refusal, refused.layout), (25, ring));
}

#[test]
fn the_carried_count_goes_round_at_2_to_the_64() {
    let carrying = |count| Layout {
        count,
        ..layout(&rising(4), &[(0, 2)])
    };
    for (before, weight, after) in [
        (u64::MAX, 1, 0),
        (u64::MAX - 254, 255, 0),
        (u64::MAX, 255, 254),
        (u64::from(u32::MAX), 1, 1 << 32),
        ((1 << 32) - 200, 255, (1 << 32) + 55),
    ] {
        let linked = calls::add_edge(carrying(before), 1, 3, weight).layout;
        assert_eq!(linked.count, after);
        assert_eq!(calls::remove_edge(linked, 1, 3).layout, carrying(before));
    }
    let laid = calls::greedy_append(carrying(u64::MAX), 0).layout;
    assert_eq!(calls::count(laid).value, u64::MAX);
}

/// Where all weights are the same, each crossing counts its square, and nothing
/// is chosen otherwise than without weights.
#[test]
fn equal_weights_change_nothing_but_the_numbers() {
    for seed in 0..60 {
        let mut random = Random(seed);
        let ring = random.layout();
        let edges = Circle::new(&ring).edges().into_iter();
        let edges: Vec<(u8, u8)> = edges.map(|(a, b)| (a as u8, b as u8)).collect();
        let u = random.below(ring.n as usize) as u64;
        for weight in [1, 2, 255] {
            let heavy = weighted(order(&ring), &of_weight(weight, &edges));
            let square = u64::from(weight).pow(2);
            assert_eq!(heavy.count, square * ring.count);
            let [light, weighed] = [ring, heavy].map(|ring| calls::greedy_append(ring, u));
            assert_eq!(order(&light.layout), order(&weighed.layout));
            assert_eq!(square * light.value, weighed.value);
            let [light, weighed] = [ring, heavy].map(|ring| calls::sift(ring, u));
            assert_eq!(order(&light.layout), order(&weighed.layout));
            assert_eq!(square * light.value.reduction, weighed.value.reduction);
            assert_eq!(light.value.optima, weighed.value.optima);
            let [light, weighed] = [ring, heavy].map(|ring| calls::converge(ring, 3));
            assert_eq!(order(&light.layout), order(&weighed.layout));
            let due = Convergence {
                reduction: square * light.value.reduction,
                ..light.value
            };
            assert_eq!(weighed.value, due);
        }
    }
}

#[test]
fn calls_leave_weights_alone() {
    for seed in 0..60 {
        let mut random = Random(seed);
        let ring = random.weighted_layout();
        let [u, v] = [0, 1].map(|_| random.below(ring.n as usize) as u64);
        for layout in [
            calls::add_vertex(ring).layout,
            calls::move_after(ring, u, v).layout,
            calls::greedy_append(ring, u).layout,
            calls::sift(ring, u).layout,
            calls::converge(ring, 2).layout,
        ] {
            assert_eq!(
                (layout.weights, layout.adjacency),
                (ring.weights, ring.adjacency)
            );
            assert!(layout.is_valid());
        }
    }
}

#[test]
fn a_field_of_weights_is_read() {
    let edges = [3, 1, 0, 2];
    let ring = read(&weighted_chart(&[4], &edges, &rising(4), &[7, 2]));
    assert_eq!(ring, Ok(weighted(&rising(4), &[(0, 2, 2), (1, 3, 7)])));
    assert_eq!(ring.map(|ring| ring.count), Ok(14));
    let ones = read(&weighted_chart(&[4], &edges, &rising(4), &[1, 1]));
    assert_eq!(ones, Ok(first_ring()));
    assert_eq!(ones, read(&chart(&[4], &edges, &rising(4))));
    let none = read(&weighted_chart(&[3], &[], &rising(3), &[]));
    assert_eq!(none, Ok(layout(&rising(3), &[])));
    assert_eq!(
        read(&weighted_chart(&[0], &[], &[], &[])),
        Ok(Layout::EMPTY)
    );
}

#[test]
fn a_field_of_weights_is_refused() {
    let refusal = |weights: &[u8]| {
        let chart = weighted_chart(&[4], &[0, 2, 1, 3], &rising(4), weights);
        read(&chart).err()
    };
    for weights in [&[][..], &[1], &[0], &[1, 1, 1], &[0, 0, 0], &[9; 300]] {
        assert_eq!(refusal(weights), Some(24), "{weights:?}");
    }
    for weights in [[0, 1], [1, 0], [0, 0], [255, 0]] {
        assert_eq!(refusal(&weights), Some(25), "{weights:?}");
    }
    assert_eq!(read(&weighted_chart(&[3], &[], &rising(3), &[1])), Err(24));
    assert_eq!(read(&weighted_chart(&[0], &[], &[], &[0])), Err(24));
}

/// 24 and 25 are asked behind 8, and behind all before it.
#[test]
fn a_field_of_weights_is_asked_last() {
    let refusal = |size: &[u8], edges: &[u8], order: &[u8], weights: &[u8]| {
        read(&weighted_chart(size, edges, order, weights)).err()
    };
    for weights in [&[][..], &[0], &[0, 0], &[1, 1]] {
        assert_eq!(refusal(&[65], &[0, 2, 1, 3], &rising(4), weights), Some(4));
        assert_eq!(refusal(&[4], &[0, 2, 1], &rising(4), weights), Some(5));
        assert_eq!(refusal(&[4], &[0, 2, 1, 4], &rising(4), weights), Some(6));
        assert_eq!(refusal(&[4], &[0, 2, 2, 0], &rising(4), weights), Some(7));
        assert_eq!(
            refusal(&[4], &[0, 2, 1, 3], &[0, 1, 2, 2], weights),
            Some(8)
        );
    }
}

#[test]
fn a_field_of_weights_stands_last_and_once() {
    let fields = [
        field(0x44, &[4]),
        field(0x4C, &[0, 2, 1, 3]),
        field(0x52, &rising(4)),
        field(0x57, &[1, 1]),
    ];
    let refusal = |places: &[usize]| {
        let chosen: Vec<&[u8]> = places.iter().map(|&place| &fields[place][..]).collect();
        read(&chosen.concat()).err()
    };
    assert_eq!(refusal(&[0, 1, 2, 3]), None);
    for places in [
        &[0, 1, 2, 3, 3][..],
        &[0, 1, 3, 2],
        &[0, 3, 1, 2],
        &[3, 0, 1, 2],
        &[0, 1, 3],
        &[0, 2, 3],
        &[3],
        &[0, 1, 2, 3, 2],
    ] {
        assert_eq!(refusal(places), Some(3), "{places:?}");
    }
    let chart = weighted_chart(&[4], &[0, 2, 1, 3], &rising(4), &[1, 1]);
    assert_eq!(read(&chart[..chart.len() - 1]).err(), Some(2));
    assert_eq!(read(&chart[..chart.len() - 4]).err(), Some(2));
}

#[test]
fn a_listing_has_the_sums() {
    let edges: Vec<(u8, u8)> = FOUR.iter().map(|&(a, b, _)| (a, b)).collect();
    let weights: Vec<u8> = FOUR.iter().map(|&(.., weight)| weight).collect();
    let text = listing(&weighted_chart(
        &[4],
        &edge_bytes(&edges),
        &rising(4),
        &weights,
    ));
    let due = "devices 4\nlinks 6\nbefore 6\nafter 1\nrounds 2\nsettled yes\norder 1 2 0 3\n";
    assert_eq!(text, due);
    let all = edge_bytes(&all_edges(64));
    let text = listing(&weighted_chart(&[64], &all, &rising(64), &[255; 2016]));
    let due = "devices 64\nlinks 2016\nbefore 41315324400\nafter 41315324400\nrounds 1\n";
    assert!(text.starts_with(due), "{text}");
    let refused = listing(&weighted_chart(&[4], &[0, 1], &rising(4), &[0]));
    assert_eq!(refused, "refused 25\n");
}
