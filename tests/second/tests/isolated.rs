//! Isolated vertices at the back of what is laid: Note 2 of document 02.

mod common;

use std::cmp::Reverse;

use common::{all_graphs, by_pair, layout, order, rising, weighted, Random};
use second::calls;
use second::circle::Circle;
use second::crossings::crossings;
use second::layout::Layout;

/// The order, the tally and the crossings of what is laid.
type Laid = (Vec<u8>, u64, u64);

fn laid(layout: Layout, start: u8) -> Laid {
    let laid = calls::greedy_append(layout, u64::from(start));
    assert_eq!(laid.refusal, 0);
    let crossings = crossings(&Circle::new(&laid.layout));
    (order(&laid.layout).to_vec(), laid.value, crossings)
}

/// By the former rule, that of document 01 alone, which chooses and places
/// isolated vertices like any others.
fn formerly_laid(layout: Layout, start: u8) -> Laid {
    let (mut order, mut tally, mut placed) = (vec![start], 0, 1 << start);
    while let Some(v) = formerly_next(&layout, placed) {
        placed |= 1 << v;
        let (front, back) = end_crossings(&layout, &order, placed, v);
        order.insert(if front < back { 0 } else { order.len() }, v);
        tally += front.min(back);
    }
    let mut laid = layout;
    laid.order[..order.len()].copy_from_slice(&order);
    (order, tally, crossings(&Circle::new(&laid)))
}

/// The unplaced vertex with most placed, then fewest unplaced neighbours, then
/// the lowest number.
fn formerly_next(layout: &Layout, placed: u64) -> Option<u8> {
    let unplaced = (0..layout.n as u8).filter(|v| placed >> v & 1 == 0);
    unplaced.min_by_key(|&v| {
        let word = layout.adjacency[usize::from(v)];
        let near = (word & placed).count_ones();
        (Reverse(near), word.count_ones() - near, v)
    })
}

/// The crossings of the edges that v closes with open ones, v put in front and
/// v put at the back, by weight. v is among the placed ones already.
fn end_crossings(layout: &Layout, order: &[u8], placed: u64, v: u8) -> (u64, u64) {
    let weight = |a: u8, b: u8| u64::from(layout.weights[usize::from(a)][usize::from(b)]);
    let unplaced = (0..layout.n as u8).filter(|w| placed >> w & 1 == 0);
    let open = |part: &[u8]| -> u64 {
        let open = part
            .iter()
            .flat_map(|&q| unplaced.clone().map(move |w| weight(q, w)));
        open.sum()
    };
    let places = order.iter().enumerate();
    places.fold((0, 0), |(front, back), (place, &p)| {
        let closing = weight(v, p);
        (
            front + closing * open(&order[..place]),
            back + closing * open(&order[place + 1..]),
        )
    })
}

#[test]
fn the_worked_ring_by_both_rules() {
    let ring = layout(&rising(6), &[(1, 2), (1, 3), (2, 4), (3, 4)]);
    assert_eq!(laid(ring, 5), (vec![3, 5, 1, 2, 4, 0], 0, 0));
    assert_eq!(formerly_laid(ring, 5), (vec![3, 5, 0, 1, 2, 4], 0, 0));
}

/// Where no other vertex is isolated, both rules are the same.
#[test]
fn an_isolated_start_stays_the_first_placed() {
    let ring = layout(&rising(5), &[(0, 1), (0, 2), (1, 3), (2, 3)]);
    for rule in [laid, formerly_laid] {
        assert_eq!(rule(ring, 4), (vec![2, 4, 0, 1, 3], 0, 0));
    }
    let ring = layout(&rising(4), &[(0, 1)]);
    assert_eq!(laid(ring, 3), (vec![3, 0, 1, 2], 0, 0));
    assert_eq!(laid(ring, 2), (vec![2, 0, 1, 3], 0, 0));
    assert_eq!(formerly_laid(ring, 3), (vec![3, 2, 0, 1], 0, 0));
}

#[test]
fn without_edges_the_others_stand_behind_the_start() {
    for n in [1, 2, 5, 64] {
        for start in 0..n {
            let others = (0..n).filter(|&v| v != start);
            let due: Vec<u8> = std::iter::once(start).chain(others).collect();
            assert_eq!(laid(layout(&rising(n), &[]), start), (due, 0, 0));
        }
    }
}

/// A vertex of another component isn't isolated, though none of its neighbours
/// is placed.
#[test]
fn two_components_and_isolated_vertices() {
    let edges = [(1, 2), (1, 3), (2, 4), (3, 4), (6, 7)];
    let ring = layout(&rising(9), &edges);
    for (start, due, former) in [
        (
            6,
            vec![3, 6, 7, 1, 2, 4, 0, 5, 8],
            vec![3, 6, 7, 0, 5, 8, 1, 2, 4],
        ),
        (
            5,
            vec![3, 5, 6, 7, 1, 2, 4, 0, 8],
            vec![3, 5, 0, 8, 6, 7, 1, 2, 4],
        ),
        (
            1,
            vec![3, 1, 2, 4, 6, 7, 0, 5, 8],
            vec![3, 1, 2, 4, 0, 5, 8, 6, 7],
        ),
    ] {
        assert_eq!(laid(ring, start), (due, 0, 0));
        assert_eq!(formerly_laid(ring, start), (former, 0, 0));
    }
}

/// Of the former order the isolated vertices other than the start go to the
/// back in rising number; the tally and the crossings stay. Tells whether the
/// order is another one.
fn only_isolated_vertices_move(layout: Layout, start: u8) -> bool {
    let (former, tally, crossings) = formerly_laid(layout, start);
    let moves = |v: &u8| *v != start && layout.adjacency[usize::from(*v)] == 0;
    let stay = former.iter().copied().filter(|v| !moves(v));
    let due: Vec<u8> = stay.chain((0..layout.n as u8).filter(moves)).collect();
    let differs = due != former;
    let due = (due, tally, crossings);
    assert_eq!(laid(layout, start), due, "{layout:?} from {start}");
    differs
}

#[test]
fn only_isolated_vertices_move_in_graphs_of_five_vertices() {
    let mut differ = 0;
    for edges in all_graphs(5) {
        for start in 0..5 {
            let ring = layout(&rising(5), &edges);
            differ += usize::from(only_isolated_vertices_move(ring, start));
            let ring = weighted(&rising(5), &by_pair(&edges));
            differ += usize::from(only_isolated_vertices_move(ring, start));
        }
    }
    assert!(differ > 200, "{differ}");
}

/// A random layout from which the edges of all vertices are taken away, or of
/// about one in two, three or four.
fn with_isolated(random: &mut Random) -> Layout {
    let mut ring = random.weighted_layout();
    let one_in = 1 + random.below(4);
    for v in 0..ring.n as usize {
        if random.below(one_in) == 0 {
            let word = ring.adjacency[v];
            for w in (0..64).filter(|w| word >> w & 1 == 1) {
                ring.cut_edge(v, w);
            }
        }
    }
    ring
}

#[test]
fn only_isolated_vertices_move_in_random_graphs() {
    let mut differ = 0;
    for seed in 0..400 {
        let mut random = Random(seed);
        let ring = with_isolated(&mut random);
        let start = random.below(ring.n as usize) as u8;
        differ += usize::from(only_isolated_vertices_move(ring, start));
    }
    assert!(differ > 100, "{differ}");
}
