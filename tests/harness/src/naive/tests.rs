//! The naive model on the rings worked by hand in document 01, on the points
//! that it leaves open of lay, on isolated vertices, on the optima of sifts, on
//! charts written out again, on graph6, on the crossings of each edge, on
//! weights, and on random graphs.

use std::collections::BTreeSet;

use super::calls::{self, Reply};
use super::chart::{read, written};
use super::graph6::{exported, import, long_size, size};
use super::layout::{
    crossings, crossings_of_each, edges, empty, list, valid, weighted, Edge, Layout, Weighted,
};
use super::list::listing;
use super::play::play;
use crate::make::charts::Chart;
use crate::make::families;
use crate::make::five;
use crate::make::graph::{all_pairs, vertices, Graph};
use crate::make::records;
use crate::make::weights;
use crate::rng::Rng;

const FIRST: [(u8, u8); 2] = [(0, 2), (1, 3)];

fn layout(order: &[u8], edges: &[(u8, u8)]) -> Layout {
    layout_of(&Graph::of(edges.to_vec(), order.to_vec()))
}

fn layout_of(graph: &Graph) -> Layout {
    let (refusal, layout) = read(&Chart::of(graph).bytes());
    assert_eq!(refusal, 0);
    layout
}

/// A layout of edges with weights.
fn heavy(order: &[u8], edges: &[(u8, u8, u8)]) -> Layout {
    let ends = edges.iter().map(|&(v, w, _)| (v, w)).collect();
    let weights: Vec<u8> = edges.iter().map(|&(.., weight)| weight).collect();
    layout_of(&Graph::of(ends, order.to_vec()).with_weights(weights))
}

/// A random graph of n vertices, without weights or with some.
fn random(rng: &mut Rng, n: usize) -> Graph {
    let mut graph = Graph::random(rng, n, usize::MAX);
    weights::any(rng, &mut graph);
    graph
}

fn complete(n: usize) -> Layout {
    layout(&vertices(n), &all_pairs(n))
}

/// The list, the tally and the crossings behind a lay.
type Laid = (Vec<usize>, u64, u64);

fn laid_by(lay: fn(&mut Layout, u64) -> Reply<u64>, graph: &Graph, start: u64) -> Laid {
    let mut ring = layout_of(graph);
    let (refusal, tally) = lay(&mut ring, start);
    assert_eq!(refusal, 0);
    (list(&ring), tally, ring.count)
}

/// Vertices in rising order.
fn rising(n: usize, edges: &[(u8, u8)]) -> Graph {
    Graph::of(edges.to_vec(), vertices(n))
}

/// After laying vertices in rising order.
fn laid(n: usize, edges: &[(u8, u8)], start: u64) -> Laid {
    laid_by(calls::lay, &rising(n, edges), start)
}

/// The same by the former rule.
fn formerly_laid(n: usize, edges: &[(u8, u8)], start: u64) -> Laid {
    laid_by(calls::former_lay, &rising(n, edges), start)
}

fn pair(layout: &Layout) -> Option<(Edge, Edge)> {
    calls::pair(layout).1
}

#[test]
fn crossings_of_the_worked_rings() {
    let first = layout(&[0, 1, 2, 3], &FIRST);
    assert_eq!((first.count, pair(&first)), (1, Some(((0, 2), (1, 3)))));
    let other = layout(&[0, 2, 1, 3], &FIRST);
    assert_eq!((other.count, pair(&other)), (0, None));
    assert_eq!(layout(&[0, 1, 2, 3], &[(0, 2), (0, 3)]).count, 0);
    assert_eq!([4, 5, 64].map(|n| complete(n).count), [1, 5, 635_376]);
}

#[test]
fn sifting_the_worked_rings() {
    let mut ring = layout(&[0, 1, 2, 3], &FIRST);
    assert_eq!(calls::sift(&mut ring, 0), (0, (1, 2)));
    assert_eq!((list(&ring), ring.count), (vec![1, 0, 2, 3], 0));
    let settled = |mut ring: Layout, limit| calls::settle(&mut ring, limit);
    let first = || layout(&[0, 1, 2, 3], &FIRST);
    assert_eq!(settled(first(), 1), (0, (1, 1, false, 8)));
    assert_eq!(settled(first(), 2), (0, (1, 2, true, 16)));
    assert_eq!(settled(complete(4), 1), (0, (0, 1, true, 12)));
    assert_eq!(settled(first(), 0), (17, (0, 0, false, 0)));
    assert_eq!(settled(first(), 1001), (17, (0, 0, false, 0)));
    assert_eq!(calls::round(&mut first()), (0, (1, 1, 8)));
}

#[test]
fn optima_of_few_vertices_and_of_refused_calls() {
    let sifted = |mut ring: Layout, u| calls::sift(&mut ring, u);
    assert_eq!(sifted(complete(4), 2), (0, (0, 3)));
    assert_eq!(sifted(complete(2), 1), (0, (0, 1)));
    assert_eq!(sifted(complete(1), 0), (0, (0, 0)));
    assert_eq!(sifted(complete(4), 4), (12, (0, 0)));
    assert_eq!(sifted(empty(), 0), (12, (0, 0)));
    assert_eq!(calls::round(&mut empty()), (0, (0, 0, 0)));
    assert_eq!(calls::settle(&mut empty(), 2), (0, (0, 1, true, 0)));
    let mut spoilt = complete(4);
    spoilt.words[0] ^= 1 << 2;
    assert_eq!(sifted(spoilt.clone(), 0), (11, (0, 0)));
    assert_eq!(calls::round(&mut spoilt), (11, (0, 0, 0)));
    assert_eq!(calls::settle(&mut spoilt, 2), (11, (0, 0, false, 0)));
}

/// Sifts u twice. The candidates are the same behind the first sift, and so are
/// the optima. Gives the first answers.
fn sifted_twice(ring: &mut Layout, u: usize) -> (u64, u32) {
    let (refusal, (saving, optima)) = calls::sift(ring, u as u64);
    let mut again = ring.clone();
    let due = (refusal, (0, optima));
    assert_eq!((calls::sift(&mut again, u as u64), &again), (due, &*ring));
    (saving, optima)
}

#[test]
fn optima_in_graphs_of_five_vertices() {
    let mut met = BTreeSet::new();
    for number in 0..five::GRAPHS {
        let mut ring = layout(&[3, 1, 4, 0, 2], &five::graph(number).edges);
        for u in 0..5 {
            let (saving, optima) = sifted_twice(&mut ring, u);
            met.insert((saving > 0, optima));
            let alike = number == 0 || number == five::GRAPHS - 1;
            assert!(optima == 4 || !alike && (1..4).contains(&optima));
        }
    }
    let due = [1, 2, 3, 4].map(|optima| (false, optima)).into_iter();
    let due = due.chain([1, 2, 3].map(|optima| (true, optima)));
    assert!(met.iter().copied().eq(due), "{met:?}");
}

#[test]
fn optima_are_summed_over_rounds_and_settlings() {
    for number in 0..five::GRAPHS {
        let edges = five::graph(number).edges;
        let mut ring = layout(&vertices(5), &edges);
        let (mut sums, mut rounds, mut moves) = ((0, 0), 0, 1);
        while moves > 0 {
            let mut sifted = ring.clone();
            let replies = (0..5).map(|u| calls::sift(&mut sifted, u).1);
            let due = replies.fold((0, 0), |sum, reply| (sum.0 + reply.0, sum.1 + reply.1));
            let (_, (saving, moved, optima)) = calls::round(&mut ring);
            assert_eq!((saving, optima, &ring), (due.0, due.1, &sifted));
            sums = (sums.0 + saving, sums.1 + optima);
            (rounds, moves) = (rounds + 1, moved);
        }
        let mut settled = layout(&vertices(5), &edges);
        let due = (0, (sums.0, rounds, true, sums.1));
        assert_eq!((calls::settle(&mut settled, 1000), settled), (due, ring));
    }
}

#[test]
fn every_place_is_best_with_all_edges_and_with_none() {
    for n in [2, 3, 17] {
        for edges in [all_pairs(n), vec![]] {
            let mut ring = layout(&vertices(n), &edges);
            let places = n as u32 - 1;
            assert_eq!(calls::sift(&mut ring, 1), (0, (0, places)));
            assert_eq!(calls::round(&mut ring), (0, (0, 0, n as u32 * places)));
        }
    }
}

#[test]
fn moving_and_laying_the_worked_rings() {
    let mut ring = layout(&[0, 1, 2, 3], &[]);
    assert_eq!(calls::move_behind(&mut ring, 3, 0), 0);
    assert_eq!(list(&ring), [0, 3, 1, 2]);
    let edges = [(0, 1), (0, 2), (1, 3), (2, 3)];
    assert_eq!(laid(4, &edges, 0), (vec![2, 0, 1, 3], 0, 0));
    assert_eq!(calls::lay(&mut empty(), 0), (12, 0));
}

#[test]
fn the_second_vertex_goes_to_the_back() {
    assert_eq!(laid(2, &[(0, 1)], 0), (vec![0, 1], 0, 0));
    assert_eq!(laid(2, &[], 1), (vec![1, 0], 0, 0));
    assert_eq!(laid(3, &all_pairs(3), 1), (vec![1, 0, 2], 0, 0));
}

#[test]
fn with_nothing_placed_near_the_fewest_unplaced_neighbours_decide() {
    let edges = [(0, 1), (0, 2), (3, 4)];
    assert_eq!(laid(6, &edges, 5), (vec![5, 1, 0, 2, 3, 4], 0, 0));
}

#[test]
fn the_first_placed_is_not_the_first_in_the_list() {
    let edges = [(0, 1), (0, 2), (1, 3), (2, 3)];
    assert_eq!(laid(5, &edges, 4), (vec![2, 4, 0, 1, 3], 0, 0));
}

#[test]
fn laying_can_raise_the_crossings() {
    let edges = [(0, 1), (0, 2), (0, 4), (1, 2), (1, 3), (2, 3), (3, 4)];
    assert_eq!(layout(&vertices(5), &edges).count, 1);
    assert_eq!(laid(5, &edges, 1), (vec![1, 0, 2, 3, 4], 2, 2));
}

#[test]
fn isolated_vertices_are_laid_last_but_for_the_start() {
    let edges = [(1, 2), (1, 3), (2, 4), (3, 4)];
    assert_eq!(laid(6, &edges, 5), (vec![3, 5, 1, 2, 4, 0], 0, 0));
    assert_eq!(formerly_laid(6, &edges, 5), (vec![3, 5, 0, 1, 2, 4], 0, 0));
    assert_eq!(laid(4, &[(0, 1)], 3), (vec![3, 0, 1, 2], 0, 0));
    assert_eq!(formerly_laid(4, &[(0, 1)], 3), (vec![3, 2, 0, 1], 0, 0));
    assert_eq!(laid(6, &[(2, 4)], 4), (vec![4, 2, 0, 1, 3, 5], 0, 0));
    for start in 0..4 {
        let mut due = vec![start];
        due.extend((0..4).filter(|&v| v != start));
        assert_eq!(laid(4, &[], start as u64), (due, 0, 0));
    }
}

/// A vertex of another component isn't isolated, though none of its neighbours
/// is placed.
#[test]
fn other_components_are_laid_before_isolated_vertices() {
    let edges = [(1, 2), (1, 3), (2, 4), (3, 4), (6, 7)];
    let due = vec![3, 6, 7, 1, 2, 4, 0, 5, 8];
    assert_eq!(laid(9, &edges, 6), (due, 0, 0));
    let former = vec![3, 6, 7, 0, 5, 8, 1, 2, 4];
    assert_eq!(formerly_laid(9, &edges, 6), (former, 0, 0));
    let due = vec![3, 5, 6, 7, 1, 2, 4, 0, 8];
    assert_eq!(laid(9, &edges, 5), (due, 0, 0));
}

/// Of the former list the isolated vertices other than the start go to the back
/// in rising number; the tally and the crossings stay. Tells whether the list
/// is another one.
fn only_isolated_vertices_move(graph: &Graph, start: usize) -> bool {
    let (former, tally, crossings) = laid_by(calls::former_lay, graph, start as u64);
    let words = graph.words();
    let moves = |v: &usize| *v != start && words[*v] == 0;
    let mut due = former.clone();
    due.retain(|v| !moves(v));
    due.extend((0..graph.n()).filter(moves));
    let differs = due != former;
    let laid = laid_by(calls::lay, graph, start as u64);
    assert_eq!(laid, (due, tally, crossings), "{:?}", graph.edges);
    differs
}

#[test]
fn only_isolated_vertices_move_in_graphs_of_five_vertices() {
    let starts = (0..five::GRAPHS).flat_map(|number| (0..5).map(move |v| (number, v)));
    let differ = starts.filter(|&(number, v)| only_isolated_vertices_move(&five::graph(number), v));
    assert!(differ.count() > 100);
}

#[test]
fn only_isolated_vertices_move_in_random_graphs() {
    for family in families::with_isolated() {
        let mut differ = 0;
        for index in 0..100 {
            let mut rng = Rng::new(1, family.name, index);
            let mut graph = family.graph(&mut rng, 64);
            weights::any(&mut rng, &mut graph);
            let start = rng.below(graph.n());
            differ += usize::from(only_isolated_vertices_move(&graph, start));
        }
        assert_eq!(differ > 10, family.name != "no edges", "{}", family.name);
    }
}

/// A closing and an open edge that cross at the end taken do cross in the end:
/// what is placed later stands outside of both. And of two edges that cross in
/// the end, one was closed while the other was open.
#[test]
fn a_tally_is_the_crossings_laid() {
    for index in 0..400 {
        let mut rng = Rng::new(1, "tally", index);
        let n = rng.within(1, 64);
        let mut ring = layout_of(&random(&mut rng, n));
        let start = rng.below(n) as u64;
        let (refusal, tally) = calls::lay(&mut ring, start);
        assert_eq!(refusal, 0);
        let laid = crossings(&list(&ring), &weighted(&ring));
        assert_eq!((tally, ring.count), (laid, laid), "{ring:?} from {start}");
    }
}

/// The crossings of each edge, each pair of edges looked at alone and counted
/// with the product of its weights.
fn one_by_one(order: &[usize], edges: &[Weighted]) -> Vec<u64> {
    let place = |v| order.iter().position(|&w| w == v).expect("v is listed");
    let places = |&((v, w), _): &Weighted| (place(v).min(place(w)), place(v).max(place(w)));
    let places: Vec<(usize, usize)> = edges.iter().map(places).collect();
    let mut numbers = vec![0; edges.len()];
    for (i, &(a, b)) in places.iter().enumerate() {
        for (j, &(c, d)) in places.iter().enumerate() {
            if a < c && c < b && b < d {
                let product = u64::from(edges[i].1) * u64::from(edges[j].1);
                numbers[i] += product;
                numbers[j] += product;
            }
        }
    }
    numbers
}

/// So the numbers add up to twice the crossings.
#[test]
fn edges_looked_at_together_are_counted_as_one_by_one() {
    for m in 0..150 {
        let mut rng = Rng::new(1, "together", m);
        let mut graph = Graph::random(&mut rng, 64, 0);
        graph.edges = all_pairs(64);
        rng.shuffle(&mut graph.edges);
        graph.edges.truncate(m);
        weights::any(&mut rng, &mut graph);
        let ring = layout_of(&graph);
        let (order, edges) = (list(&ring), weighted(&ring));
        let numbers = one_by_one(&order, &edges);
        assert_eq!(numbers.iter().sum::<u64>(), 2 * ring.count);
        assert_eq!(crossings_of_each(&order, &edges), numbers);
    }
}

/// The numbers of the edges in a table that is just long enough.
fn numbers(layout: &Layout) -> Vec<u64> {
    let mut table = vec![9; edges(layout).len()];
    assert_eq!(calls::edge_crossings(layout, &mut table), (0, table.len()));
    table
}

#[test]
fn crossings_of_each_edge_of_the_worked_rings() {
    assert_eq!(numbers(&layout(&[0, 1, 2, 3], &FIRST)), [1, 1]);
    assert_eq!(numbers(&layout(&[0, 2, 1, 3], &FIRST)), [0, 0]);
    assert_eq!(numbers(&layout(&[0, 1, 2, 3], &[(0, 2), (0, 3)])), [0, 0]);
    assert_eq!(numbers(&complete(4)), [0, 1, 0, 0, 1, 0]);
    assert_eq!(numbers(&complete(5)), [0, 2, 2, 0, 0, 2, 2, 0, 2, 0]);
    let ring = layout(&[3, 0, 4, 1, 5, 2], &[(3, 4), (1, 0), (4, 2)]);
    assert_eq!(numbers(&ring), [2, 1, 1]);
    for n in [0, 1, 64] {
        assert!(numbers(&layout(&vertices(n), &[])).is_empty());
    }
}

#[test]
fn crossings_of_each_edge_add_up_to_twice_all() {
    for number in 0..five::GRAPHS {
        let ring = layout(&[3, 1, 4, 0, 2], &five::graph(number).edges);
        assert_eq!(numbers(&ring).iter().sum::<u64>(), 2 * ring.count);
    }
    for index in 0..200 {
        let mut rng = Rng::new(1, "each edge", index);
        let ring = layout_of(&random(&mut rng, index % 65));
        assert_eq!(numbers(&ring).iter().sum::<u64>(), 2 * ring.count);
    }
}

/// An edge that has k vertices on its one side is crossed by the edges from each
/// of these to each of the n - 2 - k on the other.
#[test]
fn crossings_of_each_of_all_edges() {
    for n in [6, 64] {
        let number = |(a, b): (u8, u8)| {
            let between = u64::from(b - a - 1);
            between * (n as u64 - 2 - between)
        };
        let due: Vec<u64> = all_pairs(n).into_iter().map(number).collect();
        assert_eq!(numbers(&complete(n)), due);
    }
}

#[test]
fn a_table_is_asked_for_behind_validity() {
    let mut ring = layout(&[0, 1, 2, 3], &FIRST);
    let mut table = [9; 4];
    assert_eq!(calls::edge_crossings(&ring, &mut table[..1]), (23, 0));
    assert_eq!(table, [9; 4]);
    assert_eq!(calls::edge_crossings(&ring, &mut table), (0, 2));
    assert_eq!(table, [1, 1, 9, 9]);
    ring.words[0] = 0;
    assert_eq!(calls::edge_crossings(&ring, &mut table), (11, 0));
    assert_eq!(calls::edge_crossings(&ring, &mut table[..1]), (11, 0));
    assert_eq!(table, [1, 1, 9, 9]);
    assert_eq!(calls::edge_crossings(&empty(), &mut []), (0, 0));
}

#[test]
fn crossings_are_played_into_at_most_2100_entries() {
    let ring = layout(&[0, 1, 2, 3], &FIRST);
    let said = |length, fill| super::play::perlink(&ring, length, fill);
    assert_eq!(said(4, 7), "perlink 0 2 table 1 1 7 7");
    assert_eq!(said(3, (1 << 32) + 256), "perlink 0 2 table 1 1 4294967552");
    assert_eq!(said(1, u64::MAX), "perlink 23 0 table 18446744073709551615");
    assert_eq!(said(0, 7), "perlink 23 0 table");
    for length in [2100, 2101, (1 << 32) + 2, u64::MAX] {
        let rest = " 0".repeat(2098);
        assert_eq!(said(length, 0), format!("perlink 0 2 table 1 1{rest}"));
    }
}

#[test]
fn refused_calls() {
    let mut full = complete(64);
    assert_eq!(calls::add(&mut full), (16, 0));
    for weight in [0, 1] {
        assert_eq!(calls::link(&mut full, 1, 64, weight), 12);
        assert_eq!(calls::link(&mut full, 1, 1, weight), 13);
        assert_eq!(calls::link(&mut full, 1, 0, weight), 14);
    }
    assert_eq!(calls::unlink(&mut full, 1, 0), 0);
    assert_eq!(calls::unlink(&mut full, 1, 0), 15);
    assert_eq!(calls::link(&mut full, 1, 0, 0), 25);
    assert_eq!(full.count, crossings(&list(&full), &weighted(&full)));
    assert_eq!(calls::order(&full, &mut [0; 63]), 18);
    assert_eq!(calls::write(&full, &mut [0; 4103]), (19, 0));
    assert_eq!(calls::write(&full, &mut [0; 4104]), (0, 4104));
    full.words[0] ^= 1;
    assert_eq!(calls::count(&full), (11, 0));
    assert_eq!(calls::write(&full, &mut [0; 4103]), (11, 0));
}

#[test]
fn the_first_ring_is_written_however_its_edges_were_listed() {
    let due = [
        0x44, 0, 1, 4, 0x4C, 0, 4, 0, 2, 1, 3, 0x52, 0, 4, 0, 1, 2, 3,
    ];
    for edges in [FIRST, [(3, 1), (0, 2)], [(1, 3), (2, 0)]] {
        let mut buffer = [9; 20];
        let ring = layout(&[0, 1, 2, 3], &edges);
        assert_eq!(calls::write(&ring, &mut buffer), (0, 18));
        assert_eq!(buffer[..18], due);
        assert_eq!(buffer[18..], [9, 9]);
        let mut short = [9; 17];
        assert_eq!(calls::write(&ring, &mut short), (19, 0));
        assert_eq!(short, [9; 17]);
    }
}

#[test]
fn charts_of_no_vertex_and_about_a_high_byte() {
    let due = [0x44, 0, 1, 0, 0x4C, 0, 0, 0x52, 0, 0];
    assert_eq!(written(&empty()), due);
    for (m, length) in [(127, [0, 254]), (128, [1, 0])] {
        let ring = layout(&vertices(17), &all_pairs(17)[..m]);
        assert_eq!(written(&ring)[4..7], [0x4C, length[0], length[1]]);
    }
    assert_eq!(written(&complete(64)).len(), 4106);
}

/// Reading a written chart gives the layout with its true count, whatever
/// count it carried.
#[test]
fn what_is_written_is_read_back() {
    for index in 0..300 {
        let mut rng = Rng::new(1, "written", index);
        let ring = layout_of(&random(&mut rng, index % 65));
        let mut carrying = ring.clone();
        carrying.count = rng.word();
        assert_eq!(read(&written(&carrying)), (0, ring));
    }
}

#[test]
fn a_write_is_played_into_at_most_8192_bytes() {
    let said = |length, fill| super::play::write(&empty(), length, fill);
    assert_eq!(said(9, 0), format!("write 19 0 buffer{}", " 0".repeat(9)));
    let chart = "68 0 1 0 76 0 0 82 0 0";
    assert_eq!(said(11, 256 + 5), format!("write 0 10 buffer {chart} 5"));
    for length in [8192, 8193, u64::MAX] {
        let rest = " 255".repeat(8182);
        assert_eq!(
            said(length, 255),
            format!("write 0 10 buffer {chart}{rest}")
        );
    }
}

/// The edges, n and the crossings of graph6 worked by hand; five vertices are
/// the example in nauty's description of the format.
#[test]
fn graph6_worked_by_hand() {
    for (graph6, n, links, count) in [
        (&b"?"[..], 0, vec![], 0),
        (b"@", 1, vec![], 0),
        (b"A?", 2, vec![], 0),
        (b"A_", 2, vec![(0, 1)], 0),
        (b"Bo", 3, vec![(0, 1), (0, 2)], 0),
        (b"BW", 3, vec![(0, 2), (1, 2)], 0),
        (b"CQ", 4, vec![(0, 2), (1, 3)], 1),
        (b"DQc", 5, vec![(0, 2), (0, 4), (1, 3), (3, 4)], 1),
    ] {
        let (refusal, ring) = import(graph6);
        assert_eq!((refusal, ring.n, ring.count), (0, n, count));
        assert_eq!(edges(&ring), links);
        assert!(list(&ring).into_iter().eq(0..n as usize));
        assert_eq!(exported(&ring), graph6);
    }
}

#[test]
fn graph6_are_refused_by_the_first_question() {
    let none = [63; 336];
    let long = |size: &[u8], data: usize| [size, &none[..data]].concat();
    for (graph6, due) in [
        (vec![], 20),
        (vec![62], 20),
        (vec![127], 20),
        (b"~".to_vec(), 20),
        (b"~?@".to_vec(), 20),
        (b"~?>?".to_vec(), 20),
        (long(b"~??}", 316), 20),
        (long(b"~??~", 326), 0),
        (long(b"~??~", 325), 21),
        (long(b"~??~", 327), 21),
        (long(b"~?@?", 336), 0),
        (long(b"~?@?", 335), 21),
        (long(b"~?@@", 336), 20),
        (long(b"~~?@?", 336), 20),
        (b">>graph6<<DQc".to_vec(), 20),
        (b"DQc\n".to_vec(), 21),
        (b"DQ".to_vec(), 21),
        (b"D>d".to_vec(), 21),
        (b"D\x7fc".to_vec(), 21),
        (b"DQd".to_vec(), 22),
        (b"DQe".to_vec(), 22),
    ] {
        let (refusal, ring) = import(&graph6);
        assert_eq!(refusal, due, "{}", graph6.escape_ascii());
        assert!(due == 0 || ring == empty());
    }
}

#[test]
fn sizes_in_three_bytes() {
    assert_eq!(long_size(b"~??}"), Some(62));
    assert_eq!(long_size(b"~?@?more"), Some(64));
    assert_eq!(long_size(b"~}~~"), Some(258_047));
    assert_eq!(long_size(b"??@?"), None);
    assert_eq!(size(b"~?@?more"), Some((64, &b"more"[..])));
    assert_eq!(size(b"}"), Some((62, &b""[..])));
    assert_eq!(size(b"~??}"), None);
}

/// Importing what is exported gives the edges in rising order with the true
/// count, whatever order and count there were.
#[test]
fn what_is_exported_is_imported() {
    for index in 0..300 {
        let mut rng = Rng::new(1, "exported", index);
        let n = index % 65;
        let graph = Graph::random(&mut rng, n, usize::MAX);
        let mut ring = layout(&graph.order, &graph.edges);
        ring.count = rng.word();
        let due = layout(&vertices(n), &graph.edges);
        assert_eq!(import(&exported(&ring)), (0, due));
    }
}

#[test]
fn an_export_asks_for_validity_and_then_for_room() {
    let mut ring = layout(&[1, 0, 2, 3], &FIRST);
    let mut buffer = [9; 3];
    assert_eq!(calls::export(&ring, &mut buffer), (0, 2));
    assert_eq!(buffer, [b'C', b'Q', 9]);
    assert_eq!(calls::export(&ring, &mut buffer[..1]), (19, 0));
    ring.words[0] = 0;
    assert_eq!(calls::export(&ring, &mut buffer[..1]), (11, 0));
    assert_eq!(buffer, [b'C', b'Q', 9]);
    let said = |length, fill| super::play::export(&empty(), length, fill);
    assert_eq!(said(0, 7), "export 19 0 buffer");
    assert_eq!(said(2, 256 + 7), "export 0 1 buffer 63 7");
    for length in [8192, 8193, u64::MAX] {
        let rest = " 255".repeat(8191);
        assert_eq!(said(length, 255), format!("export 0 1 buffer 63{rest}"));
    }
}

#[test]
fn the_listing_and_the_list_worked_in_full() {
    let chart = Chart::of(&rising(4, &FIRST)).bytes();
    let due = "devices 4\nlinks 2\nbefore 1\nafter 0\nrounds 2\nsettled yes\norder 1 0 2 3\n";
    assert_eq!(listing(&chart), due);
    let mut calls = vec![0; 96];
    (calls[0], calls[8], calls[64]) = (1, 18, 21);
    calls[32..50].copy_from_slice(&chart);
    let rest = " 0".repeat(60);
    let due = format!(
        "chart 0 n 4 order 0 1 2 3{rest} count 1 \
         words 0 4 1 8 2 1 3 2 weights 0 2 1 1 3 1 2 0 1 3 1 1\n\
         sift 0 1 2 n 4 order 1 0 2 3{rest} count 0 words weights\n"
    );
    assert_eq!(play(&calls), due);
}

/// All edges of four vertices with weights. Of the three pairs that can cross,
/// 0-2 with 1-3 counts 6, 0-3 with 1-2 counts 2, and 0-1 with 2-3 counts 1.
const FOUR: [(u8, u8, u8); 6] = [
    (0, 1, 1),
    (0, 2, 2),
    (0, 3, 1),
    (1, 2, 2),
    (1, 3, 3),
    (2, 3, 1),
];

/// n vertices in rising order with all edges, each of the largest weight.
fn heaviest(n: usize) -> Layout {
    let edges: Vec<(u8, u8, u8)> = all_pairs(n).iter().map(|&(v, w)| (v, w, 255)).collect();
    heavy(&vertices(n), &edges)
}

#[test]
fn a_crossing_counts_the_product_of_its_weights() {
    for (v, w, due) in [(1, 1, 1), (2, 3, 6), (1, 255, 255), (255, 255, 65_025)] {
        let ring = heavy(&[0, 1, 2, 3], &[(0, 2, v), (3, 1, w)]);
        assert_eq!((ring.count, numbers(&ring)), (due, vec![due, due]));
        assert_eq!(pair(&ring), Some(((0, 2), (1, 3))));
    }
    let orders = [[0, 1, 2, 3], [0, 2, 3, 1], [0, 2, 1, 3]];
    assert_eq!(orders.map(|order| heavy(&order, &FOUR).count), [6, 2, 1]);
    assert_eq!(numbers(&heavy(&[0, 1, 2, 3], &FOUR)), [0, 6, 0, 0, 6, 0]);
    assert_eq!(heaviest(64).count, 41_315_324_400);
    assert_eq!(numbers(&heaviest(64)).iter().max(), Some(&(961 * 65_025)));
}

#[test]
fn sifting_goes_by_weight() {
    let four = || heavy(&[0, 1, 2, 3], &FOUR);
    let mut ring = four();
    assert_eq!(calls::sift(&mut ring, 0), (0, (5, 1)));
    assert_eq!((list(&ring), ring.count), (vec![1, 2, 0, 3], 1));
    assert_eq!(calls::round(&mut four()), (0, (5, 1, 4)));
    assert_eq!(calls::settle(&mut four(), 9), (0, (5, 2, true, 8)));
    assert_eq!(calls::sift(&mut complete(4), 0), (0, (0, 3)));
    let edges = [(0, 1, 3), (0, 3, 1), (1, 2, 1), (1, 4, 3), (2, 4, 1)];
    let mut ring = heavy(&vertices(5), &edges);
    assert_eq!(calls::sift(&mut ring, 0), (0, (2, 1)));
    assert_eq!(list(&ring), [1, 0, 2, 3, 4]);
    let mut ring = layout(&vertices(5), &edges.map(|(v, w, _)| (v, w)));
    assert_eq!(calls::sift(&mut ring, 0), (0, (1, 2)));
    assert_eq!(list(&ring), [1, 2, 0, 3, 4]);
}

/// Its ends go by weight, its choice by numbers of edges.
#[test]
fn laying_with_weights() {
    let laid = |n, edges: &[(u8, u8, u8)], start| {
        let mut ring = heavy(&vertices(n), edges);
        let (refusal, tally) = calls::lay(&mut ring, start);
        assert_eq!((refusal, tally), (0, ring.count));
        (list(&ring), tally)
    };
    assert_eq!(laid(4, &FOUR, 2), (vec![1, 2, 0, 3], 1));
    let ones = FOUR.map(|(v, w, _)| (v, w, 1));
    assert_eq!(laid(4, &ones, 2), (vec![2, 0, 1, 3], 1));
    assert_eq!(laid(3, &[(0, 1, 1), (0, 2, 255)], 0).0, [0, 1, 2]);
    let edges = [
        (0, 1, 1),
        (0, 2, 1),
        (1, 2, 1),
        (0, 3, 255),
        (3, 4, 1),
        (3, 5, 1),
    ];
    assert_eq!(laid(6, &edges, 0).0, [0, 1, 2, 3, 4, 5]);
    let edges = [(0, 1, 1), (0, 2, 1), (1, 3, 1), (1, 4, 1), (2, 5, 255)];
    assert_eq!(laid(6, &edges, 0).0, [0, 2, 5, 1, 3, 4]);
    let mut full = heaviest(64);
    assert_eq!(calls::lay(&mut full, 0), (0, 41_315_324_400));
}

#[test]
fn a_link_has_its_weight_both_ways_and_an_unlink_clears_both() {
    let before = layout(&[0, 1, 2, 3], &[(0, 2)]);
    for weight in [1, 2, 255] {
        let mut ring = before.clone();
        assert_eq!(calls::link(&mut ring, 3, 1, weight), 0);
        assert_eq!([ring.weights[1][3], ring.weights[3][1]], [weight; 2]);
        assert_eq!((ring.count, valid(&ring)), (weight.into(), true));
        assert_eq!(calls::unlink(&mut ring, 1, 3), 0);
        assert_eq!(ring, before);
    }
    let mut ring = before.clone();
    ring.count = u64::MAX - 100;
    assert_eq!(calls::link(&mut ring, 3, 1, 255), 0);
    assert_eq!(ring.count, 154);
    assert_eq!(calls::unlink(&mut ring, 3, 1), 0);
    assert_eq!(ring.count, u64::MAX - 100);
}

/// Every weight set one way round and both ways: valid are those that an edge
/// has, the same both ways.
#[test]
fn each_weight_counts_for_validity() {
    for v in 0..64 {
        for w in 0..64 {
            let is_valid = |both: bool, weight: u8| {
                let mut ring = layout(&[0, 1, 2, 3], &FIRST);
                ring.weights[v][w] = weight;
                if both {
                    ring.weights[w][v] = weight;
                }
                valid(&ring)
            };
            let edge = FIRST.contains(&(v.min(w) as u8, v.max(w) as u8));
            for both in [false, true] {
                assert_eq!([0, 1].map(|weight| is_valid(both, weight)), [!edge, edge]);
                assert_eq!(is_valid(both, 2), both && edge, "{v} {w}");
                assert_eq!(is_valid(both, 255), both && edge, "{v} {w}");
            }
        }
    }
}

/// A chart of three vertices and two edges with some field 57.
fn with_weights(weights: &[u8]) -> Vec<u8> {
    let graph = rising(3, &[(2, 1), (0, 1)]);
    Chart::of(&graph.with_weights(weights)).bytes()
}

#[test]
fn weights_of_charts() {
    let refusal = |weights: &[u8]| read(&with_weights(weights)).0;
    assert_eq!(refusal(&[1, 255]), 0);
    for weights in [&[][..], &[1], &[0], &[1, 1, 1], &[0, 0, 0]] {
        assert_eq!(refusal(weights), 24, "{weights:?}");
    }
    for weights in [[0, 1], [1, 0], [0, 0]] {
        assert_eq!(refusal(&weights), 25, "{weights:?}");
    }
    let (_, ring) = read(&with_weights(&[7, 9]));
    assert_eq!(weighted(&ring), [((0, 1), 9), ((1, 2), 7)]);
    let sorted = [&with_weights(&[])[..4], &[0x4C, 0, 4, 0, 1, 1, 2]].concat();
    let behind = [0x52, 0, 3, 0, 1, 2, 0x57, 0, 2, 9, 7];
    assert_eq!(written(&ring), [&sorted[..], &behind].concat());
    let without = layout(&[0, 1, 2], &[(0, 1), (1, 2)]);
    assert_eq!(read(&with_weights(&[1, 1])), (0, without.clone()));
    assert_eq!(written(&without), [&sorted[..], &behind[..6]].concat());
    assert_eq!(written(&heaviest(64)).len(), 6125);
    let none = |weights: &[u8]| read(&Chart::of(&rising(3, &[]).with_weights(weights)).bytes());
    assert_eq!(none(&[]), (0, layout(&[0, 1, 2], &[])));
    assert_eq!(none(&[1]).0, 24);
}

/// Two charts of the same ring give the same bytes, however their edges are
/// listed, and with weights of 1 or without.
#[test]
fn another_listing_is_written_alike() {
    for index in 0..200 {
        let mut rng = Rng::new(1, "alike", index);
        let graph = random(&mut rng, index % 65);
        let other = graph.listed_otherwise(&mut rng);
        let [one, other] = [graph, other].map(|graph| layout_of(&graph));
        assert_eq!((written(&one), one), (written(&other), other));
    }
}

#[test]
fn an_export_asks_for_weights_before_room() {
    let mut buffer = [9; 3];
    let mut ring = heavy(&[0, 1, 2, 3], &[(0, 2, 1), (1, 3, 2)]);
    for length in 0..=3 {
        assert_eq!(calls::export(&ring, &mut buffer[..length]), (26, 0));
    }
    ring.weights[3][1] = 1;
    assert_eq!(calls::export(&ring, &mut buffer), (11, 0));
    assert_eq!(buffer, [9; 3]);
    ring.weights[1][3] = 1;
    assert_eq!(calls::export(&ring, &mut buffer), (0, 2));
}

#[test]
fn weights_and_wide_counts_are_played() {
    let records = [
        [2, 2, 0, 0],
        [3, 1, 1, 0],
        [17, 1, 0, 256 + 7],
        [6, 0, 1, 256 + 9],
        [6, 64, 0, 9],
        [6, 0, 64, 9],
        [24, 0, 0, 0],
        [6, 1, 0, 9],
        [5, u64::MAX, 0, 0],
        [24, 0, 0, 0],
        [18, 0, 1, 0],
        [17, 0, 1, 256],
        [7, 0, 0, 0],
    ];
    let lines = play(&records.map(records::bytes).concat());
    let order = format!("n 2 order 0 1{}", " 0".repeat(62));
    let most = u64::MAX;
    let due = format!(
        "link 0 {order} count 0 words 0 2 1 1 weights 0 1 7 1 0 7\n\
         count 11 0 {order} count 0 words weights\n\
         count 0 {most} {order} count {most} words weights\n\
         unlink 0 {order} count {most} words 0 0 1 0 weights 0 1 0 1 0 0\n\
         link 25 {order} count {most} words weights\n\
         end\n"
    );
    assert_eq!(lines, due);
}

#[test]
fn a_listing_has_the_sums() {
    let graph = rising(4, &FOUR.map(|(v, w, _)| (v, w)));
    let graph = graph.with_weights(FOUR.map(|(.., weight)| weight));
    let due = "devices 4\nlinks 6\nbefore 6\nafter 1\nrounds 2\nsettled yes\norder 1 2 0 3\n";
    assert_eq!(listing(&Chart::of(&graph).bytes()), due);
}
