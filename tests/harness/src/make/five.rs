//! All graphs on five vertices, without weights and with some, each laid from
//! every vertex and settled, its edges' crossings counted before.

use super::charts::Chart;
use super::graph::{all_pairs, vertices, Graph};
use super::ops::*;
use super::records;

const VERTICES: usize = 5;

/// Each of the ten possible edges is there or not.
pub const GRAPHS: usize = 1 << 10;

/// Graphs in one list.
const TOGETHER: usize = 32;

pub const LISTS: usize = GRAPHS / TOGETHER;

/// The calls that such lists are made of.
const CALLS: [u64; 6] = [CHART, LAY, SETTLE, COUNT, PAIR, PERLINK];

/// Whether the lists can be made of known calls.
pub fn open(known: &Known) -> bool {
    known.among(&CALLS).len() == CALLS.len()
}

/// The list with some number below `LISTS`.
pub fn list(number: usize) -> Vec<u8> {
    let first = number * TOGETHER;
    let graphs = (first..first + TOGETHER).flat_map(|number| [graph(number), weighed(number)]);
    graphs.flat_map(|graph| calls(&graph)).collect()
}

/// A graph, settled as it is read and as it is laid from every vertex, its edges'
/// crossings counted into a table for all ten.
fn calls(graph: &Graph) -> Vec<u8> {
    let start = records::chart(&Chart::of(graph).bytes());
    let settle = [[PERLINK, 10, 7, 0], [SETTLE, 1000, 0, 0], [PAIR, 0, 0, 0]].map(records::bytes);
    let mut list = [start.clone(), settle.concat()].concat();
    for v in 0..VERTICES as u64 {
        let lay = [[LAY, v, 0, 0], [COUNT, 0, 0, 0]].map(records::bytes);
        list.extend([start.clone(), lay.concat(), settle.concat()].concat());
    }
    list
}

/// The graph whose edges are the bits of a number.
pub fn graph(number: usize) -> Graph {
    let mut pairs = all_pairs(VERTICES)
        .into_iter()
        .enumerate()
        .collect::<Vec<_>>();
    pairs.retain(|(bit, _)| number >> bit & 1 == 1);
    let edges = pairs.into_iter().map(|(_, pair)| pair).collect();
    Graph::of(edges, vertices(VERTICES))
}

/// The weights that edges of these graphs have.
const WEIGHTS: [u8; 7] = [1, 2, 3, 1, 255, 5, 2];

/// The same graph with weights.
pub fn weighed(number: usize) -> Graph {
    let graph = graph(number);
    let weight = |place: usize| WEIGHTS[(number + 3 * place) % WEIGHTS.len()];
    let weights: Vec<u8> = (0..graph.edges.len()).map(weight).collect();
    graph.with_weights(weights)
}

#[cfg(test)]
mod tests {
    use super::*;
    use crate::naive::play::play;
    use std::collections::BTreeSet;

    #[test]
    fn every_graph_is_laid_from_every_vertex_and_settled() {
        let mut charts = BTreeSet::new();
        for number in 0..LISTS {
            let list = list(number);
            let lines = play(&list);
            let answers = |start: &str| lines.lines().filter(|l| l.starts_with(start)).count();
            assert_eq!(answers("chart 0 "), 12 * TOGETHER);
            assert_eq!(answers("lay 0 "), 10 * TOGETHER);
            assert_eq!(answers("settle 0 "), 12 * TOGETHER);
            assert_eq!(answers("perlink 0 "), 12 * TOGETHER);
            assert_eq!(
                answers("chart") + answers("lay") + answers("settle"),
                34 * TOGETHER
            );
            let first = number * TOGETHER;
            for number in first..first + TOGETHER {
                charts.extend([graph(number), weighed(number)].map(|g| Chart::of(&g).bytes()));
            }
        }
        assert_eq!(charts.len(), 2 * GRAPHS);
    }

    #[test]
    fn settled_graphs_show_no_crossing_but_for_the_dense() {
        let line = |number| {
            play(&calls(&graph(number)))
                .lines()
                .nth(3)
                .expect("a pair")
                .to_string()
        };
        assert!(line(0).starts_with("pair 0 none "));
        assert!(line(GRAPHS - 1).starts_with("pair 0 pair "));
    }

    #[test]
    fn lists_are_made_of_known_calls_only() {
        assert!(open(&Known::all()));
        assert!(!open(
            &Known::parse("chart,layout,lay").expect("known names")
        ));
    }
}
