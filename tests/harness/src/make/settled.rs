//! Graphs whose order is settled already.

use super::charts::Chart;
use super::cost;
use super::graph::Graph;
use crate::naive::{calls, chart, layout};

/// Rounds within which nearly every graph settles.
const LIMIT: u64 = 1000;

/// What the naive model may do to settle one graph.
const BUDGET: u64 = 1 << 29;

/// The most edges with which n vertices are settled here.
pub fn most_edges(n: usize) -> usize {
    cost::most_edges(n, BUDGET)
}

/// The graph in the order in which the naive model has settled it; none where
/// that would take too long.
pub fn settled(graph: &Graph) -> Option<Graph> {
    if graph.edges.len() > most_edges(graph.n()) {
        return None;
    }
    let (_, mut ring) = chart::read(&Chart::of(graph).bytes());
    let (_, (_, _, settled, _)) = calls::settle(&mut ring, LIMIT);
    let order = layout::list(&ring).into_iter().map(|v| v as u8).collect();
    settled.then(|| Graph {
        order,
        ..graph.clone()
    })
}

#[cfg(test)]
mod tests {
    use super::*;
    use crate::make::families;
    use crate::naive::list::listing;
    use crate::rng::Rng;

    #[test]
    fn a_settled_order_stays() {
        let mut moved = 0;
        for family in families::all() {
            let graph = family.graph(&mut Rng::new(1, "settled", 0), 14);
            let settled = settled(&graph).expect("a small graph settles");
            let lines = listing(&Chart::of(&settled).bytes());
            assert!(lines.contains("rounds 1\nsettled yes\n"), "{}", family.name);
            moved += usize::from(settled.order != graph.order);
        }
        assert!(moved > 3, "some orders were not settled before");
    }

    #[test]
    fn what_would_take_too_long_is_not_settled() {
        let graph = Graph::in_quarter(&mut Rng::new(1, "settled", 0), 64, 3);
        assert!(settled(&graph).is_none());
    }
}
