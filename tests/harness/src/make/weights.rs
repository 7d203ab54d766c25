//! The weights of a graph's edges: none, so that each is 1, or several kinds.

use super::graph::Graph;
use crate::rng::Rng;

/// A kind of weights: its name, and the weight of one of some edges, the first
/// of which may have one of its own.
type Kind = (&'static str, fn(&mut Rng, bool) -> u8);

const KINDS: [Kind; 7] = [
    ("all 1", |_, _| 1),
    ("all 2", |_, _| 2),
    (HEAVIEST, |_, _| 255),
    ("1 and 2", |rng, _| rng.pick(&[1, 2])),
    ("1, 2 and 255", |rng, _| rng.pick(&[1, 2, 255])),
    ("any", |rng, _| rng.within(1, 255) as u8),
    ("one other than 1", |rng, first| match first {
        true => rng.within(2, 255) as u8,
        false => 1,
    }),
];

/// The kind of weights that a graph has before it is weighed.
pub const WITHOUT: &str = "without weights";

pub const HEAVIEST: &str = "all 255";

/// In a turn so many graphs have no weights, and one has each kind of them.
const UNWEIGHTED: usize = 6;
const TURN: usize = UNWEIGHTED + KINDS.len();

/// The names of all kinds.
pub fn names() -> impl Iterator<Item = &'static str> {
    let weighed = KINDS.iter().map(|&(name, _)| name);
    std::iter::once(WITHOUT).chain(weighed)
}

/// Gives a graph weights of the kind whose turn it is.
pub fn in_turn(rng: &mut Rng, graph: &mut Graph, turn: usize) {
    if let Some(kind) = (turn % TURN).checked_sub(UNWEIGHTED) {
        weigh(rng, graph, KINDS[kind]);
    }
}

/// Gives a graph weights of any kind, now and then none.
pub fn any(rng: &mut Rng, graph: &mut Graph) {
    if !rng.once_in(4) {
        let kind = rng.pick(&KINDS);
        weigh(rng, graph, kind);
    }
}

/// Without edges there are no weights of any kind.
fn weigh(rng: &mut Rng, graph: &mut Graph, (name, weight): Kind) {
    let edges = 0..graph.edges.len();
    let mut weights: Vec<u8> = edges.map(|edge| weight(rng, edge == 0)).collect();
    rng.shuffle(&mut weights);
    graph.kind = Some(name).filter(|_| !weights.is_empty());
    graph.weights = Some(weights);
}

#[cfg(test)]
mod tests {
    use super::*;
    use std::collections::{BTreeMap, BTreeSet};

    /// Whether weights are what the name of their kind says.
    fn belong(name: &str, weights: Option<&[u8]>) -> bool {
        let Some(weights) = weights else {
            return name == WITHOUT;
        };
        let all = |from: &[u8]| weights.iter().all(|weight| from.contains(weight));
        let ones = weights.iter().filter(|&&weight| weight == 1).count();
        match name {
            "all 1" => all(&[1]),
            "all 2" => all(&[2]),
            "all 255" => all(&[255]),
            "1 and 2" => all(&[1, 2]),
            "1, 2 and 255" => all(&[1, 2, 255]),
            "any" => true,
            "one other than 1" => ones + 1 == weights.len(),
            _ => false,
        }
    }

    #[test]
    fn each_kind_takes_its_turn_and_comes_at_any_time() {
        let mut met: BTreeMap<&str, usize> = BTreeMap::new();
        let mut weights = BTreeSet::new();
        for index in 0..10 * TURN {
            let mut rng = Rng::new(1, "weights", index);
            let unweighted = Graph::with_edges(&mut rng, 12, 1 + index % 60);
            for any in [false, true] {
                let mut graph = unweighted.clone();
                match any {
                    true => super::any(&mut rng, &mut graph),
                    false => in_turn(&mut rng, &mut graph, index),
                }
                let name = graph.kind.expect("a kind");
                *met.entry(name).or_default() += usize::from(!any);
                assert!(belong(name, graph.weights.as_deref()), "{name}");
                let given = graph.weights.iter().flatten();
                assert!(given.clone().all(|&weight| weight > 0));
                weights.extend(given.copied());
            }
        }
        assert!(names().all(|name| met[name] == 10 || name == WITHOUT));
        assert_eq!(met[WITHOUT], 10 * UNWEIGHTED);
        assert!(weights.len() > 200, "{}", weights.len());
    }

    #[test]
    fn a_graph_without_edges_has_weights_of_no_kind() {
        let mut rng = Rng::new(1, "weights", 0);
        for turn in 0..TURN {
            let mut graph = Graph::random(&mut rng, 3, 0);
            in_turn(&mut rng, &mut graph, turn);
            let due = [(None, Some(WITHOUT)), (Some(vec![]), None)];
            assert!(due.contains(&(graph.weights, graph.kind)));
        }
    }
}
