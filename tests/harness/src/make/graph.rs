//! Graphs with an order and weights, of which charts and layouts are made.

use super::density;
use super::weights::WITHOUT;
use crate::rng::Rng;

/// An edge, its ends either way round.
pub type Edge = (u8, u8);

/// Edges, their weights and an order of the vertices.
#[derive(Clone)]
pub struct Graph {
    pub edges: Vec<Edge>,
    /// One for each edge; where there are none, all weigh 1.
    pub weights: Option<Vec<u8>>,
    /// The name of the weights' kind, if they are of one.
    pub kind: Option<&'static str>,
    pub order: Vec<u8>,
}

impl Graph {
    /// The vertices of some order with these edges, without weights.
    pub fn of(edges: Vec<Edge>, order: Vec<u8>) -> Graph {
        Graph {
            edges,
            weights: None,
            kind: Some(WITHOUT),
            order,
        }
    }

    /// The same graph with these weights.
    pub fn with_weights(self, weights: impl Into<Vec<u8>>) -> Graph {
        Graph {
            weights: Some(weights.into()),
            kind: None,
            ..self
        }
    }

    /// n vertices with these edges, turned either way round, in any order; now
    /// and then in the rising one.
    pub fn new(rng: &mut Rng, n: usize, mut edges: Vec<Edge>) -> Graph {
        for edge in &mut edges {
            if rng.once_in(2) {
                *edge = (edge.1, edge.0);
            }
        }
        let mut order = vertices(n);
        if !rng.once_in(5) {
            rng.shuffle(&mut order);
        }
        Graph::of(edges, order)
    }

    /// A graph of n vertices with any number of edges up to the most, from
    /// none to all.
    pub fn random(rng: &mut Rng, n: usize, most_edges: usize) -> Graph {
        let mut edges = all_pairs(n);
        let m = edge_count(rng, n, edges.len());
        rng.shuffle(&mut edges);
        edges.truncate(m.min(most_edges));
        Graph::new(rng, n, edges)
    }

    /// A graph of n vertices with edges in some quarter of all.
    pub fn in_quarter(rng: &mut Rng, n: usize, quarter: usize) -> Graph {
        let m = density::edge_count(rng, n, quarter);
        Graph::with_edges(rng, n, m)
    }

    /// A graph of n vertices with any m edges.
    pub fn with_edges(rng: &mut Rng, n: usize, m: usize) -> Graph {
        let mut edges = all_pairs(n);
        rng.shuffle(&mut edges);
        edges.truncate(m);
        Graph::new(rng, n, edges)
    }

    pub fn n(&self) -> usize {
        self.order.len()
    }

    /// The edges, each with its weight.
    pub fn weighted_edges(&self) -> Vec<(Edge, u8)> {
        let ones = vec![1; self.edges.len()];
        let weights = self.weights.as_ref().unwrap_or(&ones);
        let edges = self.edges.iter().copied();
        edges.zip(weights.iter().copied()).collect()
    }

    /// The same graph with its edges in another sequence and turned anyhow; one
    /// without weights gets those of 1, one with these none.
    pub fn listed_otherwise(&self, rng: &mut Rng) -> Graph {
        let mut edges = self.weighted_edges();
        rng.shuffle(&mut edges);
        let (ends, weights): (Vec<Edge>, Vec<u8>) = edges.into_iter().unzip();
        let ones = weights.iter().all(|&weight| weight == 1);
        let other = Graph {
            order: self.order.clone(),
            ..Graph::new(rng, self.n(), ends)
        };
        if ones && self.weights.is_some() {
            other
        } else {
            other.with_weights(weights)
        }
    }

    /// The same graph without weights.
    pub fn unweighted(&self) -> Graph {
        Graph::of(self.edges.clone(), self.order.clone())
    }

    /// The adjacency words.
    pub fn words(&self) -> [u64; 64] {
        let mut words = [0; 64];
        for &(a, b) in &self.edges {
            words[usize::from(a)] |= 1 << b;
            words[usize::from(b)] |= 1 << a;
        }
        words
    }
}

/// The vertices in rising number.
pub fn vertices(n: usize) -> Vec<u8> {
    (0..n as u8).collect()
}

/// All pairs of n vertices.
pub fn all_pairs(n: usize) -> Vec<Edge> {
    let pairs = |a: u8| (a + 1..n as u8).map(move |b| (a, b));
    (0..n as u8).flat_map(pairs).collect()
}

/// How many components with edges the graph of some adjacency words has.
pub fn component_count(words: &[u64; 64]) -> usize {
    let mut components: Vec<u64> = Vec::new();
    let linked = words.iter().enumerate().filter(|(_, &word)| word != 0);
    for (v, word) in linked {
        let near = word | 1 << v;
        let (met, apart): (Vec<u64>, Vec<u64>) =
            components.iter().partition(|&other| other & near != 0);
        components = apart;
        components.push(met.iter().fold(near, |all, other| all | other));
    }
    components.len()
}

/// How many of all edges there are: none, all, nearly all, few, or any.
fn edge_count(rng: &mut Rng, n: usize, all: usize) -> usize {
    match rng.below(10) {
        0 => 0,
        1 => all,
        2 => all.saturating_sub(rng.within(1, 3)),
        3 => rng.below(n + 1).min(all),
        4 | 5 => (n + rng.below(n + 1)).min(all),
        _ => rng.below(all + 1),
    }
}
