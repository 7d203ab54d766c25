//! Layouts from a seed, alike in every run.

pub use second::chart::bytes as chart;
use second::crossings::counted;
pub use second::graph6::bytes as graph6;
use second::layout::{Layout, WeightedEdge};

/// The weights of a layout's edges (document 02, Note 8).
#[derive(Clone, Copy, Debug, PartialEq, Eq)]
pub enum Weights {
    /// All 1.
    Ones,
    /// From 1 to 255.
    Any,
}

/// The layout of n vertices and so many edges that calls are measured on, always
/// the same. Order and edges are the same with any weights.
pub fn layout(n: u8, edges: usize, weights: Weights) -> Layout {
    Random(u64::from(n)).layout(n, edges, weights)
}

/// How many edges n vertices can have.
pub fn most_edges(n: u8) -> usize {
    usize::from(n) * usize::from(n).saturating_sub(1) / 2
}

/// 64 vertices in their order, the first joined to all others and each to the
/// next, with weights from 1 to 255.
pub fn fan() -> Layout {
    let order: Vec<u8> = (0..64).collect();
    let all = (1..64).map(|v| (0, v));
    let next = (1..63).map(|v| (v, v + 1));
    let edges: Vec<(u8, u8)> = all.chain(next).collect();
    Layout::new(&order, &Random(64).weighted(&edges, Weights::Any))
}

/// A layout with vertices without edges behind the others, up to 64.
pub fn with_isolated(mut layout: Layout) -> Layout {
    for v in layout.n as u8..64 {
        layout.order[usize::from(v)] = v;
    }
    layout.n = 64;
    layout
}

/// The edges, or the pairs that aren't edges.
pub fn pairs(layout: &Layout, are_edges: bool) -> Vec<(u64, u64)> {
    let pairs = |a| (a + 1..layout.n).map(move |b| (a, b));
    (0..layout.n)
        .flat_map(pairs)
        .filter(|&(a, b)| layout.has_edge(a, b) == are_edges)
        .collect()
}

/// Numbers from a seed (splitmix64).
pub struct Random(pub u64);

impl Random {
    /// Any number.
    pub fn any(&mut self) -> u64 {
        self.0 = self.0.wrapping_add(0x9E37_79B9_7F4A_7C15);
        let mut z = self.0;
        z = (z ^ (z >> 30)).wrapping_mul(0xBF58_476D_1CE4_E5B9);
        z = (z ^ (z >> 27)).wrapping_mul(0x94D0_49BB_1331_11EB);
        z ^ (z >> 31)
    }

    /// A number below a bound.
    pub fn below(&mut self, bound: usize) -> usize {
        (self.any() % bound as u64) as usize
    }

    /// A weight from 1 to 255.
    pub fn weight(&mut self) -> u8 {
        1 + self.below(255) as u8
    }

    /// A layout of n vertices in no particular order, with so many of the possible
    /// edges, taken at random, and its true count.
    pub fn layout(&mut self, n: u8, edges: usize, weights: Weights) -> Layout {
        let mut order: Vec<u8> = (0..n).collect();
        self.shuffle(&mut order);
        let pairs = |a: u8| (a + 1..n).map(move |b| (a, b));
        let mut all: Vec<(u8, u8)> = (0..n).flat_map(pairs).collect();
        self.shuffle(&mut all);
        all.truncate(edges);
        counted(&order, &self.weighted(&all, weights))
    }

    /// The edges, each with a weight.
    fn weighted(&mut self, edges: &[(u8, u8)], weights: Weights) -> Vec<WeightedEdge> {
        let mut weight = || match weights {
            Weights::Ones => 1,
            Weights::Any => self.weight(),
        };
        edges.iter().map(|&(a, b)| (a, b, weight())).collect()
    }

    pub fn shuffle<T>(&mut self, items: &mut [T]) {
        for i in (1..items.len()).rev() {
            items.swap(i, self.below(i + 1));
        }
    }
}
