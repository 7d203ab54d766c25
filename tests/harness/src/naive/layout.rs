//! The layout (document 01: ring), its validity (whole) and its crossings.

/// A circular layout (document 01: ring), any values in its fields.
#[derive(Clone, Debug, PartialEq)]
pub struct Layout {
    /// The number of vertices (devices).
    pub n: u64,
    pub order: [u8; 64],
    /// Adjacency words (neighbour words).
    pub words: [u64; 64],
    /// The weight of each vertex towards each other one.
    pub weights: [[u8; 64]; 64],
    /// The carried count.
    pub count: u64,
}

/// An edge (link) between two vertices, lower end first.
pub type Edge = (usize, usize);

/// An edge and its weight.
pub type Weighted = (Edge, u8);

pub fn empty() -> Layout {
    Layout {
        n: 0,
        order: [0; 64],
        words: [0; 64],
        weights: [[0; 64]; 64],
        count: 0,
    }
}

pub fn joined(words: &[u64; 64], v: usize, w: usize) -> bool {
    (words[v] >> w) & 1 == 1
}

/// Joins two vertices by an edge of some weight.
pub fn join(layout: &mut Layout, v: usize, w: usize, weight: u8) {
    layout.words[v] |= 1 << w;
    layout.words[w] |= 1 << v;
    layout.weights[v][w] = weight;
    layout.weights[w][v] = weight;
}

/// Whether the layout is valid (whole).
pub fn valid(layout: &Layout) -> bool {
    if layout.n > 64 {
        return false;
    }
    let n = layout.n as usize;
    for v in 0..n {
        let times = layout.order[..n].iter().filter(|&&w| w as usize == v);
        if times.count() != 1 {
            return false;
        }
    }
    if layout.order[n..].iter().any(|&unused| unused != 0) {
        return false;
    }
    for v in 0..64 {
        for w in 0..64 {
            let edge = joined(&layout.words, v, w);
            if edge != joined(&layout.words, w, v) || edge && (v == w || v >= n || w >= n) {
                return false;
            }
            let weight = layout.weights[v][w];
            if weight != layout.weights[w][v] || (weight == 0) == edge {
                return false;
            }
        }
    }
    true
}

/// The order of a valid layout as a list.
pub fn list(layout: &Layout) -> Vec<usize> {
    let used = &layout.order[..layout.n as usize];
    used.iter().map(|&v| v as usize).collect()
}

/// The edges of a valid layout, sorted by lower, then higher end.
pub fn edges(layout: &Layout) -> Vec<Edge> {
    let n = layout.n as usize;
    let mut edges = Vec::new();
    for v in 0..n {
        for w in v + 1..n {
            if joined(&layout.words, v, w) {
                edges.push((v, w));
            }
        }
    }
    edges
}

/// The same, each with its weight.
pub fn weighted(layout: &Layout) -> Vec<Weighted> {
    let edges = edges(layout).into_iter();
    edges.map(|(v, w)| ((v, w), layout.weights[v][w])).collect()
}

/// Whether some edge has another weight than 1.
pub fn is_weighted(layout: &Layout) -> bool {
    weighted(layout).iter().any(|&(_, weight)| weight != 1)
}

/// The isolated vertices (unlinked devices), in rising number.
pub fn isolated(layout: &Layout) -> Vec<usize> {
    let unlinked = |v: &usize| (*v as u64) < layout.n && layout.words[*v] == 0;
    (0..64).filter(unlinked).collect()
}

/// So many edges are looked at together; that is quicker.
const TOGETHER: usize = 32;

/// The places in which the first and the second ends of edges stand, as signed
/// bytes, which are quicker to compare, and the edges' weights. Behind them
/// comes what fills up the last edges that are looked at together: edges of no
/// weight.
struct Places {
    first: Vec<i8>,
    second: Vec<i8>,
    weight: Vec<u8>,
}

fn places(order: &[usize], edges: &[Weighted]) -> Places {
    let mut place = [0; 64];
    for (i, &v) in order.iter().enumerate() {
        place[v] = i as i8;
    }
    let mut places = Places {
        first: edges.iter().map(|&((v, _), _)| place[v]).collect(),
        second: edges.iter().map(|&((_, w), _)| place[w]).collect(),
        weight: edges.iter().map(|&(_, weight)| weight).collect(),
    };
    let filled = edges.len() + TOGETHER - 1;
    places.first.resize(filled, 0);
    places.second.resize(filled, 0);
    places.weight.resize(filled, 0);
    places
}

impl Places {
    /// The products of an edge's weight with the weight of each that crosses it,
    /// of those from some number on, summed: the one weight is multiplied with
    /// the sum of the others.
    fn crossed_from(&self, edge: usize, from: usize) -> u64 {
        let ends = (self.first[edge], self.second[edge]);
        let (first, _) = self.first[from..].as_chunks::<TOGETHER>();
        let (second, _) = self.second[from..].as_chunks::<TOGETHER>();
        let (weight, _) = self.weight[from..].as_chunks::<TOGETHER>();
        let mut total = 0;
        for ((first, second), weight) in first.iter().zip(second).zip(weight) {
            total += u64::from(crossed(ends, first, second, weight));
        }
        u64::from(self.weight[edge]) * total
    }
}

/// The crossings of the edges in an order: the unordered pairs that cross, each
/// with the product of its two weights.
pub fn crossings(order: &[usize], edges: &[Weighted]) -> u64 {
    let places = places(order, edges);
    (0..edges.len())
        .map(|i| places.crossed_from(i, i + 1))
        .sum()
}

/// The crossings that each edge takes part in: those of all edges that cross
/// it. None crosses itself.
pub fn crossings_of_each(order: &[usize], edges: &[Weighted]) -> Vec<u64> {
    let places = places(order, edges);
    (0..edges.len())
        .map(|i| places.crossed_from(i, 0))
        .collect()
}

/// The weights of those of some edges that cross one, looked at one by one.
fn crossed(
    edge: (i8, i8),
    first: &[i8; TOGETHER],
    second: &[i8; TOGETHER],
    weight: &[u8; TOGETHER],
) -> u16 {
    let mut total = 0;
    for i in 0..TOGETHER {
        let times = u8::from(cross(edge, (first[i], second[i])));
        total += u16::from(times * weight[i]);
    }
    total
}

/// Whether two edges, given by the places of their ends, cross: the four ends
/// are all different, and those of one alternate with those of the other.
fn cross((a, b): (i8, i8), (c, d): (i8, i8)) -> bool {
    let different = (a != c) & (a != d) & (b != c) & (b != d);
    let between = |x: i8| (a.min(b) < x) & (x < a.max(b));
    different & (between(c) != between(d))
}

/// The first two edges that cross: lowest first edge, then lowest second one.
pub fn first_pair(order: &[usize], edges: &[Weighted]) -> Option<(Edge, Edge)> {
    let Places { first, second, .. } = places(order, edges);
    for i in 0..edges.len() {
        for j in i + 1..edges.len() {
            if cross((first[i], second[i]), (first[j], second[j])) {
                return Some((edges[i].0, edges[j].0));
            }
        }
    }
    None
}
