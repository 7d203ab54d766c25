//! The circular layout (document 01: ring), as calls take it and give it back.

/// Places in an order, bits in an adjacency word, and weights in a row.
pub const PLACES: usize = 64;

/// The two ends of an edge, either way round, and its weight.
pub type WeightedEdge = (u8, u8, u8);

/// A circular layout (document 01: ring). Any values of the fields can be
/// handed in; `is_valid` tells those that document 01 calls whole.
#[derive(Clone, Copy, Debug, PartialEq, Eq)]
pub struct Layout {
    /// How many vertices (document 01: devices) there are.
    pub n: u64,
    /// The vertices, read clockwise.
    pub order: [u8; PLACES],
    /// Adjacency words (document 01: neighbour words). Bit w of word v is set
    /// when an edge (document 01: link) joins v and w.
    pub adjacency: [u64; PLACES],
    /// The weight of each vertex towards each other one (document 02, Note 8),
    /// 0 where no edge joins them.
    pub weights: [[u8; PLACES]; PLACES],
    /// The carried count.
    pub count: u64,
}

impl Layout {
    /// The empty layout carries 0.
    pub const EMPTY: Layout = Layout {
        n: 0,
        order: [0; PLACES],
        adjacency: [0; PLACES],
        weights: [[0; PLACES]; PLACES],
        count: 0,
    };

    /// A layout of the vertices in `order`, at most 64 of them, with these
    /// edges, each given once. It carries 0.
    pub fn new(order: &[u8], edges: &[WeightedEdge]) -> Layout {
        let mut layout = Layout {
            n: order.len() as u64,
            ..Layout::EMPTY
        };
        layout.order[..order.len()].copy_from_slice(order);
        for &(a, b, weight) in edges {
            layout.put_edge(usize::from(a), usize::from(b), weight);
        }
        layout
    }

    /// Whether an edge joins a and b; any numbers can be asked for.
    pub fn has_edge(&self, a: u64, b: u64) -> bool {
        let places = PLACES as u64;
        a < places && b < places && self.adjacency[a as usize] & (1 << b) != 0
    }

    /// Puts in an edge of some weight.
    pub fn put_edge(&mut self, a: usize, b: usize, weight: u8) {
        self.adjacency[a] |= 1 << b;
        self.adjacency[b] |= 1 << a;
        self.weigh(a, b, weight);
    }

    /// Takes out an edge and its weight.
    pub fn cut_edge(&mut self, a: usize, b: usize) {
        self.adjacency[a] &= !(1 << b);
        self.adjacency[b] &= !(1 << a);
        self.weigh(a, b, 0);
    }

    /// Sets a weight both ways round.
    fn weigh(&mut self, a: usize, b: usize, weight: u8) {
        self.weights[a][b] = weight;
        self.weights[b][a] = weight;
    }

    /// Whether some weight is neither 0 nor 1.
    pub fn is_weighted(&self) -> bool {
        self.weights.iter().flatten().any(|&weight| weight > 1)
    }

    /// Whether the layout is valid (document 01: whole).
    pub fn is_valid(&self) -> bool {
        self.n <= PLACES as u64
            && self.order_is_valid()
            && pairs().all(|(v, w)| self.pair_is_valid(v, w))
    }

    /// Each vertex once, and 0 in the unused places.
    fn order_is_valid(&self) -> bool {
        let (used, unused) = self.order.split_at(self.n as usize);
        let mut seen = [false; PLACES];
        let each_once = used
            .iter()
            .all(|&v| u64::from(v) < self.n && !std::mem::replace(&mut seen[usize::from(v)], true));
        each_once && unused.iter().all(|&v| v == 0)
    }

    /// An edge joins two different vertices, it is there the other way round
    /// too and weighs the same there, and it has a weight; without an edge
    /// there is none.
    fn pair_is_valid(&self, v: usize, w: usize) -> bool {
        let weight = self.weights[v][w];
        let (from, to) = (v as u64, w as u64);
        if !self.has_edge(from, to) {
            return weight == 0;
        }
        let there = from < self.n && to < self.n && v != w;
        there && self.has_edge(to, from) && weight != 0 && weight == self.weights[w][v]
    }
}

/// All pairs of places, both ways round.
fn pairs() -> impl Iterator<Item = (usize, usize)> {
    (0..PLACES).flat_map(|v| (0..PLACES).map(move |w| (v, w)))
}
