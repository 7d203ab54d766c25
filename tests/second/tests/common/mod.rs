//! Layouts and charts for the tests. Not every test file uses all of them.
#![allow(dead_code)]

use std::fmt::Debug;

use second::calls::Answer;
pub use second::crossings::counted as weighted;
use second::layout::{Layout, WeightedEdge};

/// The edges of the first ring worked by hand in document 01.
pub const FIRST: [(u8, u8); 2] = [(0, 2), (1, 3)];

/// A layout whose edges all have the weight 1, and that carries its crossings.
pub fn layout(order: &[u8], edges: &[(u8, u8)]) -> Layout {
    weighted(order, &of_weight(1, edges))
}

/// Edges that all have one weight.
pub fn of_weight(weight: u8, edges: &[(u8, u8)]) -> Vec<WeightedEdge> {
    edges.iter().map(|&(a, b)| (a, b, weight)).collect()
}

/// The first ring: edges 0-2 and 1-3, order 0 1 2 3.
pub fn first_ring() -> Layout {
    layout(&[0, 1, 2, 3], &FIRST)
}

/// Vertices 0 to n - 1 in rising order.
pub fn rising(n: u8) -> Vec<u8> {
    (0..n).collect()
}

/// All pairs of n vertices, lower end first.
pub fn all_edges(n: u8) -> Vec<(u8, u8)> {
    let pairs = |a| (a + 1..n).map(move |b| (a, b));
    (0..n).flat_map(pairs).collect()
}

/// n vertices in rising order with all edges.
pub fn complete(n: u8) -> Layout {
    layout(&rising(n), &all_edges(n))
}

/// The same, each of the largest weight.
pub fn heaviest(n: u8) -> Layout {
    weighted(&rising(n), &of_weight(255, &all_edges(n)))
}

/// The order without its unused places.
pub fn order(layout: &Layout) -> &[u8] {
    &layout.order[..layout.n as usize]
}

/// Every graph of n vertices, as its edges.
pub fn all_graphs(n: u8) -> impl Iterator<Item = Vec<(u8, u8)>> {
    let pairs = all_edges(n);
    (0u32..1 << pairs.len()).map(move |chosen| {
        let numbered = pairs.iter().enumerate();
        let kept = numbered.filter(|(i, _)| chosen >> i & 1 == 1);
        kept.map(|(_, &edge)| edge).collect()
    })
}

/// Every graph of five vertices, in one order, and layouts at random.
pub fn many_layouts() -> impl Iterator<Item = Layout> {
    let small = all_graphs(5).map(|edges| layout(&[3, 1, 4, 0, 2], &edges));
    small.chain((0..200).map(|seed| Random(seed).layout()))
}

/// The same graphs with weights.
pub fn many_weighted_layouts() -> impl Iterator<Item = Layout> {
    let small = all_graphs(5).map(|edges| weighted(&[3, 1, 4, 0, 2], &by_pair(&edges)));
    small.chain((0..200).map(|seed| Random(seed).weighted_layout()))
}

/// Edges of five vertices, each with a weight of its own.
pub fn by_pair(edges: &[(u8, u8)]) -> Vec<WeightedEdge> {
    const WEIGHTS: [u8; 10] = [3, 1, 255, 2, 7, 1, 20, 254, 5, 2];
    let pairs = all_edges(5);
    let place = |edge| pairs.iter().position(|pair| pair == edge);
    let place = |edge| place(edge).expect("an edge of five vertices");
    let weighed = edges
        .iter()
        .map(|edge| (edge.0, edge.1, WEIGHTS[place(edge)]));
    weighed.collect()
}

/// Numbers from a seed (splitmix64).
pub struct Random(pub u64);

impl Random {
    pub fn below(&mut self, bound: usize) -> usize {
        self.0 = self.0.wrapping_add(0x9E37_79B9_7F4A_7C15);
        let mut z = self.0;
        z = (z ^ (z >> 30)).wrapping_mul(0xBF58_476D_1CE4_E5B9);
        z = (z ^ (z >> 27)).wrapping_mul(0x94D0_49BB_1331_11EB);
        ((z ^ (z >> 31)) % bound as u64) as usize
    }

    /// A layout of 1 to 64 vertices with any number of edges of weight 1.
    pub fn layout(&mut self) -> Layout {
        let (order, edges) = self.graph();
        layout(&order, &edges)
    }

    /// The same with weights of 1, 2, 255 and any.
    pub fn weighted_layout(&mut self) -> Layout {
        let (order, edges) = self.graph();
        let weighed = edges.into_iter().map(|(a, b)| (a, b, self.weight()));
        let weighed: Vec<WeightedEdge> = weighed.collect();
        weighted(&order, &weighed)
    }

    pub fn weight(&mut self) -> u8 {
        let any = 1 + self.below(255) as u8;
        [1, 2, 255, any][self.below(4)]
    }

    fn graph(&mut self) -> (Vec<u8>, Vec<(u8, u8)>) {
        let n = 1 + self.below(64) as u8;
        let mut edges = all_edges(n);
        self.shuffle(&mut edges);
        let m = self.below(edges.len() + 1);
        edges.truncate(m);
        let mut order = rising(n);
        self.shuffle(&mut order);
        (order, edges)
    }

    fn shuffle<T>(&mut self, items: &mut [T]) {
        for i in (1..items.len()).rev() {
            items.swap(i, self.below(i + 1));
        }
    }
}

/// A field of a chart.
pub fn field(tag: u8, body: &[u8]) -> Vec<u8> {
    let length = u16::try_from(body.len()).expect("a body fits its length");
    [&[tag], &length.to_be_bytes()[..], body].concat()
}

/// A chart of three fields, each body as given.
pub fn chart(size: &[u8], edges: &[u8], order: &[u8]) -> Vec<u8> {
    [field(0x44, size), field(0x4C, edges), field(0x52, order)].concat()
}

/// A chart of four fields, each body as given.
pub fn weighted_chart(size: &[u8], edges: &[u8], order: &[u8], weights: &[u8]) -> Vec<u8> {
    [chart(size, edges, order), field(0x57, weights)].concat()
}

/// The body of a field of edges.
pub fn edge_bytes(edges: &[(u8, u8)]) -> Vec<u8> {
    edges.iter().flat_map(|&(a, b)| [a, b]).collect()
}

/// What a buffer or a table holds.
pub trait Entry: Copy + Debug + PartialEq + From<u8> {}

impl Entry for u8 {}
impl Entry for u64 {}

/// A call that writes of a layout into what is lent and answers a length.
pub type Write<E> = fn(Layout, &mut [E]) -> Answer<usize>;

/// So many entries as they are before a call.
fn filled<E: Entry>(length: usize) -> Vec<E> {
    vec![E::from(7); length]
}

/// What a call writes into so many entries.
pub fn lent<E: Entry>(write: Write<E>, layout: Layout, length: usize) -> (Answer<usize>, Vec<E>) {
    let mut entries = filled(length);
    let answer = write(layout, &mut entries);
    assert_eq!(answer.layout, layout);
    (answer, entries)
}

/// What a call writes, without the entries beyond it.
pub fn written<E: Entry>(write: Write<E>, layout: Layout) -> Vec<E> {
    let (answer, mut entries) = lent(write, layout, 8192);
    assert_eq!(answer.refusal, 0);
    let beyond = entries.split_off(answer.value);
    assert_eq!(beyond, filled(beyond.len()));
    entries
}

/// As many entries as are written, or more, get them; fewer are refused with
/// some number and left.
pub fn is_long_enough_or_untouched<E: Entry>(
    write: Write<E>,
    layout: Layout,
    length: usize,
    refusal: u8,
) {
    let due = written(write, layout);
    assert_eq!(due.len(), length);
    for longer in 0..3 {
        let (answer, entries) = lent(write, layout, length + longer);
        assert_eq!((answer.refusal, answer.value), (0, length));
        assert_eq!(entries, [&due[..], &filled(longer)].concat());
    }
    let shorter = [1, 2, length].map(|fewer| length.saturating_sub(fewer));
    for shorter in shorter.into_iter().filter(|&shorter| shorter < length) {
        is_untouched(write, layout, shorter, refusal);
    }
}

/// So many entries are left by a refused call.
pub fn is_untouched<E: Entry>(write: Write<E>, layout: Layout, length: usize, refusal: u8) {
    let (answer, entries) = lent(write, layout, length);
    assert_eq!((answer.refusal, answer.value), (refusal, 0));
    assert_eq!(entries, filled(length));
}
