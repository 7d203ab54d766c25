//! The ways to start in a list, with calls behind each of them.

use super::charts;
use super::families::{self, Family};
use super::graph::Graph;
use super::graph6;
use super::maker::Maker;
use super::ops::*;
use super::settled::{self, settled};
use super::special::Special;

/// A way to start: its name, an op that it cannot do without, and what it does.
pub type Start = (&'static str, u64, fn(&mut Maker));

const STARTS: [Start; 12] = [
    ("empty", EMPTY, Maker::start_empty),
    ("chart", CHART, |maker| {
        maker.start_graph(Maker::write_chart)
    }),
    ("fields", EMPTY, |maker| {
        maker.start_graph(Maker::write_fields)
    }),
    ("spoilt chart", CHART, |maker| {
        maker.start_spoilt(Maker::write_chart)
    }),
    ("spoilt fields", EMPTY, |maker| {
        maker.start_spoilt(Maker::write_fields)
    }),
    ("fields at random", EMPTY, Maker::start_random),
    ("refused chart", CHART, |maker| maker.start_refused(CHART)),
    ("graph6", IMPORT, |maker| {
        maker.start_graph(Maker::write_graph6)
    }),
    ("refused graph6", IMPORT, |maker| {
        maker.start_refused(IMPORT)
    }),
    ("64 vertices, and add", ADD, Maker::start_full),
    ("settled already", EMPTY, Maker::start_settled),
    FAMILY,
];

/// The start from a graph of some family.
pub const FAMILY: Start = ("graph of a family", EMPTY, |maker| {
    maker.start_family(families::all(), 40);
    maker.any_count();
    maker.any_calls(6, 20);
});

/// The ways to start that are open to known calls.
pub fn open(known: &Known) -> Vec<Start> {
    let mut starts = STARTS.to_vec();
    starts.retain(|&(_, op, _)| known.has(op));
    starts
}

impl Maker {
    pub fn start(&mut self, (name, _, start): Start) {
        self.starts.push(name);
        start(self);
    }

    /// Starts from a graph of one of some families, with at most so many
    /// vertices. No calls are behind it yet.
    pub fn start_family(&mut self, families: &[Family], most: usize) {
        let family = self.rng.pick(families);
        self.graphs.push(family.name);
        let mut graph = family.graph(&mut self.rng, most);
        self.weigh(&mut graph);
        self.write_graph_in_any_order(&graph);
    }

    fn start_empty(&mut self) {
        self.write_empty();
        for _ in 0..self.rng.below(9) {
            self.emit(ADD, 0, 0);
        }
        for _ in 0..2 * self.n {
            let (a, b) = self.two_vertices();
            self.link(a, b);
        }
        self.any_calls(3, 20);
    }

    /// A graph small enough to be settled, or any.
    fn graph(&mut self) -> Graph {
        let n = match self.rng.below(4) {
            0 => self.rng.pick(&[0, 1, 2, 3, 63, 64]),
            1 => self.rng.below(15),
            _ => self.rng.below(65),
        };
        let most = if self.rng.once_in(3) {
            usize::MAX
        } else {
            self.most_edges(n)
        };
        let mut graph = Graph::random(&mut self.rng, n, most);
        self.weigh(&mut graph);
        graph
    }

    fn start_graph(&mut self, write: fn(&mut Maker, &Graph)) {
        let graph = self.graph();
        write(self, &graph);
        self.any_count();
        self.any_calls(6, 30);
    }

    fn start_spoilt(&mut self, write: fn(&mut Maker, &Graph)) {
        let graph = self.graph();
        write(self, &graph);
        self.any_count();
        self.spoil(&graph);
        self.any_calls(2, 8);
    }

    /// Now and then a carried count that is not the true one.
    pub fn any_count(&mut self) {
        if self.rng.once_in(3) {
            let (word, wide) = (self.rng.word(), 1 << 32);
            let last = u64::MAX - self.rng.below(1000) as u64;
            let counts = [0, 1, wide - 1, wide, last, last, word, word];
            let count = self.rng.pick(&counts);
            self.record([SET_COUNT, count, 0, 0]);
        }
    }

    fn start_random(&mut self) {
        self.forget();
        self.n = self.rng.below(65);
        self.record([SET_N, self.n as u64, 0, 0]);
        for _ in 0..self.rng.within(1, 80) {
            let op = self.rng.pick(&[SET_ORDER, SET_WORD, SET_WEIGHT]);
            let (place, value) = (self.rng.below(66) as u64, self.rng.word());
            let record = match op {
                SET_WEIGHT => [op, place, self.rng.below(66) as u64, value],
                _ => [op, place, value, 0],
            };
            self.record(record);
        }
        self.any_count();
        self.any_calls(2, 8);
    }

    fn start_refused(&mut self, op: u64) {
        let mut special = self.any_special(op);
        while special.refusal == Some(0) {
            special = self.any_special(op);
        }
        let bytes = (special.make)(&mut self.rng);
        self.read(op, &bytes);
        self.forget();
        self.any_calls(1, 4);
    }

    /// Any special chart or graph6.
    fn any_special(&mut self, op: u64) -> &'static Special {
        let number = self.rng.below(1000);
        match op {
            IMPORT => graph6::special(number),
            _ => charts::special(number),
        }
    }

    /// A graph in an order that sifting leaves, sifted and changed.
    fn start_settled(&mut self) {
        let n = self.rng.below(65);
        let most = settled::most_edges(n).min(self.most_edges(n));
        let mut graph = Graph::random(&mut self.rng, n, most);
        self.weigh(&mut graph);
        let graph = settled(&graph).unwrap_or(graph);
        self.write_graph(&graph);
        self.any_count();
        self.some_calls(&[SIFT, SIFT, ROUND, SETTLE]);
        self.any_calls(2, 12);
    }

    fn start_full(&mut self) {
        let most = self.rng.pick(&[0, 100, usize::MAX]);
        let mut graph = Graph::random(&mut self.rng, 64, most);
        self.weigh(&mut graph);
        self.write_graph(&graph);
        self.emit(ADD, 0, 0);
        self.any_calls(3, 12);
    }
}
