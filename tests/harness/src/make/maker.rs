//! A list of calls in the making.

use super::charts::Chart;
use super::cost;
use super::graph::{Edge, Graph};
use super::graph6::Graph6;
use super::held::Held;
use super::ops::*;
use super::records;
use super::weights;
use crate::rng::Rng;

/// The calls, those oftener that are to come oftener.
const CALLS: [u64; 31] = [
    ADD, ADD, LINK, LINK, LINK, LINK, LINK, UNLINK, UNLINK, UNLINK, MOVE, MOVE, MOVE, LAY, LAY,
    SIFT, SIFT, SIFT, ROUND, SETTLE, SETTLE, COUNT, ORDER, ORDER, PAIR, WRITE, WRITE, EXPORT,
    EXPORT, PERLINK, PERLINK,
];

/// What the naive model may do for the calls of one list that are chosen by it.
const NAIVE: u64 = 1 << 28;

/// What the second program may do, in nanoseconds, for one large graph's calls
/// that are chosen by it.
const SECOND: u64 = 150_000_000;

/// More edges than these are many.
const MANY: usize = 300;

/// A list in the making. What is held of the layout is what it is if it was
/// valid at its start, and otherwise good enough to name vertices and edges by.
pub struct Maker {
    pub rng: Rng,
    pub known: Known,
    pub bytes: Vec<u8>,
    /// The names of the starts.
    pub starts: Vec<&'static str>,
    /// The names of the families that graphs are of.
    pub graphs: Vec<&'static str>,
    /// The names of the kinds of weights that graphs are written with.
    pub weights: Vec<&'static str>,
    /// Whether graphs have weights, and links others than 1.
    pub weighs: bool,
    /// How many calls there are.
    pub calls: usize,
    pub n: usize,
    pub edges: Vec<Edge>,
    /// The edges of another weight than 1.
    heavy: Vec<Edge>,
    /// The layout itself, as long as that is known.
    held: Held,
    budget: Budget,
    /// What the naive model would have to do for all of it.
    naive: u64,
}

/// What is left for calls, and who has to bear them.
#[derive(Clone, Copy)]
enum Budget {
    Naive(u64),
    Second(u64),
}

impl Maker {
    /// Two lists in three have weights.
    pub fn new(mut rng: Rng, known: &Known) -> Maker {
        Maker {
            weighs: !rng.once_in(3),
            rng,
            known: known.clone(),
            bytes: Vec::new(),
            starts: Vec::new(),
            graphs: Vec::new(),
            weights: Vec::new(),
            calls: 0,
            n: 0,
            edges: Vec::new(),
            heavy: Vec::new(),
            held: Held::new(),
            budget: Budget::Naive(NAIVE),
            naive: 0,
        }
    }

    /// From here on calls may be too dear for the naive model, up to what the
    /// second program may do for one graph.
    pub fn without_naive(&mut self) {
        self.budget = Budget::Second(SECOND);
    }

    /// Whether the naive model can play the list in bearable time.
    pub fn is_naive(&self) -> bool {
        self.naive <= cost::NAIVE
    }

    pub fn record(&mut self, record: Record) {
        let cost = self.naive_cost(record[0], record[1]);
        self.held.record(record, cost);
        self.bytes.extend(records::bytes(record));
    }

    /// Starts from a chart or a graph6.
    pub fn read(&mut self, op: u64, bytes: &[u8]) {
        self.held.start(op, bytes);
        self.bytes.extend(records::start(op, bytes));
    }

    /// What a call writes of the layout, if that is known and valid.
    pub fn written(&self, op: u64) -> Option<Vec<u8>> {
        self.held.written(op)
    }

    /// Starts from the empty layout.
    pub fn write_empty(&mut self) {
        self.record([EMPTY, 0, 0, 0]);
        self.forget();
    }

    /// Starts from the chart of a graph.
    pub fn write_chart(&mut self, graph: &Graph) {
        self.read(CHART, &Chart::of(graph).bytes());
        self.hold(graph);
    }

    /// Starts from the graph6 of a graph, which drops the order and the weights.
    pub fn write_graph6(&mut self, graph: &Graph) {
        self.read(IMPORT, &Graph6::of(graph).bytes());
        self.hold(&graph.unweighted());
    }

    /// Starts from the layout of a graph, set field by field.
    pub fn write_fields(&mut self, graph: &Graph) {
        for record in records::fields(graph) {
            self.record(record);
        }
        self.hold(graph);
    }

    fn hold(&mut self, graph: &Graph) {
        self.weights.extend(graph.kind);
        (self.n, self.edges) = (graph.n(), graph.edges.clone());
        let heavy = graph.weighted_edges().into_iter();
        let heavy = heavy.filter(|&(_, weight)| weight != 1);
        self.heavy = heavy.map(|(edge, _)| edge).collect();
    }

    /// Whether some edge has another weight than 1.
    pub fn is_weighted(&self) -> bool {
        !self.heavy.is_empty()
    }

    /// Gives a graph weights of some kind, if the list has weights.
    pub fn weigh(&mut self, graph: &mut Graph) {
        if self.weighs {
            weights::any(&mut self.rng, graph);
        }
    }

    /// Starts from a graph in its order, in one way or the other. One with many
    /// edges, each of which takes two records for its weight, is mostly a chart.
    pub fn write_graph(&mut self, graph: &Graph) {
        let one_in = if graph.edges.len() > MANY { 5 } else { 2 };
        if self.known.has(CHART) && !self.rng.once_in(one_in) {
            self.write_chart(graph);
        } else {
            self.write_fields(graph);
        }
    }

    /// Starts from a graph, now and then in rising order.
    pub fn write_graph_in_any_order(&mut self, graph: &Graph) {
        if self.known.has(IMPORT) && self.rng.once_in(3) {
            self.write_graph6(graph);
        } else {
            self.write_graph(graph);
        }
    }

    /// The layout is the empty one, or nothing is known of it.
    pub fn forget(&mut self) {
        (self.n, self.edges, self.heavy) = (0, Vec::new(), Vec::new());
    }

    /// The most edges with which n vertices can be settled a few times.
    pub fn most_edges(&self, n: usize) -> usize {
        match self.budget {
            Budget::Naive(left) => cost::most_edges(n, left / 4),
            Budget::Second(_) => usize::MAX,
        }
    }

    /// So many calls of any kind.
    pub fn any_calls(&mut self, least: usize, most: usize) {
        for _ in 0..self.rng.within(least, most) {
            self.any_call();
        }
    }

    /// Any known call that the budget allows, or any known call if it allows
    /// none.
    pub fn any_call(&mut self) {
        let known = self.known.among(&CALLS);
        let mut calls = known.clone();
        calls.retain(|&op| self.allows(op));
        let op = self
            .rng
            .pick(if calls.is_empty() { &known } else { &calls });
        self.call(op);
    }

    /// A call with any arguments, if it is known. What is written is often read
    /// back.
    pub fn call(&mut self, op: u64) {
        let (a, b) = self.arguments(op);
        if op == LINK {
            return self.link(a, b);
        }
        self.emit(op, a, b);
        let writes = WRITERS.iter().any(|&(writer, _)| writer == op);
        if writes && self.rng.once_in(2) {
            self.read_back(op, a);
        }
    }

    /// Links two vertices with some weight.
    pub fn link(&mut self, a: u64, b: u64) {
        let weight = self.weight();
        self.emit_record([LINK, a, b, weight]);
    }

    /// Puts a call into the list, if it is known.
    pub fn emit(&mut self, op: u64, a: u64, b: u64) {
        self.emit_record([op, a, b, 0]);
    }

    pub fn emit_record(&mut self, record: Record) {
        let [op, a, ..] = record;
        if !self.known.has(op) {
            return;
        }
        self.spend(op, a);
        self.record(record);
        self.calls += 1;
        self.follow(record);
    }

    /// Every known call once, in any sequence.
    pub fn every_call(&mut self) {
        let mut calls = self.known.among(&CALLS);
        calls.dedup();
        self.rng.shuffle(&mut calls);
        for op in calls {
            self.call(op);
        }
    }

    /// Whether the budget allows a call, a settling with a high limit too.
    pub fn allows(&self, op: u64) -> bool {
        match self.budget {
            Budget::Naive(left) => self.naive_cost(op, 1000) <= left,
            Budget::Second(left) => self.second_cost(op, 1000) <= left,
        }
    }

    fn spend(&mut self, op: u64, a: u64) {
        let (naive, second) = (self.naive_cost(op, a), self.second_cost(op, a));
        self.naive = self.naive.saturating_add(naive);
        self.budget = match self.budget {
            Budget::Naive(left) => Budget::Naive(left.saturating_sub(naive)),
            Budget::Second(left) => Budget::Second(left.saturating_sub(second)),
        };
    }

    fn naive_cost(&self, op: u64, a: u64) -> u64 {
        let (n, m) = (self.n, self.edges.len());
        match op {
            LINK | UNLINK | MOVE | EXPORT => 2 * cost::count(m),
            LAY => cost::lay(n, m) + 2 * cost::count(m),
            SIFT => cost::sift(n, m),
            ROUND => cost::rounds(n, m, 1),
            SETTLE if a <= 1000 => cost::rounds(n, m, a),
            WRITE => 2 * cost::read(m),
            PERLINK => 2 * cost::count_each(m),
            _ => 0,
        }
    }

    fn second_cost(&self, op: u64, a: u64) -> u64 {
        let sifts = match op {
            SIFT => 1,
            ROUND => cost::sifts(self.n, 1),
            SETTLE if a <= 1000 => cost::sifts(self.n, a),
            _ => 0,
        };
        cost::second_sifts(self.n, sifts)
    }

    /// What a call does to the vertices and the edges.
    fn follow(&mut self, [op, a, b, weight]: Record) {
        let n = self.n as u64;
        let are_vertices = a < n && b < n && a != b;
        let (edge, turned) = ((a as u8, b as u8), (b as u8, a as u8));
        let is_edge = |held: &Edge| *held == edge || *held == turned;
        match op {
            ADD if n < 64 => self.n += 1,
            LINK if are_vertices && !self.edges.iter().any(is_edge) && weight % 256 != 0 => {
                self.edges.push(edge);
                if weight % 256 != 1 {
                    self.heavy.push(edge);
                }
            }
            UNLINK if are_vertices => {
                self.edges.retain(|held| !is_edge(held));
                self.heavy.retain(|held| !is_edge(held));
            }
            _ => {}
        }
    }
}
