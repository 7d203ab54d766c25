//! Calls that are refused with a number wanted, on layouts made for it.

use super::graph::Graph;
use super::maker::Maker;
use super::ops::*;
use super::spoil::{n_over_64, Way, SPOILS};

/// So often a way to spoil is tried that goes by what is chosen at random.
const TRIES: usize = 20;

impl Maker {
    /// A call that has to be refused with a number that it can answer.
    pub fn refused_call(&mut self, op: u64, number: u8) {
        let graph = self.graph_to_refuse(op, number);
        self.write_graph(&graph);
        if number == 11 {
            self.spoil(&graph);
        }
        let (a, b) = self.refused_arguments(op, number, &graph);
        let weight = match (op, number) {
            (LINK, 25) => 256 * self.rng.pick(&[0, 0, 1, 1 << 24, 1 << 55]),
            (LINK, _) => self.weight(),
            _ => 0,
        };
        self.emit_record([op, a, b, weight]);
    }

    /// A graph with two vertices that are joined and two that aren't; a full
    /// one for what only that refuses, and one with weights or without where
    /// they decide.
    fn graph_to_refuse(&mut self, op: u64, number: u8) -> Graph {
        let n = match number {
            16 => 64,
            _ => self.rng.within(3, 12),
        };
        let m = self.rng.within(1, n - 1);
        let mut graph = Graph::with_edges(&mut self.rng, n, m);
        match (op, number) {
            (EXPORT, 19) => {}
            (EXPORT, 26) => {
                let mut weights = vec![1; m];
                weights[self.rng.below(m)] = self.rng.within(2, 255) as u8;
                graph = graph.with_weights(weights);
            }
            _ => self.weigh(&mut graph),
        }
        graph
    }

    /// Any call on a layout that isn't valid in a way that takes its turn.
    pub fn spoilt_in_turn(&mut self, index: usize) {
        let graph = self.graph_to_refuse(COUNT, 11);
        self.write_graph(&graph);
        self.spoil_in(SPOILS[index % SPOILS.len()], &graph);
        self.any_call();
    }

    /// Makes the layout of a graph invalid in any way.
    pub fn spoil(&mut self, graph: &Graph) {
        let way = self.rng.pick(&SPOILS);
        self.spoil_in(way, graph);
    }

    /// Makes the layout of a graph invalid in one way, or if that is barred in
    /// another.
    pub fn spoil_in(&mut self, (name, spoil): Way, graph: &Graph) {
        let mut records = Vec::new();
        for _ in 0..TRIES {
            if records.is_empty() {
                records = spoil(&mut self.rng, graph);
            }
        }
        if records.is_empty() {
            records = n_over_64(&mut self.rng, graph);
        } else {
            self.starts.push(name);
        }
        for record in records {
            self.record(record);
        }
    }

    /// Numbers that answer every question before the one with this number by
    /// "yes", and that one by "no".
    fn refused_arguments(&mut self, op: u64, number: u8, graph: &Graph) -> (u64, u64) {
        let n = graph.n() as u64;
        let v = self.rng.below(graph.n()) as u64;
        let far = self.far_vertex(v);
        match number {
            12 => self
                .rng
                .pick(&[(far, v), (v, far), (far, far)][..self.places(op)]),
            13 => (v, v),
            14 => self.two_of(graph, true),
            15 | 25 => self.two_of(graph, false),
            17 => (self.rng.pick(&[0, 1001, 1 << 32, u64::MAX]), 0),
            18 => (self.rng.below(graph.n()) as u64, 7),
            19 | 23 => (self.rng.below(self.filled_length(op) as usize) as u64, 7),
            26 => (self.any_length(op), 7),
            _ => (v, (v + 1) % n),
        }
    }

    /// In how many ways a vertex that isn't there can be named.
    fn places(&self, op: u64) -> usize {
        match op {
            LAY | SIFT => 1,
            _ => 3,
        }
    }

    /// Two vertices of a graph that are joined, or that aren't.
    fn two_of(&mut self, graph: &Graph, joined: bool) -> (u64, u64) {
        let words = graph.words();
        let n = graph.n();
        let pairs = (0..n).flat_map(|a| (0..n).map(move |b| (a, b)));
        let wanted = |&(a, b): &(usize, usize)| a != b && (words[a] >> b & 1 == 1) == joined;
        let pairs: Vec<(usize, usize)> = pairs.filter(wanted).collect();
        let (a, b) = self.rng.pick(&pairs);
        (a as u64, b as u64)
    }
}

#[cfg(test)]
mod tests {
    use super::*;
    use crate::naive::play::play;
    use crate::rng::Rng;

    #[test]
    fn each_call_gets_each_of_its_refusal_numbers() {
        let known = Known::all();
        for (name, op, number) in known.refused() {
            for index in 0..60 {
                let rng = Rng::new(1, name, index);
                let mut maker = Maker::new(rng, &known);
                maker.refused_call(op, number);
                let lines = play(&maker.bytes);
                let last = lines.lines().last().expect("a line");
                let due = format!("{name} {number} ");
                assert!(last.starts_with(&due), "{due}: {last}");
            }
        }
    }
}
