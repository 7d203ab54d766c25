//! The list that is stored as a program's test: every call, accepted and with
//! each of its refusal numbers, on layouts small enough to follow by hand.

use super::charts::{field, Chart};
use super::graph::{all_pairs, vertices, Graph};
use super::graph6::Graph6;
use super::ops::*;
use super::records::{both_ways, bytes, chart, fields, import};
use super::special::SPECIALS;
use crate::rng::Rng;

/// Vertices that no layout has.
const FAR: [u64; 5] = [64, 255, 256, 1 << 32, u64::MAX];

/// graph6 worked by hand: accepted, and refused with 20, 21 and 22.
const ACCEPTED: [&[u8]; 8] = [b"?", b"@", b"A?", b"A_", b"BO", b"CQ", b"C~", b"DQc"];
const BAD_SIZE: [&[u8]; 12] = [
    b"",
    b">Qc",
    b"\x7fQc",
    b"~",
    b"~?",
    b"~?@",
    b"~??>",
    b"~??CDQc",
    b"~??}",
    b"~?@@",
    b"~~?????C",
    b">>graph6<<DQc",
];
const BAD_DATA: [&[u8]; 8] = [
    b"?\n", b"@?", b"DQ", b"DQc?", b"DQc\n", b"D>c", b"DQ\x7f", b"D>d",
];
const BAD_PADDING: [&[u8]; 6] = [b"A@", b"AO", b"B@", b"BC", b"DQd", b"DQe"];

/// The bytes of the list, of known calls.
pub fn list(known: &Known) -> Vec<u8> {
    let mut list = List {
        known,
        bytes: Vec::new(),
    };
    list.empty_layout();
    list.six_vertices();
    list.six_vertices_changed();
    list.far_vertices();
    list.lays();
    list.sifts();
    list.full_layout();
    list.heaviest_layout();
    list.weighted_layouts();
    list.weighted_links();
    list.invalid_layouts();
    list.invalid_weights();
    list.any_count();
    list.read_back();
    list.charts();
    list.weighted_charts();
    list.imports();
    list.end();
    list.bytes
}

/// The weights of all edges of four vertices, with which lay chooses another end
/// than without them, and sifting another place.
const WEIGHTS: [u8; 6] = [1, 2, 1, 2, 3, 1];

/// The first ring of document 01.
fn square() -> Graph {
    Graph::of(vec![(0, 2), (3, 1)], vertices(4))
}

/// The same as it is written.
fn sorted_square() -> Graph {
    Graph::of(vec![(0, 2), (1, 3)], vertices(4))
}

struct List<'a> {
    known: &'a Known,
    bytes: Vec<u8>,
}

impl List<'_> {
    /// These records, but for calls that aren't known.
    fn play(&mut self, records: &[Record]) {
        let known = records.iter().filter(|[op, ..]| self.known.has(*op));
        self.bytes.extend(known.flat_map(|&record| bytes(record)));
    }

    /// Every call once; those that name vertices name the first two.
    fn every_call(&mut self) {
        self.play(&[
            [ADD, 0, 0, 0],
            [LINK, 0, 1, 1],
            [UNLINK, 0, 1, 0],
            [MOVE, 0, 1, 0],
            [LAY, 0, 0, 0],
            [SIFT, 0, 0, 0],
            [ROUND, 0, 0, 0],
            [SETTLE, 5, 0, 0],
            [COUNT, 0, 0, 0],
            [ORDER, 3, 7, 0],
            [PAIR, 0, 0, 0],
            [WRITE, 20, 7, 0],
            [EXPORT, 3, 7, 0],
            [PERLINK, 4, 7, 0],
        ]);
    }

    fn empty_layout(&mut self) {
        self.play(&[
            [EMPTY, 0, 0, 0],
            [LINK, 0, 1, 0],
            [UNLINK, 0, 0, 0],
            [MOVE, 0, 0, 0],
            [LAY, 0, 0, 0],
            [SIFT, 0, 0, 0],
            [ROUND, 0, 0, 0],
            [SETTLE, 1, 0, 0],
            [COUNT, 0, 0, 0],
            [ORDER, 0, 7, 0],
            [ORDER, 2, 256 + 7, 0],
            [PAIR, 0, 0, 0],
            [WRITE, 0, 7, 0],
            [WRITE, 9, 7, 0],
            [WRITE, 10, 7, 0],
            [WRITE, 12, 256 + 7, 0],
            [EXPORT, 0, 7, 0],
            [EXPORT, 1, 7, 0],
            [EXPORT, 2, 256 + 7, 0],
            [PERLINK, 0, 7, 0],
            [PERLINK, 1, 256 + 7, 0],
            [PERLINK, 2, (1 << 32) + 7, 0],
        ]);
    }

    /// Six vertices, linked, and shown in every way.
    fn six_vertices(&mut self) {
        self.play(&[[ADD, 0, 0, 0]; 6]);
        self.play(&[
            [LINK, 0, 2, 1],
            [LINK, 3, 1, 1],
            [LINK, 1, 3, 1],
            [LINK, 2, 2, 1],
            [LINK, 5, 6, 1],
            [LINK, 6, 5, 1],
            [LINK, 1, 4, 1],
            [LINK, 5, 2, 1],
            [COUNT, 0, 0, 0],
            [PAIR, 0, 0, 0],
            [WRITE, 23, 9, 0],
            [WRITE, 24, 9, 0],
            [WRITE, 25, 9, 0],
            [EXPORT, 3, 9, 0],
            [EXPORT, 4, 9, 0],
            [EXPORT, 5, 9, 0],
            [PERLINK, 0, 9, 0],
            [PERLINK, 3, u64::MAX, 0],
            [PERLINK, 4, 9, 0],
            [PERLINK, 5, u64::MAX, 0],
        ]);
    }

    /// The same, changed and sifted.
    fn six_vertices_changed(&mut self) {
        self.play(&[
            [UNLINK, 0, 1, 0],
            [UNLINK, 4, 4, 0],
            [UNLINK, 0, 6, 0],
            [UNLINK, 6, 6, 0],
            [UNLINK, 3, 1, 0],
            [UNLINK, 3, 1, 0],
            [MOVE, 0, 0, 0],
            [MOVE, 6, 1, 0],
            [MOVE, 1, 6, 0],
            [MOVE, 3, 0, 0],
            [MOVE, 5, 4, 0],
            [PERLINK, 4, 9, 0],
            [ORDER, 5, 9, 0],
            [ORDER, 6, 9, 0],
            [ORDER, 7, 9, 0],
            [ORDER, 255, 0, 0],
            [ORDER, 256, 1, 0],
            [SIFT, 0, 0, 0],
            [LINK, 3, 1, 1],
            [SETTLE, 0, 0, 0],
            [SETTLE, 1001, 0, 0],
            [SETTLE, 1 << 32, 0, 0],
            [ROUND, 0, 0, 0],
            [SETTLE, 1, 0, 0],
            [SETTLE, 1000, 0, 0],
            [LAY, 0, 0, 0],
        ]);
    }

    fn far_vertices(&mut self) {
        for far in FAR {
            self.play(&[
                [LINK, 0, far, 1],
                [UNLINK, far, 2, 0],
                [MOVE, 0, far, 0],
                [LAY, far, 0, 0],
                [SIFT, far, 0, 0],
                [ORDER, far, 0, 0],
            ]);
        }
    }

    /// Lays from every vertex of graphs in rising order: one vertex; the ring
    /// worked by hand in document 01, alone, with an isolated vertex behind it,
    /// and with one before and one behind it; two components with isolated
    /// vertices before, between and behind them; no edges; and a graph whose
    /// crossings rise.
    fn lays(&mut self) {
        for (n, edges) in [
            (1, vec![]),
            (4, vec![(0, 1), (0, 2), (1, 3), (2, 3)]),
            (5, vec![(0, 1), (0, 2), (1, 3), (2, 3)]),
            (6, vec![(1, 2), (1, 3), (2, 4), (3, 4)]),
            (9, vec![(1, 2), (1, 3), (2, 4), (3, 4), (6, 7)]),
            (3, vec![]),
            (
                5,
                vec![(0, 1), (0, 2), (0, 4), (1, 2), (1, 3), (2, 3), (3, 4)],
            ),
        ] {
            let order = vertices(n);
            for v in 0..=n as u64 {
                let (edges, order) = (edges.clone(), order.clone());
                self.play(&fields(&Graph::of(edges, order)));
                self.play(&[[LAY, v, 0, 0]]);
            }
        }
    }

    /// Graphs in rising order, each with a vertex sifted twice, with a round,
    /// and settled: no vertex, one and two; the first ring of document 01; the
    /// ring that it lays by hand, in which one place is best; and all edges of
    /// four vertices, and none of three, in which every place is.
    fn sifts(&mut self) {
        for (n, edges) in [
            (0, vec![]),
            (1, vec![]),
            (2, vec![(0, 1)]),
            (4, vec![(0, 2), (1, 3)]),
            (4, vec![(0, 1), (0, 2), (1, 3), (2, 3)]),
            (4, all_pairs(4)),
            (3, vec![]),
        ] {
            let order = vertices(n);
            let graph = fields(&Graph::of(edges, order));
            for calls in [
                &[[SIFT, 0, 0, 0]; 2][..],
                &[[ROUND, 0, 0, 0]],
                &[[SETTLE, 1, 0, 0]],
                &[[SETTLE, 2, 0, 0]],
            ] {
                self.play(&graph);
                self.play(calls);
            }
        }
    }

    /// Starts from the chart of a graph.
    fn read(&mut self, graph: &Graph) {
        self.bytes.extend(chart(&Chart::of(graph).bytes()));
    }

    /// Starts from a graph, by a chart, which is shorter, or by its fields.
    fn start(&mut self, graph: &Graph) {
        if self.known.has(CHART) {
            self.read(graph);
        } else {
            self.play(&fields(graph));
        }
    }

    /// 64 vertices against the sun, with all 2,016 edges.
    fn full_layout(&mut self) {
        self.start(&Graph::of(all_pairs(64), (0..64).rev().collect()));
        self.play(&[
            [SET_COUNT, 635_376, 0, 0],
            [COUNT, 0, 0, 0],
            [ADD, 0, 0, 0],
            [LINK, 0, 63, 1],
            [UNLINK, 0, 63, 0],
            [LINK, 63, 0, 1],
            [MOVE, 63, 0, 0],
            [LAY, 63, 0, 0],
            [ORDER, 63, 0, 0],
            [ORDER, 64, 0, 0],
            [ORDER, 65, 200, 0],
            [PAIR, 0, 0, 0],
            [WRITE, 18, 200, 0],
            [EXPORT, 339, 200, 0],
            [EXPORT, 340, 200, 0],
            [EXPORT, 341, 200, 0],
            [PERLINK, 2015, 0, 0],
            [PERLINK, 2016, 0, 0],
            [PERLINK, 2101, 1 << 32, 0],
        ]);
    }

    /// 64 vertices, all 2,016 edges of the largest weight.
    fn heaviest_layout(&mut self) {
        let graph = Graph::of(all_pairs(64), vertices(64));
        self.start(&graph.with_weights([255; 2016]));
        self.play(&[
            [SET_COUNT, 41_315_324_400, 0, 0],
            [COUNT, 0, 0, 0],
            [ADD, 0, 0, 0],
            [UNLINK, 0, 32, 0],
            [LINK, 0, 32, 255],
            [LAY, 0, 0, 0],
            [SIFT, 9, 0, 0],
            [PERLINK, 2015, 0, 0],
            [PERLINK, 2016, 0, 0],
            [WRITE, 18, 0, 0],
            [WRITE, 6125, 0, 0],
            [EXPORT, 0, 0, 0],
            [EXPORT, 340, 0, 0],
        ]);
    }

    /// All edges of four vertices with weights: laid from every vertex, and with
    /// every other call; and the first ring with one weight and with two.
    fn weighted_layouts(&mut self) {
        let four = Graph::of(all_pairs(4), vertices(4)).with_weights(WEIGHTS);
        for v in 0..4 {
            self.play(&fields(&four));
            self.play(&[[LAY, v, 0, 0]]);
        }
        for calls in [
            &[[SIFT, 0, 0, 0]; 2][..],
            &[[ROUND, 0, 0, 0]],
            &[[SETTLE, 1, 0, 0]],
            &[[SETTLE, 1000, 0, 0]],
        ] {
            self.play(&fields(&four));
            self.play(calls);
        }
        self.play(&fields(&four));
        self.play(&[
            [SET_COUNT, 6, 0, 0],
            [PERLINK, 5, 7, 0],
            [PERLINK, 6, 7, 0],
            [PAIR, 0, 0, 0],
            [WRITE, 34, 7, 0],
            [WRITE, 35, 7, 0],
            [WRITE, 36, 7, 0],
            [EXPORT, 0, 7, 0],
            [EXPORT, 2, 7, 0],
            [EXPORT, 9, 7, 0],
            [MOVE, 0, 2, 0],
            [ADD, 0, 0, 0],
            [UNLINK, 3, 1, 0],
        ]);
        for weights in [[1, 2], [255, 255]] {
            self.play(&fields(&square().with_weights(weights)));
            self.every_call();
        }
    }

    /// Links with weights, those of 0 refused, behind each other question; and a
    /// carried count that goes round at 2^64 by them.
    fn weighted_links(&mut self) {
        self.play(&fields(&Graph::of(vec![(0, 2)], vertices(5))));
        self.play(&[
            [LINK, 9, 9, 0],
            [LINK, 1, 1, 0],
            [LINK, 2, 0, 0],
            [LINK, 1, 3, 0],
            [LINK, 1, 3, 256],
            [LINK, 3, 1, 1 << 32],
            [LINK, 3, 1, 2],
            [LINK, 1, 3, 2],
            [LINK, 1, 4, 255],
            [LINK, 0, 3, 256 + 1],
            [LINK, 4, 2, (1 << 32) + 3],
            [LINK, 3, 4, u64::MAX],
            [WRITE, 39, 7, 0],
            [PERLINK, 6, 7, 0],
            [SETTLE, 1000, 0, 0],
            [UNLINK, 1, 3, 0],
            [LINK, 1, 3, 1],
            [UNLINK, 4, 3, 0],
            [UNLINK, 4, 1, 0],
            [UNLINK, 4, 2, 0],
            [EXPORT, 3, 7, 0],
            [LAY, 1, 0, 0],
        ]);
        self.play(&fields(&Graph::of(vec![(0, 2)], vertices(4))));
        self.play(&[
            [SET_COUNT, u64::MAX, 0, 0],
            [LINK, 1, 3, 255],
            [UNLINK, 1, 3, 0],
            [SET_COUNT, u64::from(u32::MAX), 0, 0],
            [LINK, 1, 3, 1],
            [COUNT, 0, 0, 0],
            [SIFT, 0, 0, 0],
        ]);
    }

    /// Each clause of validity broken by itself.
    fn invalid_layouts(&mut self) {
        self.play(&fields(&square()));
        self.play(&[[SET_N, 65, 0, 0]]);
        self.every_call();
        for broken in [
            [SET_N, u64::MAX, 0, 0],
            [SET_N, (1 << 32) + 4, 0, 0],
            [SET_N, 3, 0, 0],
            [SET_ORDER, 2, 4, 0],
            [SET_ORDER, 2, 3, 0],
            [SET_ORDER, 4, 1, 0],
            [SET_ORDER, 63, 255, 0],
            [SET_WORD, 0, 6, 0],
            [SET_WORD, 3, 2 + 8, 0],
            [SET_WORD, 1, 8 + 16, 0],
            [SET_WORD, 63, 1 << 63, 0],
        ] {
            self.play(&fields(&square()));
            self.play(&[broken, [COUNT, 0, 0, 0], [ADD, 0, 0, 0], [LINK, 9, 9, 0]]);
        }
        // An edge with a weight, both ways, where none can be.
        for [v, w] in [[1, 1], [0, 4], [62, 63]] {
            self.play(&fields(&square()));
            let word = |v: u64, w: u64| square().words()[v as usize] | 1 << w;
            self.play(&[[SET_WORD, v, word(v, w), 0], [SET_WORD, w, word(w, v), 0]]);
            self.play(&both_ways([v, w], 1));
            self.play(&[[COUNT, 0, 0, 0]]);
        }
        // None of these changes the layout in a way that counts.
        self.play(&fields(&square()));
        self.play(&[
            [SET_ORDER, 64, 1, 0],
            [SET_ORDER, u64::MAX, 1, 0],
            [SET_ORDER, 3, 256 + 3, 0],
            [SET_WORD, 64, 1, 0],
            [SET_WORD, 1 << 32, 1, 0],
        ]);
        self.every_call();
    }

    /// Weights that make a layout invalid: of an edge one way round, another or
    /// none; both ways round, none; without an edge, one way round and both; of
    /// a vertex towards itself; and in rows and columns at or above n.
    fn invalid_weights(&mut self) {
        let one_way = [
            [0, 2, 9],
            [2, 0, 9],
            [3, 1, 0],
            [0, 1, 1],
            [2, 2, 1],
            [4, 0, 1],
            [0, 4, 1],
            [63, 63, 255],
        ];
        for [v, w, weight] in one_way {
            self.play(&fields(&square()));
            self.play(&[[SET_WEIGHT, v, w, weight], [COUNT, 0, 0, 0]]);
        }
        for (ends, weight) in [([1, 3], 0), ([0, 1], 1), ([3, 4], 1), ([62, 63], 1)] {
            self.play(&fields(&square()));
            self.play(&both_ways(ends, weight));
            self.play(&[[COUNT, 0, 0, 0]]);
        }
        self.play(&fields(&square()));
        self.play(&[[SET_WEIGHT, 0, 2, 9]]);
        self.every_call();
        // These leave it valid: an edge's weight, set both ways round, a number
        // over 255, and what isn't there.
        self.play(&fields(&square()));
        self.play(&both_ways([2, 0], 256 + 9));
        self.play(&[
            [SET_WEIGHT, 0, 1, 256],
            [SET_WEIGHT, 64, 0, 1],
            [SET_WEIGHT, 0, 64, 1],
            [SET_WEIGHT, u64::MAX, 1 << 32, 1],
        ]);
        self.every_call();
    }

    /// The carried count isn't examined, and goes round at 2^64.
    fn any_count(&mut self) {
        self.play(&fields(&square()));
        self.play(&[
            [SET_COUNT, 0, 0, 0],
            [COUNT, 0, 0, 0],
            [UNLINK, 0, 2, 0],
            [LINK, 2, 0, 1],
            [SET_COUNT, (1 << 32) + u64::from(u32::MAX), 0, 0],
            [COUNT, 0, 0, 0],
            [SET_COUNT, u64::MAX, 0, 0],
            [COUNT, 0, 0, 0],
            [ADD, 0, 0, 0],
            [LINK, 1, 4, 1],
            [MOVE, 0, 1, 0],
        ]);
    }

    /// The first ring with another count than the true one, written, read back
    /// and written again; and the same with its graph6, in another order.
    fn read_back(&mut self) {
        self.play(&fields(&square()));
        self.play(&[[SET_COUNT, 7, 0, 0], [WRITE, 17, 0, 0], [WRITE, 18, 0, 0]]);
        if self.known.has(CHART) {
            self.read(&sorted_square());
        }
        self.play(&[[WRITE, 19, 255, 0], [MOVE, 0, 1, 0]]);
        self.play(&[[SET_COUNT, 7, 0, 0], [EXPORT, 1, 0, 0], [EXPORT, 2, 0, 0]]);
        if self.known.has(IMPORT) {
            self.bytes.extend(import(b"CQ"));
        }
        self.play(&[[EXPORT, 3, 255, 0]]);
    }

    /// A chart of each refusal number, and one that is read.
    fn charts(&mut self) {
        if !self.known.has(CHART) {
            return;
        }
        for number in CHART_REFUSALS {
            let special = SPECIALS.iter().find(|s| s.refusal == Some(number));
            let special = special.expect("a chart of each refusal number");
            let refused = (special.make)(&mut Rng::new(0, "stored", usize::from(number)));
            self.bytes.extend(chart(&refused));
            self.play(&[[COUNT, 0, 0, 0]]);
        }
        self.read(&square());
        self.every_call();
    }

    /// The first ring with each field of weights that is read, written again and
    /// read back; with each that is refused; and with fields elsewhere.
    fn weighted_charts(&mut self) {
        if !self.known.has(CHART) {
            return;
        }
        for weights in [[1, 1], [1, 2], [2, 1], [255, 255]] {
            self.read(&square().with_weights(weights));
            self.play(&[[WRITE, 23, 7, 0]]);
            match weights {
                [1, 1] => self.read(&sorted_square()),
                _ => self.read(&sorted_square().with_weights(weights)),
            }
            self.play(&[[WRITE, 23, 7, 0], [EXPORT, 2, 7, 0]]);
        }
        for weights in [&[][..], &[1]] {
            self.read(&Graph::of(vec![], vertices(2)).with_weights(weights));
        }
        self.refused_weights();
        let weights = field(0x57, &[1, 1]);
        for place in 0..=3 {
            let mut fields = Chart::of(&square()).fields();
            fields.insert(place, weights.clone());
            self.bytes.extend(chart(&fields.concat()));
            fields.push(weights.clone());
            self.bytes.extend(chart(&fields.concat()));
        }
    }

    /// The first ring with each field of weights that is refused, and with an
    /// order that is refused before it.
    fn refused_weights(&mut self) {
        for weights in [
            &[][..],
            &[1],
            &[0],
            &[1, 1, 1],
            &[0, 0, 0],
            &[0, 1],
            &[9, 0],
        ] {
            for order in [vertices(4), vec![0, 1, 2, 2]] {
                let square = Graph { order, ..square() };
                self.read(&square.with_weights(weights));
            }
        }
    }

    /// A graph6 of each refusal number, those that are accepted behind a layout
    /// that isn't valid and with every call behind them, and those of paths of 61
    /// vertices and more, exported in another order than they were imported.
    fn imports(&mut self) {
        if !self.known.has(IMPORT) {
            return;
        }
        for refused in [&BAD_SIZE[..], &BAD_DATA, &BAD_PADDING].concat() {
            self.bytes.extend(import(refused));
            self.play(&[[COUNT, 0, 0, 0]]);
        }
        for graph6 in ACCEPTED {
            self.play(&[[SET_N, 65, 0, 0]]);
            self.bytes.extend(import(graph6));
            self.play(&[[EXPORT, 3, 7, 0]]);
            self.every_call();
        }
        for n in 61..=64 {
            let (edges, order) = (all_pairs(n), vertices(n));
            let mut path = Graph::of(edges, order);
            path.edges.retain(|(a, b)| a + 1 == *b);
            let graph6 = Graph6::of(&path).bytes();
            self.bytes.extend(import(&graph6));
            let length = graph6.len() as u64;
            self.play(&[[MOVE, 0, 60, 0], [EXPORT, length, 7, 0]]);
        }
        self.bytes.extend(import(b"?"));
    }

    /// An unknown op, with a record behind it that isn't played.
    fn end(&mut self) {
        self.bytes.extend(bytes([31, 0, 0, 0]));
        self.bytes.extend(bytes([ADD, 0, 0, 0]));
    }
}

#[cfg(test)]
mod tests {
    use super::*;
    use crate::difference::first_difference;
    use crate::followed::{lent, steps, Step};
    use crate::label::Output;
    use crate::naive::play::play;
    use crate::written::is_read_back;

    #[test]
    fn every_call_and_each_of_its_refusals_occurs() {
        let known = Known::all();
        let lines = play(&list(&known));
        for (name, refusal) in known.answers() {
            let start = format!("{name} {refusal}");
            let met = |line: &str| line == start || line.starts_with(&(start.clone() + " "));
            assert!(lines.lines().any(met), "{start}");
        }
        assert!(lines.ends_with("end\n"));
    }

    #[test]
    fn what_is_written_is_read_back() {
        let list = list(&Known::all());
        let lines = play(&list);
        let steps: Vec<Step> = steps(&list, &lines).collect();
        let pairs = steps.windows(2);
        let back = pairs.filter(|pair| is_read_back(&pair[0], &pair[1]));
        let back: Vec<&str> = back.filter_map(|pair| Some(pair[1].answer()?.0)).collect();
        assert!(back.contains(&"chart") && back.contains(&"import"));
    }

    #[test]
    fn each_graph6_worked_by_hand_gets_its_number() {
        let lines = play(&list(&Known::all()));
        let imports = |refusal: u8| {
            let start = format!("import {refusal} ");
            lines
                .lines()
                .filter(|line| line.starts_with(&start))
                .count()
        };
        let refused = [20, 21, 22].map(imports);
        assert_eq!(imports(0), ACCEPTED.len() + 4 + 2);
        assert_eq!(refused, [BAD_SIZE.len(), BAD_DATA.len(), BAD_PADDING.len()]);
    }

    #[test]
    fn best_places_are_counted_and_refused_calls_have_none() {
        let lines = play(&list(&Known::all()));
        for due in [
            "sift 0 0 0 n 1 ",
            "sift 0 0 1 n 2 ",
            "sift 0 1 2 n 4 ",
            "sift 0 0 2 n 4 ",
            "sift 0 1 1 n 4 ",
            "sift 0 0 3 n 4 ",
            "sift 12 0 0 n 0 ",
            "sift 11 0 0 n 65 ",
            "round 0 0 0 0 n 0 ",
            "round 0 1 1 8 n 4 ",
            "round 0 0 0 12 n 4 ",
            "round 11 0 0 0 n 65 ",
            "settle 0 0 1 yes 0 n 0 ",
            "settle 0 1 1 no 8 n 4 ",
            "settle 0 1 2 yes 16 n 4 ",
            "settle 17 0 0 no 0 n 6 ",
            "settle 11 0 0 no 0 n 65 ",
        ] {
            assert!(lines.lines().any(|line| line.starts_with(due)), "{due}");
        }
    }

    #[test]
    fn crossings_are_counted_for_each_edge_and_refused_calls_have_none() {
        let lines = play(&list(&Known::all()));
        for due in [
            "perlink 0 0 table n 0 ",
            "perlink 0 0 table 263 n 0 ",
            "perlink 0 0 table 4294967303 4294967303 n 0 ",
            "perlink 23 0 table n 6 ",
            "perlink 23 0 table 18446744073709551615 18446744073709551615 ",
            "perlink 0 4 table 2 2 2 2 n 6 ",
            "perlink 0 4 table 2 2 2 2 18446744073709551615 n 6 ",
            "perlink 0 3 table 1 2 1 9 n 6 ",
            "perlink 11 0 table 7 7 7 7 n 65 ",
            "perlink 23 0 table 0 0 ",
        ] {
            assert!(lines.lines().any(|line| line.starts_with(due)), "{due}");
        }
        let full = lines.lines().filter(|l| l.starts_with("perlink 0 2016 "));
        let lengths: Vec<usize> = full.map(|line| lent(line).len()).collect();
        assert_eq!(lengths, [2016, 2100, 2016]);
    }

    #[test]
    fn weights_are_told_and_refused() {
        let lines = play(&list(&Known::all()));
        for due in [
            "lay 0 1 n 4 order 1 2 0 3 ",
            "sift 0 5 1 n 4 order 1 2 0 3 ",
            "round 0 5 1 4 n 4 ",
            "settle 0 5 2 yes 8 n 4 ",
            "perlink 0 6 table 0 6 0 0 6 0 n 4 ",
            "pair 0 pair 0 2 1 3 n 4 ",
            "write 19 0 buffer 7 7 ",
            "write 0 35 buffer 68 0 1 4 76 0 12 ",
            "write 0 6125 buffer 68 0 1 64 76 15 192 ",
            "export 26 0 buffer n 4 ",
            "export 26 0 buffer 7 7 n 4 ",
            "link 25 n 5 ",
            "lay 0 41315324400 n 64 ",
        ] {
            assert!(lines.lines().any(|line| line.starts_with(due)), "{due}");
        }
        let most = u64::MAX;
        for due in [
            "count 2 words 1 8 3 2 weights 1 3 2 3 1 2".to_string(),
            "count 254 words 1 8 3 2 weights 1 3 255 3 1 255".to_string(),
            format!("count {most} words 1 0 3 0 weights 1 3 0 3 1 0"),
        ] {
            assert!(lines.lines().any(|line| line.ends_with(&due)), "{due}");
        }
        let charts = |refusal: u8| {
            let start = format!("chart {refusal} ");
            lines
                .lines()
                .filter(|line| line.starts_with(&start))
                .count()
        };
        assert_eq!([8, 24, 25].map(charts), [1 + 7, 1 + 6, 1 + 2]);
    }

    /// What `tests/store` wrote, with the second program, for the player.
    #[test]
    fn the_naive_model_prints_what_is_stored() {
        let stored = |name: &str| {
            let crates = concat!(env!("CARGO_MANIFEST_DIR"), "/../../crates");
            std::fs::read(format!("{crates}/play_list/{name}")).expect("a stored file")
        };
        let calls = stored("stdin");
        assert!(calls == list(&Known::all()), "tests/store writes it anew");
        let due = play(&calls);
        let difference = first_difference(Output::Answers, due.as_bytes(), &stored("stdout"));
        assert_eq!(difference, None);
    }
}
