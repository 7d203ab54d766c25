//! Layouts that are written to buffers of many lengths, as charts and as graph6,
//! and read back, and the crossings of their edges in tables of many lengths.

use super::charts;
use super::density::possible;
use super::graph::Graph;
use super::graph6;
use super::maker::Maker;
use super::ops::*;
use super::weights;

/// Numbers of edges: none, those about which the length of their field gets its
/// high byte, and all of 64 vertices.
pub const EDGES: [usize; 4] = [0, 127, 128, 2016];

/// How many lengths there are, and how many of them are not long.
const LENGTHS: usize = 11;
const SHORT: usize = 8;

/// How much a call fills of what it is lent, for a layout of n vertices and m
/// edges, with weights other than 1 or without: bytes of a buffer, or entries of
/// a table.
pub fn filled_length(op: u64, n: usize, m: usize, weighted: bool) -> u64 {
    match op {
        EXPORT => graph6::length(n),
        PERLINK => m as u64,
        _ => charts::length(n, m, weighted),
    }
}

/// The most that a call is lent.
fn most_lent(op: u64) -> u64 {
    match op {
        PERLINK => 2100,
        _ => 8192,
    }
}

impl Maker {
    /// How much a call fills of what it is lent.
    pub fn filled_length(&self, op: u64) -> u64 {
        filled_length(op, self.n, self.edges.len(), self.is_weighted())
    }

    /// Lengths of what is lent: short ones and about as much as a call fills,
    /// then long ones, the last of them more than is lent.
    fn lengths(&mut self, op: u64) -> [u64; LENGTHS] {
        let (due, most) = (self.filled_length(op), most_lent(op));
        let more = due + self.rng.within(3, 200) as u64;
        let wide = 1 << 32;
        let over = [most + 1, 65_536 + due, wide, wide + due, u64::MAX];
        let over = self.rng.pick(&over);
        [
            0,
            1,
            due.saturating_sub(2),
            due.saturating_sub(1),
            due,
            due + 1,
            due + 2,
            more,
            most - 1,
            most,
            over,
        ]
    }

    /// A length of what is lent, seldom a long one.
    pub fn any_length(&mut self, op: u64) -> u64 {
        let (short, long) = (0..SHORT, SHORT..LENGTHS);
        let from = if self.rng.once_in(16) { long } else { short };
        let lengths = self.lengths(op);
        self.rng.pick(&lengths[from])
    }

    /// What each byte of a buffer, or each entry of a table, holds before a call.
    pub fn fill(&mut self, op: u64) -> u64 {
        let any = self.rng.below(300) as u64;
        let wide = 1 << 32;
        match op {
            PERLINK => {
                let word = self.rng.word();
                let wider = self.rng.pick(&[wide, wide + any, u64::MAX, word]);
                self.rng.pick(&[0, wide - 1, wider, any, any])
            }
            _ => self.rng.pick(&[0, 255, any, any]),
        }
    }

    /// Reads back what a call wrote into a buffer of so many bytes, if it was
    /// long enough and the layout is known. A table isn't read.
    pub fn read_back(&mut self, op: u64, length: u64) {
        let fits = |bytes: &Vec<u8>| bytes.len() as u64 <= length;
        for (writer, reader) in WRITERS {
            if writer != op || self.known.among(&[op, reader]).len() < 2 {
                continue;
            }
            if let Some(bytes) = self.written(op).filter(fits) {
                self.read(reader, &bytes);
            }
        }
    }

    /// Makes each call that is lent what it fills on a graph and on one whose
    /// number of edges takes its turn, each with a length that takes its turn and
    /// with one that is just enough. What is exported has no weights.
    pub fn call_lent_in_turn(&mut self, graph: &Graph, index: usize) {
        for op in self.known.among(&LENT) {
            let other = self.graph_in_turn(index);
            for graph in [graph, &other] {
                match op {
                    EXPORT => self.write_graph(&graph.unweighted()),
                    _ => self.write_graph(graph),
                }
                let lengths = self.lengths(op);
                self.call_lent(op, lengths[index % LENGTHS]);
                self.call_lent(op, self.filled_length(op));
            }
        }
    }

    /// Writes a graph's chart, and that of the same graph with its edges listed
    /// otherwise, and weights of 1 for none or none for those.
    pub fn write_alike(&mut self, graph: &Graph) {
        if self.known.among(&[CHART, WRITE]).len() < 2 {
            return;
        }
        let other = graph.listed_otherwise(&mut self.rng);
        for graph in [graph, &other] {
            self.write_chart(graph);
            self.emit(WRITE, self.filled_length(WRITE), 0);
        }
    }

    /// A graph whose number of edges takes its turn, and with each of these
    /// numbers the kind of weights.
    fn graph_in_turn(&mut self, index: usize) -> Graph {
        let m = EDGES[index % EDGES.len()];
        let fewest = (0..64).find(|&n| possible(n) >= m).unwrap_or(64);
        let n = self.rng.within(fewest, 64);
        let mut graph = Graph::with_edges(&mut self.rng, n, m);
        weights::in_turn(&mut self.rng, &mut graph, index / EDGES.len());
        graph
    }

    /// Makes a call, now and then on another count than the true one, that is
    /// lent so much, and reads back what it wrote.
    fn call_lent(&mut self, op: u64, length: u64) {
        self.any_count();
        let fill = self.fill(op);
        self.emit(op, length, fill);
        self.read_back(op, length);
    }
}

#[cfg(test)]
mod tests {
    use super::*;
    use crate::entries::{entries, Entry};
    use crate::followed::{lent, steps, Step};
    use crate::make::lists;
    use crate::make::weights::WITHOUT;
    use crate::naive::play::play;
    use crate::rng::Rng;
    use crate::written::is_read_back;
    use std::collections::BTreeSet;

    /// What takes its turn, each length with each number of edges.
    fn in_turn(names: &str) -> Vec<Vec<u8>> {
        let known = Known::parse(names).expect("known names");
        let indices = 0..LENGTHS * EDGES.len();
        let lists = indices.map(|index| {
            let mut maker = Maker::new(Rng::new(1, "written", index), &known);
            let graph = Graph::in_quarter(&mut maker.rng, index, index % 4);
            maker.call_lent_in_turn(&graph, index);
            maker.bytes
        });
        lists.collect()
    }

    /// The calls that write and that read back, by their names.
    const BOTH: [&str; 2] = ["chart,write", "graph6"];

    #[test]
    fn each_length_goes_with_each_number_of_edges() {
        let wide = 1 << 32;
        for (names, op, due) in [
            (BOTH[0], WRITE, &[0, 255][..]),
            (BOTH[1], EXPORT, &[0, 255]),
            ("perlink", PERLINK, &[0, wide - 1, wide, u64::MAX]),
        ] {
            let fills = each_length_goes_with_each_number_of_edges_of(names, op);
            assert!(due.iter().all(|fill| fills.contains(fill)) && fills.len() > 20);
        }
    }

    /// Gives what is held before the calls. Without edges no table is too short.
    fn each_length_goes_with_each_number_of_edges_of(names: &str, op: u64) -> BTreeSet<u64> {
        let (mut rooms, mut lents, mut fills) = (BTreeSet::new(), BTreeSet::new(), BTreeSet::new());
        for list in in_turn(names) {
            for step in steps(&list, &play(&list)) {
                let Entry::Record([called, length, fill, _]) = step.entry else {
                    continue;
                };
                if called == op {
                    let due = filled_length(op, step.n(), step.m(), step.is_weighted());
                    rooms.insert((step.m(), length.wrapping_sub(due) as i64));
                    lents.insert((step.m(), lent(step.line).len() as u64));
                    fills.insert(fill);
                }
            }
        }
        for m in EDGES {
            let least = if (op, m) == (PERLINK, 0) { 0 } else { -1 };
            assert!(
                (least..=2).all(|room| rooms.contains(&(m, room))),
                "{m} edges"
            );
            let lengths = [0, 1, most_lent(op) - 1, most_lent(op)];
            assert!(lengths.iter().all(|&length| lents.contains(&(m, length))));
        }
        assert!(rooms.iter().any(|&(_, room)| room == -2));
        fills
    }

    /// The turn of the kind "all 2".
    const TWOS: usize = 7;

    /// The kinds of weights that are told of a graph of this kind, written in some
    /// way.
    fn kinds(names: &str, write: fn(&mut Maker, &Graph)) -> Vec<&'static str> {
        let known = Known::parse(names).expect("known names");
        let mut maker = Maker::new(Rng::new(1, "kinds", 0), &known);
        let mut graph = Graph::in_quarter(&mut maker.rng, 9, 1);
        weights::in_turn(&mut maker.rng, &mut graph, TWOS);
        write(&mut maker, &graph);
        maker.weights
    }

    /// In its turn the graph stands beside one with each number of edges; that
    /// without any has no kind.
    #[test]
    fn a_kind_of_weights_is_told_where_it_is_written() {
        let kind = ["all 2"];
        assert_eq!(kinds("all", Maker::write_chart), kind);
        assert_eq!(kinds("all", Maker::write_fields), kind);
        assert_eq!(kinds("all", Maker::write_graph6), [WITHOUT]);
        let lent: fn(&mut Maker, &Graph) = |maker, graph| {
            for place in 0..EDGES.len() {
                maker.call_lent_in_turn(graph, TWOS * EDGES.len() + place);
            }
        };
        assert_eq!(kinds("write", lent), ["all 2"; 7]);
        assert_eq!(kinds("export", lent), [WITHOUT; 8]);
        let alike = kinds("chart,write", |maker, graph| maker.write_alike(graph));
        assert_eq!(alike, kind);
    }

    /// How often something was written in a list, and how often it was read
    /// back.
    fn written(list: &[u8]) -> (usize, usize) {
        let lines = play(list);
        let steps: Vec<Step> = steps(list, &lines).collect();
        let accepted = steps
            .iter()
            .filter(|s| matches!(s.answer(), Some(("write" | "export", 0))));
        let pairs = steps.windows(2);
        let back = pairs.filter(|pair| is_read_back(&pair[0], &pair[1]));
        (accepted.count(), back.count())
    }

    #[test]
    fn what_is_written_in_turn_is_always_read_back() {
        for list in BOTH.map(in_turn).concat() {
            let (accepted, back) = written(&list);
            assert!(accepted >= 2);
            assert_eq!(accepted, back);
        }
    }

    #[test]
    fn what_is_written_anywhere_is_often_read_back() {
        let known = Known::all();
        let made = (0..25).map(|index| lists::list(1, index, &known));
        let made = made.filter(|made| made.naive);
        let (mut accepted, mut back) = (0, 0);
        for (written, read) in made.map(|made| written(&made.bytes)) {
            assert!(read >= 4);
            accepted += written;
            back += read;
        }
        assert!(2 * back > accepted, "{back} of {accepted}");
        assert!(back < accepted, "{back} of {accepted}");
    }

    /// Whether some entry stands in lists of some calls.
    fn occurs(names: &str, wanted: fn(&Entry) -> bool) -> bool {
        let known = Known::parse(names).expect("known names");
        let mut lists = (0..30).map(|index| lists::list(1, index, &known).bytes);
        lists.any(|list| entries(&list).iter().any(wanted))
    }

    #[test]
    fn nothing_is_written_or_read_back_by_calls_that_are_not_known() {
        let reads = |entry: &Entry| matches!(entry, Entry::Chart(_) | Entry::Import(_));
        let is_lent = |entry: &Entry| matches!(entry, Entry::Record([op, ..]) if LENT.contains(op));
        for names in ["write", "export", "perlink"] {
            assert!(occurs(names, is_lent) && !occurs(names, reads));
        }
        for names in ["chart,count", "import,count"] {
            assert!(occurs(names, reads) && !occurs(names, is_lent));
        }
    }
}
