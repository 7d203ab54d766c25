//! Lists of calls, of several kinds.

use std::collections::BTreeSet;

use super::charts;
use super::density::{LARGE, QUARTERS};
use super::families::{self, Family};
use super::graph::{all_pairs, vertices, Graph};
use super::maker::Maker;
use super::ops::*;
use super::starts::{self, FAMILY};
use super::weights::HEAVIEST;
use crate::rng::Rng;

/// A kind of list: its name, an op that it cannot do without, and what it puts
/// into the list with some number.
type Kind = (&'static str, u64, fn(&mut Maker, usize));

/// The kinds, those oftener that are to come oftener.
const KINDS: [Kind; 7] = [
    SEVERAL_STARTS,
    SEVERAL_STARTS,
    SEVERAL_STARTS,
    ("several hundred calls", EMPTY, Maker::several_hundred_calls),
    ("lay from every vertex", LAY, Maker::lay_from_every_vertex),
    ("lay, then sifting", LAY, Maker::lay_then_sifting),
    ("large graphs", EMPTY, Maker::large_graphs),
];

const SEVERAL_STARTS: Kind = ("several starts", EMPTY, Maker::several_starts);

/// A list, and what it is made of.
pub struct Made {
    pub bytes: Vec<u8>,
    pub kind: &'static str,
    /// The kinds of its starts.
    pub starts: Vec<&'static str>,
    /// The families of its graphs.
    pub graphs: Vec<&'static str>,
    /// The kinds of its graphs' weights.
    pub weights: Vec<&'static str>,
    /// Whether the naive model can play it in bearable time.
    pub naive: bool,
}

/// The list with some number, of known calls.
pub fn list(seed: u64, index: usize, known: &Known) -> Made {
    let mut rng = Rng::new(seed, "list", index);
    let (kind, _, make) = rng.pick(&open(known));
    let mut maker = Maker::new(rng, known);
    make(&mut maker, index);
    maker.in_turn(seed, index);
    maker.end();
    Made {
        naive: maker.is_naive(),
        bytes: maker.bytes,
        kind,
        starts: maker.starts,
        graphs: maker.graphs,
        weights: maker.weights,
    }
}

/// The kinds of list that are open to known calls.
fn open(known: &Known) -> Vec<Kind> {
    let mut kinds = KINDS.to_vec();
    kinds.retain(|&(_, op, _)| known.has(op));
    kinds
}

/// The names of the kinds that are open to known calls.
pub fn kinds(known: &Known) -> BTreeSet<&'static str> {
    open(known).into_iter().map(|(name, _, _)| name).collect()
}

impl Maker {
    /// The first start takes its turn; a graph of a family is always among the
    /// starts.
    fn several_starts(&mut self, index: usize) {
        let target = self.rng.within(20, 60);
        let starts = starts::open(&self.known);
        self.start(starts[index % starts.len()]);
        self.start(FAMILY);
        while self.calls < target {
            let any = self.rng.pick(&starts);
            self.start(any);
        }
    }

    /// Behind one start, so that each goes on from what the others left.
    fn several_hundred_calls(&mut self, _: usize) {
        if self.rng.once_in(2) {
            self.write_empty();
        } else {
            self.start_family(families::all(), 12);
        }
        self.any_calls(200, 400);
    }

    /// Graphs with many ties, and one with isolated vertices.
    fn lay_from_every_vertex(&mut self, _: usize) {
        for _ in 0..self.rng.within(1, 3) {
            self.lay_family(families::with_ties());
        }
        self.lay_family(families::with_isolated());
    }

    /// Lays a graph of one of some families from each vertex, and from one that
    /// isn't there.
    fn lay_family(&mut self, families: &[Family]) {
        let most = if self.rng.once_in(8) { 64 } else { 16 };
        self.start_family(families, most);
        let mut vertices: Vec<u64> = (0..=self.n as u64).collect();
        if self.rng.once_in(2) {
            self.rng.shuffle(&mut vertices);
        }
        for v in vertices {
            self.emit(LAY, v, 0);
        }
    }

    /// Lays graphs from several vertices, with sifting behind each lay and now
    /// and then an edit.
    fn lay_then_sifting(&mut self, _: usize) {
        for _ in 0..3 {
            self.start_family(families::all(), 20);
            for _ in 0..self.rng.within(4, 10) {
                self.call(LAY);
                self.some_calls(&[SIFT, SIFT, ROUND, SETTLE]);
                let edit = self.rng.pick(&[ADD, LINK, UNLINK, MOVE]);
                self.some_calls(&[edit, COUNT, PAIR, WRITE, EXPORT, PERLINK]);
            }
        }
    }

    /// A large graph in each quarter of all edges, and one of a family, with
    /// every call behind each, and a round behind one that is settled. Most are
    /// too dear for the naive model.
    fn large_graphs(&mut self, index: usize) {
        for quarter in 0..QUARTERS {
            let n = self.large_size();
            let graph = Graph::in_quarter(&mut self.rng, n, quarter);
            self.large_graph(graph);
            if quarter == index % QUARTERS {
                self.emit(SETTLE, 1000, 0);
                self.emit(ROUND, 0, 0);
            }
        }
        let n = self.large_size();
        let family = self.rng.pick(&families::of_size(n));
        self.graphs.push(family.name);
        let graph = family.graph_of_size(&mut self.rng, n);
        self.large_graph(graph);
        self.heavy_cliques();
    }

    /// Two complete graphs of 32 vertices with the largest weights, whose vertices
    /// stand in turn. What settling saves is more than 32 bits can tell, and so
    /// is the tally of a lay.
    fn heavy_cliques(&mut self) {
        let mut edges = all_pairs(64);
        edges.retain(|(a, b)| a % 2 == b % 2);
        let weights = vec![255; edges.len()];
        let graph = Graph {
            kind: Some(HEAVIEST),
            ..Graph::of(edges, vertices(64)).with_weights(weights)
        };
        self.write_graph(&graph);
        self.emit(SETTLE, 1000, 0);
        self.emit(LAY, 0, 0);
    }

    /// Any large number of vertices, the most too.
    fn large_size(&mut self) -> usize {
        let any = self.rng.within(LARGE, 64);
        self.rng.pick(&[any, any, any, 63, 64])
    }

    fn large_graph(&mut self, mut graph: Graph) {
        self.without_naive();
        self.weigh(&mut graph);
        self.write_graph(&graph);
        self.sift_twice();
        self.every_call();
        self.any_calls(2, 10);
    }

    /// Sifts a vertex, and again where that has left it.
    fn sift_twice(&mut self) {
        let v = self.rng.below(self.n.max(1)) as u64;
        for _ in 0..2 {
            self.emit(SIFT, v, 0);
        }
    }

    /// About half of these calls, in their sequence, if the budget allows them.
    pub fn some_calls(&mut self, ops: &[u64]) {
        for &op in ops {
            if self.rng.once_in(2) && self.allows(op) {
                self.call(op);
            }
        }
    }

    /// What takes its turn from list to list: each size with some density, a
    /// vertex of which is sifted twice, each length of a buffer or a table, each
    /// number of edges that is written, each family, each way to spoil a layout,
    /// each refusal number of each call, and each special chart and graph6.
    fn in_turn(&mut self, seed: u64, index: usize) {
        let n = ((seed % 65) as usize + 7 * index) % 65;
        let mut graph = Graph::in_quarter(&mut self.rng, n, index % QUARTERS);
        self.weigh(&mut graph);
        self.write_graph(&graph);
        self.sift_twice();
        self.any_calls(2, 5);
        self.emit(ORDER, index as u64 % 66, 7);
        self.write_alike(&graph);
        self.call_lent_in_turn(&graph, index);
        self.import_in_turn(&graph, index);
        self.lay_in_turn(index);
        self.spoilt_in_turn(index);
        let refused = self.known.refused();
        let (_, op, number) = refused[index % refused.len()];
        self.refused_call(op, number);
        if self.known.has(CHART) {
            let chart = (charts::special(index).make)(&mut self.rng);
            self.read(CHART, &chart);
            self.forget();
            self.emit(COUNT, 0, 0);
        }
    }

    /// Lays a graph of the family whose turn it is from any vertex, and from an
    /// isolated one, if there is one.
    fn lay_in_turn(&mut self, index: usize) {
        let families = families::all();
        self.start_family(&[families[index % families.len()]], 64);
        self.call(LAY);
        let isolated = self.isolated();
        if !isolated.is_empty() {
            let start = self.rng.pick(&isolated);
            self.emit(LAY, start, 0);
        }
    }

    /// Now and then an end before the end, with what must not be played.
    fn end(&mut self) {
        match self.rng.below(8) {
            0 => {
                let ops = [7, 15, 31, 255, 256 + ADD, (1 << 32) + COUNT, u64::MAX];
                let op = self.rng.pick(&ops);
                self.record([op, 0, 0, 0]);
                self.record([ADD, 0, 0, 0]);
            }
            1 => {
                self.record([COUNT, 0, 0, 0]);
                let cut = self.rng.within(1, 31);
                self.bytes.truncate(self.bytes.len() - cut);
            }
            2 => {
                let length = self.rng.pick(&[33, 8194, 1 << 32, u64::MAX]);
                let op = self.rng.pick(&READERS);
                self.record([op, length, 0, 0]);
                self.record([ADD, 0, 0, 0]);
            }
            3 => {
                let op = self.rng.pick(&READERS);
                self.read(op, b"@");
                let cut = self.rng.within(1, 31);
                self.bytes.truncate(self.bytes.len() - cut);
            }
            _ => {}
        }
    }
}

#[cfg(test)]
mod tests {
    use super::*;
    use crate::counted::true_count;
    use crate::entries::{entries, Entry};
    use crate::followed::{steps, Step};
    use crate::make::density::{possible, quarter};
    use crate::make::records;
    use crate::naive::chart::{read, written};
    use crate::naive::graph6::import;
    use crate::naive::layout::{empty, isolated};
    use crate::naive::play::play;
    use crate::written::is_read_back;

    /// Some lists of a kind.
    fn lists(kind: &str) -> Vec<Made> {
        let made = (0..200).map(|index| list(1, index, &Known::all()));
        let lists: Vec<Made> = made.filter(|made| made.kind == kind).take(20).collect();
        assert_eq!(lists.len(), 20, "{kind}");
        lists
    }

    /// The answer lines of some lists of a kind.
    fn lines(kind: &str) -> Vec<String> {
        let lists = lists(kind);
        lists.iter().map(|made| play(&made.bytes)).collect()
    }

    fn is_start(line: &str) -> bool {
        ["empty ", "chart ", "import "]
            .iter()
            .any(|start| line.starts_with(start))
    }

    /// What is read back behind its write is no new start.
    #[test]
    fn several_hundred_calls_stand_behind_one_start() {
        for made in lists("several hundred calls") {
            let lines = play(&made.bytes);
            let steps: Vec<Step> = steps(&made.bytes, &lines).collect();
            let goes_on =
                |pair: &&[Step]| !is_start(pair[1].line) || is_read_back(&pair[0], &pair[1]);
            assert!(steps.windows(2).take_while(goes_on).count() >= 200);
        }
    }

    /// The last graph of a list is the one of the family whose turn it is.
    #[test]
    fn graphs_with_ties_and_isolated_vertices_are_laid_from_every_vertex() {
        for made in lists("lay from every vertex") {
            let lines = play(&made.bytes);
            let lines: Vec<&str> = lines.lines().collect();
            let starts = lines.split(|line| is_start(line)).skip(1);
            let laid = &made.graphs[..made.graphs.len() - 1];
            let mut isolated = families::with_isolated().iter();
            assert!(isolated.any(|family| laid.last() == Some(&family.name)));
            for behind in starts.take(laid.len()) {
                let lays = |start: &str| behind.iter().filter(|l| l.starts_with(start)).count();
                let n = behind[0].split(" n ").nth(1).expect("a line has n");
                let n = n.split(' ').next().expect("a number");
                assert_eq!(lays("lay 0 ").to_string(), n);
                assert_eq!(lays("lay 12 "), 1);
            }
        }
    }

    #[test]
    fn every_family_is_laid_in_its_turn_from_an_isolated_vertex_if_there_is_one() {
        for (index, family) in families::all().iter().enumerate() {
            let mut maker = Maker::new(Rng::new(1, "turn", index), &Known::all());
            maker.lay_in_turn(index);
            assert_eq!(maker.graphs, [family.name]);
            let lines = play(&maker.bytes);
            let step = steps(&maker.bytes, &lines).last().expect("a lay");
            let Entry::Record([LAY, start, ..]) = step.entry else {
                panic!("{}", step.line);
            };
            let isolated = isolated(&step.before);
            assert!(isolated.is_empty() || isolated.contains(&(start as usize)));
        }
    }

    #[test]
    fn every_family_is_imported_now_and_then() {
        for (index, family) in families::all().iter().enumerate() {
            let is_import = |seed| {
                let mut maker = Maker::new(Rng::new(seed, "import", index), &Known::all());
                maker.lay_in_turn(index);
                matches!(entries(&maker.bytes)[0], Entry::Import(_))
            };
            let imports = (0..30).filter(|&seed| is_import(seed)).count();
            assert!((1..30).contains(&imports), "{}", family.name);
        }
    }

    #[test]
    fn each_call_that_sifts_stands_behind_some_lay() {
        let lines = lines("lay, then sifting").concat();
        let lines: Vec<&str> = lines.lines().collect();
        for call in ["sift 0 ", "round 0 ", "settle 0 "] {
            let is_behind =
                |pair: &[&str]| pair[0].starts_with("lay 0 ") && pair[1].starts_with(call);
            assert!(lines.windows(2).any(is_behind), "{call}");
        }
    }

    /// The numbers of vertices and edges of the layouts that calls start from,
    /// those left out that are read back.
    fn starts(list: &[u8]) -> Vec<(usize, usize)> {
        let mut starts = Vec::new();
        let (mut ring, mut started) = (empty(), false);
        let mut wrote = false;
        for entry in entries(list) {
            let read_back = wrote && is_written(&entry);
            wrote = matches!(entry, Entry::Record([WRITE | EXPORT, ..]));
            match entry {
                _ if read_back => {}
                Entry::Chart(chart) => (ring, started) = (read(chart).1, true),
                Entry::Import(graph6) => (ring, started) = (import(graph6).1, true),
                Entry::Record([EMPTY, ..]) => (ring, started) = (empty(), true),
                Entry::Record([SET_N, n, ..]) => ring.n = n,
                Entry::Record([SET_WORD, v @ ..64, word, _]) => ring.words[v as usize] = word,
                Entry::Record([op, ..]) if op >= ADD && started => {
                    let ends: u32 = ring.words.iter().map(|word| word.count_ones()).sum();
                    starts.push((ring.n as usize, ends as usize / 2));
                    started = false;
                }
                _ => {}
            }
        }
        starts
    }

    /// Whether a chart or a graph6 is as it would be written.
    fn is_written(entry: &Entry) -> bool {
        match entry {
            Entry::Chart(chart) => written(&read(chart).1) == *chart,
            Entry::Import(graph6) => import(graph6).0 == 0,
            _ => false,
        }
    }

    #[test]
    fn large_graphs_have_every_density() {
        let lists = lists("large graphs");
        assert!(lists.iter().any(|made| !made.naive));
        for made in lists {
            let starts = starts(&made.bytes);
            for (wanted, &(n, m)) in starts[..QUARTERS].iter().enumerate() {
                assert!((LARGE..=64).contains(&n));
                assert_eq!(quarter(n, m), wanted);
            }
        }
    }

    #[test]
    fn a_large_graph_is_sifted_again_when_it_is_settled() {
        for made in lists("large graphs") {
            let texts: Vec<String> = entries(&made.bytes).iter().map(Entry::text).collect();
            let again = ["settle with limit 1000", "round"];
            assert!(texts.windows(2).any(|two| two == again));
        }
    }

    /// How often a vertex is sifted twice in a row.
    fn sifted_twice(list: &[u8]) -> usize {
        let entries = entries(list);
        let sifts = |entry: &Entry| matches!(entry, Entry::Record([SIFT, ..]));
        let pairs = entries.windows(2);
        let again = pairs.filter(|pair| sifts(&pair[0]) && pair[0] == pair[1]);
        again.count()
    }

    #[test]
    fn a_vertex_is_sifted_twice_in_every_list_and_of_each_large_graph() {
        for index in 0..65 {
            let made = list(9, index, &Known::all());
            assert!(sifted_twice(&made.bytes) >= 1);
        }
        for made in lists("large graphs") {
            assert!(sifted_twice(&made.bytes) >= QUARTERS + 2);
        }
    }

    #[test]
    fn a_vertex_that_is_sifted_twice_is_there() {
        for n in [0, 1, 2, 3, 20] {
            let mut maker = Maker::new(Rng::new(1, "twice", n), &Known::all());
            let graph = Graph::in_quarter(&mut maker.rng, n, 0);
            maker.write_chart(&graph);
            maker.sift_twice();
            let lines = play(&maker.bytes);
            let sifted = steps(&maker.bytes, &lines).skip(1);
            let refusals: Vec<u8> = sifted
                .map(|step| step.answer().expect("a sift").1)
                .collect();
            assert_eq!(refusals, [if n == 0 { 12 } else { 0 }; 2]);
        }
    }

    #[test]
    fn every_size_takes_its_turn() {
        let made = (0..65).map(|index| list(9, index, &Known::all()));
        let starts = made.map(|made| starts(&made.bytes));
        let sizes: BTreeSet<usize> = starts.flatten().map(|(n, _)| n).collect();
        assert!((0..=64).all(|n| sizes.contains(&n)), "{sizes:?}");
    }

    /// How many valid layouts with edges calls are made on, and how many of them
    /// have weights other than 1.
    fn weighted(list: &[u8]) -> (usize, usize) {
        let lines = play(list);
        let has_edges = |step: &Step| step.m() > 0 && step.answer().is_some_and(|a| a.1 != 11);
        let steps: Vec<Step> = steps(list, &lines).filter(has_edges).collect();
        let weighted = steps.iter().filter(|step| step.is_weighted());
        (steps.len(), weighted.count())
    }

    /// One list in three has no weights but in what takes its turn.
    #[test]
    fn lists_have_weights_and_have_none() {
        let made = (0..60).map(|index| list(2, index, &Known::all()));
        let naive = made.filter(|made| made.naive);
        let shares: Vec<(usize, usize)> = naive.map(|made| weighted(&made.bytes)).collect();
        let few = shares.iter().filter(|(all, some)| 4 * some < *all).count();
        let many = shares.iter().filter(|(all, some)| 2 * some > *all).count();
        assert!(4 * few > shares.len(), "{few} of {}", shares.len());
        assert!(4 * many > shares.len(), "{many} of {}", shares.len());
    }

    /// Two complete graphs of 32 vertices cross least when they stand apart. What
    /// is left then, and what is saved, 32 bits can't tell.
    #[test]
    fn heavy_cliques_need_wide_numbers() {
        let mut maker = Maker::new(Rng::new(1, "cliques", 0), &Known::all());
        maker.heavy_cliques();
        let calls = ["settle with limit 1000", "lay from 0"].map(String::from);
        let texts: Vec<String> = entries(&maker.bytes).iter().map(Entry::text).collect();
        assert!(texts.ends_with(&calls));
        let started = &maker.bytes[..maker.bytes.len() - 64];
        let count = [started, &records::bytes([COUNT, 0, 0, 0])].concat();
        let lines = play(&count);
        let step = steps(&count, &lines).last().expect("a count");
        assert_eq!((step.n(), step.m()), (64, 2 * possible(32)));
        let (in_turn, apart) = (true_count(&step.after), 65_025 * 2 * 35_960);
        assert!(apart >= 1 << 32 && in_turn >= apart + (1 << 32));
    }

    #[test]
    fn kinds_without_their_call_are_not_made() {
        let known = Known::parse("layout,sifting").expect("known names");
        let kinds = kinds(&known);
        let due = ["large graphs", "several hundred calls", "several starts"];
        assert!(kinds.iter().eq(&due), "{kinds:?}");
        for index in 0..50 {
            let made = list(1, index, &known);
            assert!(kinds.contains(made.kind));
            let lays = |entry: &Entry| entry.text().starts_with("lay");
            assert!(!entries(&made.bytes).iter().any(lays));
        }
    }
}
