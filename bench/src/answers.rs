//! All calls on many layouts, valid and not, accepted and refused: every side's
//! answer is compared, whole, with that of the second program. Only the optima are
//! not among the baseline's answers.

use std::fmt::{Debug, Display};

use baseline::WithoutOptima;
use layouts::{chart, fan, graph6, most_edges, pairs, Random, Weights};
use rostulanda::ffi::{Written, ANSWER_NUMBERS, CALL_NUMBERS};
use rostulanda::{Fields, Start, MOST_EDGES};
use second::calls::{self, Answer};
use second::layout::Layout;

use crate::agreement::{agree, Outcome};
use crate::proved::{self, fields, Left, Told};
use crate::{expected, lists};

/// Compares all answers, and prints how many agree.
pub fn print() -> Outcome {
    let mut comparison = Comparison {
        random: Random(2004),
        answers: 0,
    };
    comparison.empty()?;
    comparison.all_sizes()?;
    comparison.no_crossing()?;
    comparison.lists()?;
    comparison.charts()?;
    comparison.graph6s()?;
    comparison.listings()?;
    println!("bench: {} answers agree", comparison.answers);
    Ok(())
}

/// Up to so many vertices, a layout is settled with any limit.
const SMALL: u64 = 20;

/// A buffer that is much longer than any chart.
const LONG: usize = 70_000;

/// Lists of calls, and calls in each.
const LISTS: u64 = 10;
const LENGTH: usize = 100;

/// Charts and graph6 with changed bytes, and how many charts are listed into each
/// buffer.
const CHARTS: usize = 2000;
const GRAPH6S: usize = 2000;
const LISTINGS: usize = 20;

/// A call that writes a layout, and what reads it back into another one, on both
/// sides.
struct Writing {
    name: &'static str,
    proved: fn(&Fields, &mut [u8]) -> Left<Written>,
    second: fn(Layout, &mut [u8]) -> Answer<usize>,
    proved_back: fn(&Fields, &mut [u8], &Fields) -> Left<u8>,
    second_back: fn(Layout, &mut [u8], Layout) -> Answer<()>,
}

const WRITE: Writing = Writing {
    name: "write",
    proved: proved::write_chart,
    second: calls::write_chart,
    proved_back: proved::write_and_read,
    second_back: expected::write_and_read,
};

const EXPORT: Writing = Writing {
    name: "export",
    proved: proved::export_graph6,
    second: calls::write_graph6,
    proved_back: proved::export_and_import,
    second_back: expected::export_and_import,
};

struct Comparison {
    random: Random,
    /// So many agree.
    answers: usize,
}

impl Comparison {
    fn proved<A: PartialEq + Debug>(
        &mut self,
        call: impl Display,
        proved: A,
        second: A,
    ) -> Outcome {
        self.answers += 1;
        agree(call, "proved", &proved, &second)
    }

    /// An answer of all three sides.
    fn all<T: WithoutOptima>(
        &mut self,
        call: impl Display,
        proved: Answer<T>,
        baseline: Answer<T::Rest>,
        second: Answer<T>,
    ) -> Outcome {
        self.answers += 2;
        agree(&call, "proved", &proved, &second)?;
        agree(&call, "baseline", &baseline, &second.without_optima())
    }

    /// An answer, and a lent buffer of so many elements, which held something else.
    fn with_buffer<T, A>(
        &mut self,
        call: impl Display,
        length: usize,
        proved: impl FnOnce(&mut [T]) -> A,
        second: impl FnOnce(&mut [T]) -> A,
    ) -> Outcome
    where
        T: Clone + PartialEq + Debug + From<u8>,
        A: PartialEq + Debug,
    {
        self.with_lent(call, vec![T::from(0xA5); length], proved, second)
    }

    /// An answer, and a lent buffer or table, which held this.
    fn with_lent<T, A>(
        &mut self,
        call: impl Display,
        held: Vec<T>,
        proved: impl FnOnce(&mut [T]) -> A,
        second: impl FnOnce(&mut [T]) -> A,
    ) -> Outcome
    where
        T: Clone + PartialEq + Debug,
        A: PartialEq + Debug,
    {
        let call = format!("{call}, a buffer of {}", held.len());
        let (mut buffer, mut other) = (held.clone(), held);
        let answers = (proved(&mut buffer), second(&mut other));
        self.proved(call, (answers.0, buffer), (answers.1, other))
    }

    fn empty(&mut self) -> Outcome {
        self.proved("empty", proved::empty(), Layout::EMPTY)
    }

    /// Every number of vertices, with no edges, with all, and with some, of weight 1
    /// and of any.
    fn all_sizes(&mut self) -> Outcome {
        for n in 0..=64 {
            let most = most_edges(n);
            let few = most.min(2 * usize::from(n));
            let kinds = [0, few, self.random.below(most + 1), most];
            let weights = [Weights::Ones, Weights::Any];
            let weights = [weights[usize::from(n / 4 % 2)], weights[usize::from(n % 2)]];
            for (edges, weights) in [kinds[usize::from(n % 4)], kinds[2]]
                .into_iter()
                .zip(weights)
            {
                let layout = self.random.layout(n, edges, weights);
                self.valid(layout)?;
                self.any(layout)?;
                self.changed(layout)?;
            }
        }
        Ok(())
    }

    /// A layout whose count can be any.
    fn valid(&mut self, mut layout: Layout) -> Outcome {
        let carried = self.random.any();
        for count in [0, u64::MAX, carried] {
            layout.count = count;
            self.edits(layout)?;
            self.written(layout)?;
        }
        Ok(())
    }

    /// Layouts with one field changed, or an edge or its weight. Most of them are not
    /// valid.
    fn changed(&mut self, layout: Layout) -> Outcome {
        let n = layout.n as usize;
        let [v, w, place] = [64, 64, 64].map(|bound| self.random.below(bound));
        let weight = self.random.weight();
        let mut changed = [layout; 13];
        changed[0].n = 65;
        changed[1].n = u64::MAX;
        changed[2].n = self.random.below(64) as u64;
        changed[3].order[place] = v as u8;
        changed[4].order[place % n.max(1)] = n as u8;
        changed[5].order[place] = 255;
        changed[6].adjacency[v] ^= 1 << w;
        changed[7].adjacency[v] ^= 1 << v;
        flip_edge(&mut changed[8], 63, w % 63, weight);
        changed[9].weights[v][w] ^= weight;
        changed[10].weights[v][w] ^= weight;
        changed[10].weights[w][v] ^= weight;
        changed[11].weights[v][v] = weight;
        if let Some((a, b)) = self.edge(&layout) {
            changed[12].put_edge(a, b, weight);
        }
        changed.into_iter().try_for_each(|layout| self.any(layout))
    }

    /// A vertex that is there, most often.
    fn vertex(&mut self, layout: &Layout) -> u64 {
        match self.random.below(12) {
            0 => layout.n,
            1 => u64::MAX,
            _ => self.random.below(layout.n.clamp(1, 64) as usize) as u64,
        }
    }

    /// The ends of an edge, if there is one.
    fn edge(&mut self, layout: &Layout) -> Option<(usize, usize)> {
        let edges = pairs(layout, true);
        let chosen = self.random.below(edges.len().max(1));
        edges.get(chosen).map(|&(a, b)| (a as usize, b as usize))
    }

    /// All calls on a layout, valid or not.
    fn any(&mut self, l: Layout) -> Outcome {
        let lent = fields(&l);
        let valid = proved::is_valid(&lent).told();
        self.proved("valid", valid, expected::is_valid(l))?;
        self.proved("count", proved::count(&lent).told(), calls::count(l))?;
        let pair = proved::first_crossing(&lent).told();
        self.proved("pair", pair, calls::first_crossing(l))?;
        self.orders(l)?;
        self.written(l)?;
        self.edits(l)?;
        self.sifting(l)
    }

    /// The order, in buffers of any length that hold something else.
    fn orders(&mut self, l: Layout) -> Outcome {
        let n = l.n.min(64) as usize;
        let lent = &fields(&l);
        for length in [0, n.saturating_sub(1), n, 64, 65, self.random.below(66)] {
            let proved = |buffer: &mut [u8]| proved::order(lent, buffer).told();
            self.with_buffer("order", length, proved, |buffer| calls::order(l, buffer))?;
        }
        Ok(())
    }

    /// The chart, the graph6, and the crossings of every edge.
    fn written(&mut self, l: Layout) -> Outcome {
        let n = l.n.min(64) as usize;
        let ends: u32 = l.adjacency.iter().map(|word| word.count_ones()).sum();
        let ends = ends as usize;
        // A header, and a weight for each edge.
        let weights = if l.is_weighted() { 3 + ends / 2 } else { 0 };
        // Three headers, n, the ends of the edges, the order.
        self.written_by(WRITE, l, 10 + ends + n + weights)?;
        // The size, and six pairs in a byte.
        let size = if n < 63 { 1 } else { 4 };
        self.written_by(EXPORT, l, size + most_edges(n as u8).div_ceil(6))?;
        self.edge_crossings(l, ends / 2)
    }

    /// The crossings of every edge, of so many, in tables of that length, shorter
    /// and longer, which held what can be a number of crossings and what cannot.
    fn edge_crossings(&mut self, l: Layout, edges: usize) -> Outcome {
        let shorter = self.random.below(edges + 1);
        let lent = &fields(&l);
        let lengths = [0, shorter, edges.saturating_sub(1), edges, edges + 1];
        for length in lengths.into_iter().chain([MOST_EDGES, LONG]) {
            for fill in [0xA5, u64::MAX] {
                self.with_lent(
                    "perlink",
                    vec![fill; length],
                    |table| proved::edge_crossings(lent, table).told(),
                    |table| calls::edge_crossings(l, table),
                )?;
            }
        }
        Ok(())
    }

    /// What a call writes, in buffers as long as it is, shorter and longer, and
    /// read back into another layout.
    fn written_by(&mut self, writing: Writing, l: Layout, exact: usize) -> Outcome {
        let shorter = self.random.below(exact);
        let lent = &fields(&l);
        for length in [0, shorter, exact - 1, exact, exact + 1, LONG] {
            let proved = |buffer: &mut [u8]| (writing.proved)(lent, buffer).told();
            let second = |buffer: &mut [u8]| (writing.second)(l, buffer);
            self.with_buffer(writing.name, length, proved, second)?;
        }
        let there = fan();
        self.with_buffer(
            format!("{} and read", writing.name),
            exact,
            |buffer| (writing.proved_back)(lent, buffer, &fields(&there)).told(),
            |buffer| (writing.second_back)(l, buffer, there),
        )
    }

    /// The calls that change the edges or the order, but for sifting.
    fn edits(&mut self, l: Layout) -> Outcome {
        let lent = &fields(&l);
        self.proved("add", proved::add_vertex(lent).told(), calls::add_vertex(l))?;
        for weight in [0, 1, 255, self.random.weight()] {
            let (a, b) = (self.vertex(&l), self.vertex(&l));
            let call = |name| format!("{name} {a} {b}");
            let answer = proved::add_edge(lent, a, b, weight).told();
            let second = calls::add_edge(l, a, b, weight);
            self.proved(format!("link {a} {b} {weight}"), answer, second)?;
            let answer = proved::remove_edge(lent, a, b).told();
            self.proved(call("unlink"), answer, calls::remove_edge(l, a, b))?;
            let answer = proved::move_after(lent, a, b).told();
            self.proved(call("move"), answer, calls::move_after(l, a, b))?;
            let answer = proved::greedy_append(lent, a).told();
            self.proved(format!("lay {a}"), answer, calls::greedy_append(l, a))?;
        }
        Ok(())
    }

    fn sifting(&mut self, l: Layout) -> Outcome {
        let lent = &fields(&l);
        for _ in 0..4 {
            let u = self.vertex(&l);
            self.all(
                format!("sift {u}"),
                proved::sift(lent, u).told(),
                baseline::sift(l, u),
                calls::sift(l, u),
            )?;
        }
        self.all(
            "round",
            proved::sifting_round(lent).told(),
            baseline::sifting_round(l),
            calls::sifting_round(l),
        )?;
        let limits = [0, 1001, u32::MAX, 2, 50, 1000];
        let few = if l.n <= SMALL { 6 } else { 4 };
        for &limit in &limits[..few] {
            self.all(
                format!("settle {limit}"),
                proved::converge(lent, limit).told(),
                baseline::converge(l, limit),
                calls::converge(l, limit),
            )?;
        }
        Ok(())
    }

    /// A layout of many edges of which no two cross.
    fn no_crossing(&mut self) -> Outcome {
        self.any(fan())
    }

    /// Lists of calls from the empty layout, from charts and from graph6: as they
    /// are, with numbers left out, with one that is no call, and with answers that
    /// don't fit.
    fn lists(&mut self) -> Outcome {
        for seed in 1..=LISTS {
            let list = lists::mixed(seed, LENGTH);
            let numbers = list.as_flattened();
            let all = ANSWER_NUMBERS * LENGTH;
            let (chart, graph6) = (self.chart(SMALL as u8), self.graph6(SMALL as u8));
            let mut ended = numbers.to_vec();
            ended[CALL_NUMBERS * self.random.below(LENGTH)] =
                [0, 15, 24, u64::MAX][seed as usize % 4];
            self.list(Start::Empty, numbers, all)?;
            let cut = &numbers[..CALL_NUMBERS * (LENGTH - 1) + 1];
            self.list(Start::Empty, cut, all - ANSWER_NUMBERS)?;
            self.list(Start::Empty, &ended, all)?;
            self.list(Start::Chart(&chart[1..]), numbers, all)?;
            self.list(Start::Graph6(&graph6[1..]), numbers, all)?;
            for start in [Start::Chart(&chart), Start::Graph6(&graph6)] {
                self.list(start, numbers, all + 7)?;
                self.list(start, numbers, all - 1)?;
                self.list(start, &numbers[..CALL_NUMBERS * LENGTH - 1], all - 1)?;
                self.list(start, &[], 0)?;
            }
        }
        Ok(())
    }

    /// A list of calls, with room for so many numbers.
    fn list(&mut self, start: Start, numbers: &[u64], room: usize) -> Outcome {
        self.with_buffer(
            format!("list {numbers:?} from {start:?}"),
            room,
            |table| proved::play(start, numbers, table).told(),
            |table| expected::play(start, numbers, table),
        )
    }

    /// A layout of up to so many vertices.
    fn layout(&mut self, most: u8) -> Layout {
        let n = self.random.below(usize::from(most) + 1) as u8;
        let edges = self.random.below(most_edges(n) + 1);
        let weights = [Weights::Ones, Weights::Any][self.random.below(2)];
        self.random.layout(n, edges, weights)
    }

    fn chart(&mut self, most: u8) -> Vec<u8> {
        chart(&self.layout(most))
    }

    fn graph6(&mut self, most: u8) -> Vec<u8> {
        graph6(&self.layout(most))
    }

    /// Charts as they are, and with bytes changed, left out and added, read into
    /// a layout, which is the empty one if the chart is refused.
    fn charts(&mut self) -> Outcome {
        let there = self.random.layout(7, 10, Weights::Any);
        for _ in 0..CHARTS {
            let mut bytes = self.chart(64);
            self.change(&mut bytes);
            let answer = proved::read_chart(&fields(&there), &bytes).told();
            let second = expected::read_chart(there, &bytes);
            self.proved(format!("chart {bytes:?}"), answer, second)?;
        }
        Ok(())
    }

    /// Graph6 of any layout and of the longest, as they are, and with bytes
    /// changed, left out and added, imported into a layout, which is the empty
    /// one if the graph6 is refused.
    fn graph6s(&mut self) -> Outcome {
        let there = self.random.layout(7, 10, Weights::Any);
        for number in 0..GRAPH6S {
            let mut bytes = match number % 4 {
                0 => graph6(&self.random.layout(63, 1000, Weights::Ones)),
                1 => graph6(&self.random.layout(64, 1000, Weights::Ones)),
                _ => self.graph6(64),
            };
            self.change_graph6(&mut bytes);
            let answer = proved::import_graph6(&fields(&there), &bytes).told();
            let second = expected::import_graph6(there, &bytes);
            self.proved(format!("graph6 {bytes:?}"), answer, second)?;
        }
        Ok(())
    }

    /// Listings, in buffers that hold something else.
    fn listings(&mut self) -> Outcome {
        for length in [0, 1023, 1024, 1025, 4000] {
            for _ in 0..LISTINGS {
                let mut bytes = self.chart(SMALL as u8);
                self.change(&mut bytes);
                self.listing(&bytes, length)?;
            }
        }
        let large = chart(&self.random.layout(64, 100, Weights::Any));
        self.listing(&large, 1024)
    }

    fn listing(&mut self, bytes: &[u8], length: usize) -> Outcome {
        self.with_buffer(
            format!("listing {bytes:?}"),
            length,
            |buffer| proved::list_chart(bytes, buffer),
            |buffer| expected::list_chart(bytes, buffer),
        )
    }

    fn change_graph6(&mut self, bytes: &mut Vec<u8>) {
        let place = self.random.below(bytes.len());
        let any = self.random.below(256) as u8;
        match self.random.below(8) {
            0 => {}
            1 => bytes[place] = any,
            2 => bytes[place.min(3)] = 63 + any % 64,
            3 => bytes.truncate(place),
            4 => bytes.push(any),
            5 => set_last_bit(bytes),
            6 => drop(bytes.splice(..1, [126, 63, 63, bytes[0]])),
            _ => drop(bytes.splice(..0, *b">>graph6<<")),
        }
    }

    /// Puts weights into a chart of which one is 0, or with too few of them.
    fn change_weights(&mut self, bytes: &mut Vec<u8>) {
        let mut weights: Vec<u8> = (0..edges(bytes)).map(|_| self.random.weight()).collect();
        let chosen = self.random.below(weights.len() + 1);
        match weights.get_mut(chosen) {
            Some(weight) => *weight = 0,
            None => drop(weights.pop()),
        }
        put_weights(bytes, &weights);
    }

    fn change(&mut self, bytes: &mut Vec<u8>) {
        let place = self.random.below(bytes.len());
        let any = self.random.below(256) as u8;
        match self.random.below(10) {
            0 => {}
            1 => bytes[place] = any,
            2 => bytes[place % 7] = any,
            3 => bytes.truncate(place),
            4 => bytes.extend([any % 3, 0, 0]),
            5 => halve_an_edge(bytes),
            6 => put_weights(bytes, &vec![1; edges(bytes)]),
            7 => put_weights(bytes, &vec![any; edges(bytes) + self.random.below(2)]),
            8 => self.change_weights(bytes),
            _ => bytes.resize(8190 + self.random.below(5), any),
        }
    }
}

/// Puts the edge in where it is missing, takes it out where it is there.
fn flip_edge(layout: &mut Layout, a: usize, b: usize, weight: u8) {
    if layout.has_edge(a as u64, b as u64) {
        layout.cut_edge(a, b);
    } else {
        layout.put_edge(a, b, weight);
    }
}

/// How many edges a chart has.
fn edges(bytes: &[u8]) -> usize {
    usize::from(u16::from_be_bytes([bytes[5], bytes[6]])) / 2
}

/// Puts weights behind a chart's other fields, in place of those that it has.
fn put_weights(bytes: &mut Vec<u8>, weights: &[u8]) {
    bytes.truncate(10 + 2 * edges(bytes) + usize::from(bytes[3]));
    let [high, low] = (weights.len() as u16).to_be_bytes();
    bytes.extend([0x57, high, low]);
    bytes.extend(weights);
}

/// Takes a byte out of a chart's edges, if it has any.
fn halve_an_edge(bytes: &mut Vec<u8>) {
    let length = u16::from_be_bytes([bytes[5], bytes[6]]);
    if length > 0 {
        bytes[5..7].copy_from_slice(&(length - 1).to_be_bytes());
        bytes.remove(7);
    }
}

/// Sets the lowest bit of a graph6's last byte, most often one of the padding.
fn set_last_bit(bytes: &mut [u8]) {
    let last = bytes.len() - 1;
    bytes[last] = 63 + ((bytes[last] - 63) | 1);
}
