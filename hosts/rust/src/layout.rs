//! A layout, held by the host and lent to each call.

use crate::ffi::{self, GRAPH6_BYTES, MOST_EDGES, MOST_ROUNDS, PLACES, WRITTEN_CHART_BYTES};
use crate::refusal::{accepted, Refusal};
use crate::row::Row;

/// The fields of a layout as the library holds them. They may hold anything at
/// all: a layout that is not valid is refused by every call.
#[repr(C)]
#[derive(Clone, Debug, PartialEq, Eq)]
pub struct Fields {
    /// How many vertices there are: 0 to n − 1.
    pub n: usize,
    /// The vertices clockwise in the first n places, 0 in the others.
    pub order: [u8; PLACES],
    /// Bit w of word v (document 01: neighbour word) is set exactly when an
    /// edge joins v and w.
    pub adjacency: [u64; PLACES],
    /// Entry 64 · v + w is the weight of the edge between v and w, the same as
    /// entry 64 · w + v, and 0 exactly where no edge joins them.
    pub weights: [u8; PLACES * PLACES],
    /// The carried count, which no call examines.
    pub count: u64,
}

/// An edge (document 01: link), the lower end first.
#[repr(C)]
#[derive(Clone, Copy, Debug, PartialEq, Eq, Hash, PartialOrd, Ord)]
pub struct Edge {
    pub low: usize,
    pub high: usize,
}

/// What sifting a vertex did.
#[derive(Clone, Copy, Debug, PartialEq, Eq)]
pub struct Sifted {
    /// The reduction (document 01: saving): crossings before less crossings
    /// after.
    pub reduction: u64,
    /// How many of the n − 1 candidate places have the least crossings, the
    /// present one being a candidate; 0 below two vertices (document 02,
    /// Note 3).
    pub optima: u32,
}

/// What a sifting round did.
#[derive(Clone, Copy, Debug, PartialEq, Eq)]
pub struct Round {
    /// The summed reduction.
    pub reduction: u64,
    /// How many vertices moved.
    pub moved: u32,
    /// The summed [`Sifted::optima`].
    pub optima: u32,
}

/// What sifting rounds up to a limit did.
#[derive(Clone, Copy, Debug, PartialEq, Eq)]
pub struct Convergence {
    /// The summed reduction.
    pub reduction: u64,
    /// The rounds run, the last one included.
    pub rounds: u32,
    /// Whether the last round moved no vertex (document 01: settled). The
    /// layout is then a local minimum: no move of one vertex lowers the
    /// crossings.
    pub converged: bool,
    /// The summed [`Sifted::optima`] of all rounds, the last one included.
    pub optima: u32,
}

/// A circular layout (document 01: ring): vertices round a circle, edges as
/// chords. A refused call leaves it as it was.
#[derive(Clone, Debug, PartialEq, Eq)]
pub struct Layout {
    fields: Fields,
}

impl Default for Layout {
    fn default() -> Layout {
        Layout::empty()
    }
}

impl Layout {
    /// The layout without vertices.
    pub fn empty() -> Layout {
        Layout::from_fields(ffi::rl_empty())
    }

    /// The layout of a chart, with its true crossings.
    pub fn from_chart(chart: &[u8]) -> Result<Layout, Refusal> {
        let mut layout = Layout::empty();
        let refusal = ffi::read_chart(&mut layout.fields, chart);
        accepted(refusal, layout)
    }

    /// The layout of a graph in graph6: the order 0, 1, 2 and so on, every edge
    /// of weight 1, and its true crossings (document 02, Note 4). A header
    /// `>>graph6<<` and a line end, as files have them, are passed over;
    /// [`Layout::import_graph6`], the library's own call, refuses them.
    pub fn from_graph6(graph6: &[u8]) -> Result<Layout, Refusal> {
        Layout::imported(bare_graph6(graph6))
    }

    /// The layout of a graph6 without header or line end.
    fn imported(graph6: &[u8]) -> Result<Layout, Refusal> {
        let mut layout = Layout::empty();
        let refusal = ffi::import_graph6(&mut layout.fields, graph6);
        accepted(refusal, layout)
    }

    /// Vertices 0 to n − 1 in rising number, with these edges of weight 1, each
    /// given once.
    pub fn from_edges(n: usize, edges: &[(usize, usize)]) -> Result<Layout, Refusal> {
        Layout::from_weighted_edges(n, &with_unit_weights(edges))
    }

    /// Vertices 0 to n − 1 in rising number, with these edges, each given once
    /// and with its weight.
    pub fn from_weighted_edges(n: usize, edges: &[(usize, usize, u8)]) -> Result<Layout, Refusal> {
        let mut layout = Layout::empty();
        for _ in 0..n {
            layout.add_vertex()?;
        }
        for &(a, b, weight) in edges {
            layout.add_weighted_edge(a, b, weight)?;
        }
        Ok(layout)
    }

    /// The vertices in this order, which holds each once, with these edges of
    /// weight 1, each given once. What is refused is refused as in a chart: 4, 6,
    /// 7 or 8, and 1 for more than a chart can hold.
    pub fn from_order(edges: &[(usize, usize)], order: &[usize]) -> Result<Layout, Refusal> {
        Layout::from_weighted_order(&with_unit_weights(edges), order)
    }

    /// The vertices in this order, which holds each once, with these edges, each
    /// given once and with its weight. What is refused is refused as by
    /// [`Layout::from_order`], and last 25 for a weight of 0.
    pub fn from_weighted_order(
        edges: &[(usize, usize, u8)],
        order: &[usize],
    ) -> Result<Layout, Refusal> {
        let ends: Vec<usize> = edges.iter().flat_map(|&(a, b, _)| [a, b]).collect();
        let weights: Vec<u8> = edges.iter().map(|&(.., weight)| weight).collect();
        let mut chart = [
            field(0x44, &bytes(&[order.len()])),
            field(0x4C, &bytes(&ends)),
            field(0x52, &bytes(order)),
        ]
        .concat();
        if weights.iter().any(|&weight| weight != 1) {
            chart.extend(field(0x57, &weights));
        }
        Layout::from_chart(&chart)
    }

    /// A layout of any fields, valid or not.
    pub fn from_fields(fields: Fields) -> Layout {
        Layout { fields }
    }

    /// Reads a chart and takes its layout over. A refused one leaves this
    /// layout as it was.
    pub fn read_chart(&mut self, chart: &[u8]) -> Result<(), Refusal> {
        *self = Layout::from_chart(chart)?;
        Ok(())
    }

    /// Imports a graph6, one without header or line end, and takes its layout
    /// over. A refused one leaves this layout as it was.
    pub fn import_graph6(&mut self, graph6: &[u8]) -> Result<(), Refusal> {
        *self = Layout::imported(graph6)?;
        Ok(())
    }

    /// Adds a vertex without edges at the end of the order (document 01: add),
    /// and gives its number.
    pub fn add_vertex(&mut self) -> Result<usize, Refusal> {
        let answer = ffi::rl_add_vertex(&mut self.fields);
        accepted(answer.refusal, answer.vertex)
    }

    /// Joins two vertices by an edge of weight 1 (document 01: link).
    pub fn add_edge(&mut self, a: usize, b: usize) -> Result<(), Refusal> {
        self.add_weighted_edge(a, b, 1)
    }

    /// Joins two vertices by an edge of this weight, which is at least 1
    /// (document 02, Note 8).
    pub fn add_weighted_edge(&mut self, a: usize, b: usize, weight: u8) -> Result<(), Refusal> {
        accepted(ffi::rl_add_edge(&mut self.fields, a, b, weight), ())
    }

    /// Takes the edge between two vertices away, and its weight (document 01:
    /// unlink).
    pub fn remove_edge(&mut self, a: usize, b: usize) -> Result<(), Refusal> {
        accepted(ffi::rl_remove_edge(&mut self.fields, a, b), ())
    }

    /// Takes a out of the order and puts it directly after b (document 01: move
    /// a behind b).
    pub fn move_after(&mut self, a: usize, b: usize) -> Result<(), Refusal> {
        accepted(ffi::rl_move_after(&mut self.fields, a, b), ())
    }

    /// Makes a new order by greedy append from a first vertex (document 01: lay
    /// from s), and gives the tally of the crossings at the ends taken, which is
    /// the crossings of the new order. Vertices are chosen by their numbers of
    /// edges, and go to the end with fewer crossings; those without edges stand
    /// last, in rising number, but for the first.
    pub fn greedy_append(&mut self, start: usize) -> Result<u64, Refusal> {
        let answer = ffi::rl_greedy_append(&mut self.fields, start);
        accepted(answer.refusal, answer.tally)
    }

    /// Moves u to where the crossings are fewest, of several places to the
    /// first clockwise. Where none has fewer than its own, u stays.
    pub fn sift(&mut self, u: usize) -> Result<Sifted, Refusal> {
        let answer = ffi::rl_sift(&mut self.fields, u);
        let sifted = Sifted {
            reduction: answer.reduction,
            optima: answer.optima,
        };
        accepted(answer.refusal, sifted)
    }

    /// Sifts each vertex once, in rising number (document 01: round).
    pub fn sifting_round(&mut self) -> Result<Round, Refusal> {
        let answer = ffi::rl_sifting_round(&mut self.fields);
        let round = Round {
            reduction: answer.reduction,
            moved: answer.moved,
            optima: answer.optima,
        };
        accepted(answer.refusal, round)
    }

    /// Runs sifting rounds until one moves no vertex, or `limit` of them
    /// (document 01: settle). The limit is from 1 to 1000.
    pub fn converge(&mut self, limit: u32) -> Result<Convergence, Refusal> {
        let answer = ffi::rl_converge(&mut self.fields, limit);
        let convergence = Convergence {
            reduction: answer.reduction,
            rounds: answer.rounds,
            converged: answer.converged,
            optima: answer.optima,
        };
        accepted(answer.refusal, convergence)
    }

    /// Converges with [`Layout::enough_rounds`] as the limit: where there are
    /// fewer than [`MOST_ROUNDS`] crossings, it ends converged.
    pub fn converge_without_limit(&mut self) -> Result<Convergence, Refusal> {
        self.converge(self.enough_rounds()?)
    }

    /// The carried count. Of a layout that came from [`Layout::empty`], a chart
    /// or a graph6 and was changed by calls alone, it is the crossings, each
    /// counted as the product of its two edges' weights.
    pub fn count(&self) -> Result<u64, Refusal> {
        let answer = ffi::rl_count(&self.fields);
        accepted(answer.refusal, answer.count)
    }

    /// The crossings, each counted as the product of its two edges' weights,
    /// from the order and the edges alone: the carried count is not looked at.
    pub fn crossings(&self) -> Result<u64, Refusal> {
        let mut table = [0; MOST_EDGES];
        let edges = self.write_edge_crossings(&mut table)?;
        // Each crossing is counted at both of its edges.
        Ok(table[..edges].iter().sum::<u64>() / 2)
    }

    /// The least limit that is known to be enough (document 02, Note 9): one
    /// round more than there are crossings, and at most [`MOST_ROUNDS`]. With
    /// fewer crossings than `MOST_ROUNDS`, converging with it ends converged.
    pub fn enough_rounds(&self) -> Result<u32, Refusal> {
        let enough = self.crossings()? + 1;
        Ok(enough.min(MOST_ROUNDS.into()) as u32)
    }

    /// The vertices, clockwise.
    pub fn order(&self) -> Result<Vec<usize>, Refusal> {
        let mut buffer = [0; PLACES];
        self.write_order(&mut buffer)?;
        let used = &buffer[..self.fields.n];
        Ok(used.iter().map(|&v| usize::from(v)).collect())
    }

    /// Writes the order to the first n bytes of the buffer; the others keep
    /// what they hold.
    pub fn write_order(&self, buffer: &mut [u8]) -> Result<(), Refusal> {
        accepted(ffi::order(&self.fields, buffer), ())
    }

    /// The first two edges that cross (document 01: shown crossing pair), edges
    /// sorted by lower, then higher end, whatever they weigh, or `None` if no two
    /// edges cross.
    pub fn first_crossing(&self) -> Result<Option<(Edge, Edge)>, Refusal> {
        let answer = ffi::rl_first_crossing(&self.fields);
        let pair = (answer.first, answer.second);
        accepted(answer.refusal, answer.found.then_some(pair))
    }

    /// The chart of this layout: edges lower end first, sorted by lower, then
    /// higher end, and their weights exactly where some edge does not weigh 1.
    /// The carried count is not in it: read again, it gives this layout with its
    /// true crossings.
    pub fn chart(&self) -> Result<Vec<u8>, Refusal> {
        written(WRITTEN_CHART_BYTES, |buffer| self.write_chart(buffer))
    }

    /// Writes the chart to the start of the buffer, and gives its length, at
    /// most [`WRITTEN_CHART_BYTES`]; the bytes beyond keep what they hold.
    pub fn write_chart(&self, buffer: &mut [u8]) -> Result<usize, Refusal> {
        let answer = ffi::write_chart(&self.fields, buffer);
        accepted(answer.refusal, answer.length)
    }

    /// The graph6 of this layout, without header or line end. Neither the order
    /// nor the carried count is in it, nor are weights: where some edge does not
    /// weigh 1, that is refused.
    pub fn graph6(&self) -> Result<Vec<u8>, Refusal> {
        written(GRAPH6_BYTES, |buffer| self.export_graph6(buffer))
    }

    /// Writes the graph6 to the start of the buffer, and gives its length, at
    /// most [`GRAPH6_BYTES`]; the bytes beyond keep what they hold.
    pub fn export_graph6(&self, buffer: &mut [u8]) -> Result<usize, Refusal> {
        let answer = ffi::export_graph6(&self.fields, buffer);
        accepted(answer.refusal, answer.length)
    }

    /// The edges, sorted by lower, then higher end, each with the crossings that
    /// it takes part in (document 02, Note 7). The carried count is not looked at:
    /// the numbers' sum is twice the crossings.
    pub fn edge_crossings(&self) -> Result<Vec<(Edge, u64)>, Refusal> {
        let numbers = written(MOST_EDGES, |table| self.write_edge_crossings(table))?;
        Ok(self.edges().into_iter().zip(numbers).collect())
    }

    /// Writes each edge's crossings to the start of the table, and gives how many
    /// edges there are, at most [`MOST_EDGES`]; the entries beyond keep what they
    /// hold.
    pub fn write_edge_crossings(&self, table: &mut [u64]) -> Result<usize, Refusal> {
        let answer = ffi::edge_crossings(&self.fields, table);
        accepted(answer.refusal, answer.edges)
    }

    /// Whether the layout is valid (document 01: whole).
    pub fn is_valid(&self) -> bool {
        ffi::rl_is_valid(&self.fields)
    }

    /// The edges, sorted by lower, then higher end.
    pub fn edges(&self) -> Vec<Edge> {
        let joined = |low: usize, high: usize| self.fields.adjacency[low] >> high & 1 == 1;
        let pairs = (0..PLACES).flat_map(|low| (low + 1..PLACES).map(move |high| (low, high)));
        pairs
            .filter(|&(low, high)| joined(low, high))
            .map(|(low, high)| Edge { low, high })
            .collect()
    }

    /// The weight of the edge between two vertices, 0 where none joins them.
    pub fn weight(&self, a: usize, b: usize) -> u8 {
        if a < PLACES && b < PLACES {
            self.fields.weights[PLACES * a + b]
        } else {
            0
        }
    }

    /// The edges, sorted by lower, then higher end, each with its weight.
    pub fn weighted_edges(&self) -> Vec<(usize, usize, u8)> {
        let weighted = |Edge { low, high }| (low, high, self.weight(low, high));
        self.edges().into_iter().map(weighted).collect()
    }

    /// Converges with a limit, and gives what the program `ringlist`, whose limit
    /// is 50, prints of such a run. The crossings are counted, whatever count is
    /// carried.
    pub fn row(&mut self, limit: u32) -> Result<Row, Refusal> {
        let before = self.crossings()?;
        let convergence = self.converge(limit)?;
        Ok(Row {
            vertices: self.fields.n,
            edges: self.edges().len(),
            before,
            after: self.crossings()?,
            rounds: convergence.rounds,
            converged: convergence.converged,
            order: self.order()?,
        })
    }

    /// The same of [`Layout::converge_without_limit`].
    pub fn row_without_limit(&mut self) -> Result<Row, Refusal> {
        self.row(self.enough_rounds()?)
    }

    pub fn fields(&self) -> &Fields {
        &self.fields
    }

    /// The fields, to be set to anything.
    pub fn fields_mut(&mut self) -> &mut Fields {
        &mut self.fields
    }
}

/// Each edge with the weight 1.
pub(crate) fn with_unit_weights(edges: &[(usize, usize)]) -> Vec<(usize, usize, u8)> {
    edges.iter().map(|&(a, b)| (a, b, 1)).collect()
}

/// A number of vertices, or vertices, as bytes: 255, which neither can be, for
/// one that is no byte.
fn bytes(numbers: &[usize]) -> Vec<u8> {
    let byte = |&number| u8::try_from(number).unwrap_or(u8::MAX);
    numbers.iter().map(byte).collect()
}

/// A field of a chart. A body whose length needs more than two bytes makes the
/// chart too long.
fn field(tag: u8, body: &[u8]) -> Vec<u8> {
    let [.., high, low] = body.len().to_be_bytes();
    [&[tag, high, low], body].concat()
}

/// A graph6 without the header and the line end that a file has.
fn bare_graph6(graph6: &[u8]) -> &[u8] {
    let bare = graph6.strip_prefix(b">>graph6<<").unwrap_or(graph6);
    let bare = bare.strip_suffix(b"\n").unwrap_or(bare);
    bare.strip_suffix(b"\r").unwrap_or(bare)
}

/// What is written to a buffer of the most elements that it can have.
fn written<T: Clone + Default>(
    most: usize,
    write: impl FnOnce(&mut [T]) -> Result<usize, Refusal>,
) -> Result<Vec<T>, Refusal> {
    let mut buffer = vec![T::default(); most];
    let length = write(&mut buffer)?;
    buffer.truncate(length);
    Ok(buffer)
}

#[cfg(test)]
mod tests {
    use std::fmt::Debug;

    use super::*;
    use crate::{scattered, FIRST_CHART, FIRST_GRAPH6};

    fn first() -> Layout {
        Layout::from_chart(FIRST_CHART).unwrap()
    }

    /// The first layout, with the weights 200 and 100.
    fn heavy() -> Layout {
        Layout::from_weighted_edges(4, &[(2, 0, 200), (1, 3, 100)]).unwrap()
    }

    /// n vertices and all edges, each of one weight.
    fn complete(n: usize, weight: u8) -> Layout {
        let pairs = |a| (a + 1..n).map(move |b| (a, b, weight));
        let edges: Vec<_> = (0..n).flat_map(pairs).collect();
        Layout::from_weighted_edges(n, &edges).unwrap()
    }

    #[test]
    fn a_chart_is_read() {
        let layout = first();
        assert_eq!(layout.order(), Ok(vec![0, 1, 2, 3]));
        assert_eq!(layout.count(), Ok(1));
        let edge = |low, high| Edge { low, high };
        assert_eq!(layout.edges(), [edge(0, 2), edge(1, 3)]);
        let pair = (edge(0, 2), edge(1, 3));
        assert_eq!(layout.first_crossing(), Ok(Some(pair)));
        assert_eq!(Layout::from_edges(4, &[(2, 0), (1, 3)]), Ok(layout));
    }

    #[test]
    fn a_refused_chart_leaves_the_layout() {
        let mut layout = first();
        layout.fields_mut().count = 77;
        let before = layout.clone();
        assert_eq!(layout.read_chart(&[]), Err(Refusal::ChartTags));
        assert_eq!(layout.read_chart(&[1]), Err(Refusal::ChartFields));
        let long = layout.read_chart(&[0; 8193]);
        assert_eq!(long, Err(Refusal::ChartTooLong));
        assert_eq!(layout, before);
        assert_eq!(layout.read_chart(crate::FIRST_CHART), Ok(()));
        assert_eq!(layout, first());
    }

    #[test]
    fn edits() {
        let mut layout = first();
        assert_eq!(layout.add_vertex(), Ok(4));
        assert_eq!(layout.add_edge(4, 1), Ok(()));
        assert_eq!(layout.count(), Ok(2));
        assert_eq!(layout.add_edge(1, 4), Err(Refusal::EdgeIsThere));
        assert_eq!(layout.add_edge(4, 4), Err(Refusal::SameVertex));
        assert_eq!(layout.add_edge(4, usize::MAX), Err(Refusal::NoSuchVertex));
        assert_eq!(layout.remove_edge(4, 1), Ok(()));
        assert_eq!(layout.remove_edge(4, 1), Err(Refusal::NoSuchEdge));
        assert_eq!(layout.move_after(4, 0), Ok(()));
        assert_eq!(layout.order(), Ok(vec![0, 4, 1, 2, 3]));
        let full = Layout::from_edges(65, &[]);
        assert_eq!(full, Err(Refusal::NoRoom));
    }

    #[test]
    fn sifting() {
        let mut layout = first();
        let sifted = Sifted {
            reduction: 1,
            optima: 2,
        };
        assert_eq!(layout.sift(0), Ok(sifted));
        assert_eq!(layout.order(), Ok(vec![1, 0, 2, 3]));
        assert_eq!(layout.first_crossing(), Ok(None));
        assert_eq!(layout.sift(4), Err(Refusal::NoSuchVertex));
        let round = Round {
            reduction: 1,
            moved: 1,
            optima: 8,
        };
        assert_eq!(first().sifting_round(), Ok(round));
        let run = |rounds, converged, optima| Convergence {
            reduction: 1,
            rounds,
            converged,
            optima,
        };
        assert_eq!(first().converge(1), Ok(run(1, false, 8)));
        assert_eq!(first().converge(1000), Ok(run(2, true, 16)));
        for limit in [0, 1001, u32::MAX] {
            assert_eq!(first().converge(limit), Err(Refusal::LimitOutOfRange));
        }
    }

    /// Converges without a limit: the limit that is taken, what it answers, and
    /// the order.
    fn without_limit(mut layout: Layout) -> (u32, Convergence, Vec<usize>) {
        let limit = layout.enough_rounds().unwrap();
        let run = layout.converge_without_limit().unwrap();
        (limit, run, layout.order().unwrap())
    }

    #[test]
    fn without_a_limit_one_round_more_than_the_crossings() {
        // A limit that only equals the crossings is spent before it is settled.
        assert!(!first().converge(1).unwrap().converged);
        let run = Convergence {
            reduction: 1,
            rounds: 2,
            converged: true,
            optima: 16,
        };
        assert_eq!(without_limit(first()), (2, run, vec![1, 0, 2, 3]));
        let run = Convergence {
            reduction: 0,
            rounds: 1,
            converged: true,
            optima: 0,
        };
        assert_eq!(without_limit(Layout::empty()), (1, run, vec![]));
    }

    #[test]
    fn the_limit_does_not_go_by_the_carried_count() {
        for count in [0, 2, 77, 1 << 32, u64::MAX] {
            let mut layout = first();
            layout.fields_mut().count = count;
            assert_eq!(layout.crossings(), Ok(1));
            assert_eq!(without_limit(layout.clone()), without_limit(first()));
            let carried = count.wrapping_sub(1);
            let row = layout.row_without_limit().unwrap();
            assert_eq!((row.before, row.after, row.converged), (1, 0, true));
            assert_eq!(layout.count(), Ok(carried));
        }
    }

    #[test]
    fn the_largest_limit() {
        for (weights, crossings, limit) in [
            ([1, 1, 1], 2, 3),
            ([2, 249, 250], 998, 999),
            ([3, 200, 133], 999, 1000),
            ([4, 200, 50], 1000, 1000),
            ([200, 255, 255], 102_000, 1000),
        ] {
            let [a, b, c] = weights;
            let edges = [(0, 2, a), (1, 3, b), (1, 4, c)];
            let layout = Layout::from_weighted_edges(5, &edges).unwrap();
            assert_eq!(layout.crossings(), Ok(crossings));
            let (taken, run, _) = without_limit(layout);
            assert_eq!((taken, run.converged), (limit, true));
        }
        assert_eq!(complete(PLACES, 255).crossings(), Ok(41_315_324_400));
        // Just above 2^32: of 32 bits, 309 would be left.
        let mut edges = Vec::new();
        for (vertices, weight) in [(0..47, 155), (47..64, 64)] {
            let pairs = |a| (a + 1..vertices.end).map(move |b| (a, b, weight));
            edges.extend(vertices.clone().flat_map(pairs));
        }
        let layout = Layout::from_weighted_edges(PLACES, &edges).unwrap();
        assert_eq!(layout.crossings(), Ok((1 << 32) + 309));
        assert_eq!(layout.enough_rounds(), Ok(MOST_ROUNDS));
    }

    #[test]
    fn rounds_are_at_most_the_crossings_taken_away_and_one() {
        let (mut most, mut settled) = (0, 0);
        for (n, one_in) in (4..24).flat_map(|n| [(n, 2), (n, 3), (n, 5)]) {
            let light = |(a, b, weight)| (a, b, 1 + weight % 2);
            let edges: Vec<_> = scattered(n, one_in).into_iter().map(light).collect();
            let before = Layout::from_weighted_edges(n, &edges).unwrap();
            let mut layout = before.clone();
            layout.fields_mut().count = 77;
            let row = layout.row_without_limit().unwrap();
            assert_eq!(before.count(), Ok(row.before));
            assert!(u64::from(row.rounds) <= row.before - row.after + 1);
            if row.before < MOST_ROUNDS.into() {
                assert!(row.converged);
                settled += 1;
            }
            // One round fewer than were run is not enough, where it is a limit.
            if row.rounds > 1 {
                let run = before.clone().converge(row.rounds - 1).unwrap();
                assert!(!run.converged);
            }
            most = row.rounds.max(most);
        }
        assert!(most > 3 && settled > 30, "{most} {settled}");
    }

    #[test]
    fn all_places_of_a_complete_graph_are_optima() {
        for n in 1..=4 {
            let mut layout = complete(n, 1);
            let sifted = layout.sift(0).map(|sifted| sifted.optima);
            assert_eq!(sifted, Ok(n as u32 - 1));
            let round = layout.sifting_round().map(|round| round.optima);
            assert_eq!(round, Ok((n * (n - 1)) as u32));
        }
    }

    #[test]
    fn greedy_append() {
        let edges = [(0, 1), (0, 2), (1, 3), (2, 3)];
        let mut layout = Layout::from_edges(4, &edges).unwrap();
        assert_eq!(layout.greedy_append(0), Ok(0));
        assert_eq!(layout.order(), Ok(vec![2, 0, 1, 3]));
        assert_eq!(layout.greedy_append(4), Err(Refusal::NoSuchVertex));
    }

    #[test]
    fn an_order_goes_into_a_lent_buffer() {
        let mut buffer = [77; 5];
        let short = first().write_order(&mut buffer[..3]);
        assert_eq!((short, buffer), (Err(Refusal::BufferTooShort), [77; 5]));
        assert_eq!(first().write_order(&mut buffer), Ok(()));
        assert_eq!(buffer, [0, 1, 2, 3, 77]);
        assert_eq!(Layout::empty().write_order(&mut []), Ok(()));
    }

    #[test]
    fn a_chart_is_written_as_it_is_read() {
        assert_eq!(first().chart().as_deref(), Ok(FIRST_CHART));
        for edges in [[(2, 0), (3, 1)], [(1, 3), (0, 2)]] {
            let chart = Layout::from_edges(4, &edges).unwrap().chart();
            assert_eq!(chart.as_deref(), Ok(FIRST_CHART));
        }
        let empty = [0x44, 0, 1, 0, 0x4C, 0, 0, 0x52, 0, 0];
        assert_eq!(Layout::empty().chart(), Ok(empty.to_vec()));
    }

    #[test]
    fn a_written_chart_gives_the_true_count() {
        let mut layout = first();
        layout.move_after(3, 0).unwrap();
        let before = layout.clone();
        layout.fields_mut().count = 77;
        let chart = layout.chart().unwrap();
        assert_eq!(layout.count(), Ok(77));
        layout.read_chart(&chart).unwrap();
        assert_eq!(layout, before);
    }

    #[test]
    fn the_longest_charts() {
        for (weight, length, crossings) in [
            (1, 4106, 635_376),
            (255, WRITTEN_CHART_BYTES, 41_315_324_400),
        ] {
            let layout = complete(PLACES, weight);
            let chart = layout.chart().unwrap();
            assert_eq!(chart.len(), length);
            assert_eq!(layout.count(), Ok(crossings));
            assert_eq!(Layout::from_chart(&chart), Ok(layout));
        }
    }

    #[test]
    fn a_crossing_counts_the_product_of_its_weights() {
        let mut layout = heavy();
        assert_eq!(layout.count(), Ok(20_000));
        assert_eq!(layout.weighted_edges(), [(0, 2, 200), (1, 3, 100)]);
        for (a, b, weight) in [(0, 2, 200), (2, 0, 200), (3, 1, 100), (0, 1, 0), (3, 3, 0)] {
            assert_eq!(layout.weight(a, b), weight);
        }
        assert_eq!(layout.weight(4, 0), 0);
        assert_eq!(layout.weight(0, PLACES), 0);
        let numbers = layout.edge_crossings().unwrap();
        assert_eq!(numbers.iter().map(|edge| edge.1).sum::<u64>(), 40_000);
        let sifted = layout.sift(0).map(|sifted| sifted.reduction);
        assert_eq!((sifted, layout.count()), (Ok(20_000), Ok(0)));
        assert_eq!(layout.remove_edge(0, 2), Ok(()));
        assert_eq!((layout.weight(0, 2), layout.weight(2, 0)), (0, 0));
        // The carried count of a layout that did not come from calls alone.
        let mut layout = heavy();
        layout.fields_mut().count = 0;
        layout.sift(0).unwrap();
        assert_eq!(layout.count(), Ok(u64::MAX - 19_999));
    }

    #[test]
    fn a_weight_of_0_is_refused_last() {
        let mut layout = heavy();
        for (a, b, refusal) in [
            (0, 4, Refusal::NoSuchVertex),
            (0, 0, Refusal::SameVertex),
            (0, 2, Refusal::EdgeIsThere),
            (0, 1, Refusal::WeightOutOfRange),
        ] {
            assert_eq!(layout.add_weighted_edge(a, b, 0), Err(refusal));
        }
        assert_eq!(layout, heavy());
        for (edge, order, refusal) in [
            ((0, 1, 0), &[0; 65][..], Refusal::ChartVertices),
            ((1, 1, 0), &[0, 1], Refusal::ChartEdgeEnds),
            ((0, 5, 0), &[0, 1], Refusal::ChartEdgeEnds),
            ((0, 1, 0), &[0, 0], Refusal::ChartOrder),
            ((0, 1, 0), &[0, 1], Refusal::WeightOutOfRange),
        ] {
            let refused = Layout::from_weighted_order(&[edge], order);
            assert_eq!(refused, Err(refusal));
        }
    }

    #[test]
    fn greedy_append_goes_by_weights_at_its_ends() {
        let pairs = [(0, 1), (0, 2), (0, 3), (1, 2), (1, 3), (2, 3)];
        for (weights, order) in [
            ([1, 1, 1, 1, 1, 1], [2, 0, 1, 3]),
            ([1, 2, 1, 2, 3, 1], [1, 2, 0, 3]),
        ] {
            let edges: Vec<_> = pairs
                .iter()
                .zip(weights)
                .map(|(&(a, b), weight)| (a, b, weight))
                .collect();
            let mut layout = Layout::from_weighted_edges(4, &edges).unwrap();
            assert_eq!(layout.greedy_append(2), layout.count());
            assert_eq!(layout.order(), Ok(order.to_vec()));
        }
    }

    #[test]
    fn a_chart_has_weights_where_some_edge_does_not_weigh_1() {
        let due = [FIRST_CHART, &[0x57, 0, 2, 200, 100]].concat();
        assert_eq!(heavy().chart().as_ref(), Ok(&due));
        assert_eq!(Layout::from_chart(&due), Ok(heavy()));
        let ones = [FIRST_CHART, &[0x57, 0, 2, 1, 1]].concat();
        assert_eq!(Layout::from_chart(&ones), Ok(first()));
        for (weights, refusal) in [
            (&[0x57, 0, 1, 5][..], Refusal::ChartWeights),
            (&[0x57, 0, 3, 5, 0, 5], Refusal::ChartWeights),
            (&[0x57, 0, 2, 5, 0], Refusal::WeightOutOfRange),
            (&[0x57, 0, 2, 5, 5, 0x57, 0, 2, 5, 5], Refusal::ChartTags),
        ] {
            let chart = [FIRST_CHART, weights].concat();
            assert_eq!(Layout::from_chart(&chart), Err(refusal));
        }
    }

    #[test]
    fn a_graph6_has_no_weights() {
        assert_eq!(heavy().graph6(), Err(Refusal::Graph6Weights));
        let mut short = [77];
        let refused = heavy().export_graph6(&mut short);
        assert_eq!((refused, short), (Err(Refusal::Graph6Weights), [77]));
        let mut layout = heavy();
        assert_eq!(layout.import_graph6(FIRST_GRAPH6), Ok(()));
        assert_eq!(layout, first());
    }

    #[test]
    fn weights_are_those_of_the_edges() {
        for (a, b, weight) in [(0, 2, 0), (0, 2, 201), (0, 1, 1), (0, 0, 1), (4, 0, 1)] {
            let mut layout = heavy();
            layout.fields_mut().weights[PLACES * a + b] = weight;
            assert_eq!(layout.count(), Err(Refusal::InvalidLayout));
        }
    }

    /// A call writes what is due to the start of a buffer that is long enough,
    /// and nothing to a shorter one, which is refused.
    fn goes_into_a_buffer<T: Clone + PartialEq + Debug + From<u8>>(
        write: fn(&Layout, &mut [T]) -> Result<usize, Refusal>,
        due: &[T],
        refusal: Refusal,
    ) {
        let length = due.len();
        let filled = |length| vec![T::from(77); length];
        for short in [0, length - 1] {
            let mut buffer = filled(short);
            assert_eq!(write(&first(), &mut buffer), Err(refusal));
            assert_eq!(buffer, filled(short));
        }
        for more in [0, 1] {
            let mut buffer = filled(length + more);
            assert_eq!(write(&first(), &mut buffer), Ok(length));
            assert_eq!(buffer[..length], *due);
            assert_eq!(buffer[length..], filled(more));
        }
    }

    #[test]
    fn what_is_written_goes_into_a_lent_buffer_or_table() {
        let short = Refusal::WriteBufferTooShort;
        goes_into_a_buffer(Layout::write_chart, FIRST_CHART, short);
        goes_into_a_buffer(Layout::export_graph6, FIRST_GRAPH6, short);
        let short = Refusal::TableTooShort;
        goes_into_a_buffer(Layout::write_edge_crossings, &[1, 1], short);
    }

    #[test]
    fn the_crossings_of_every_edge() {
        let edges = [(3, 5), (2, 4), (0, 1), (5, 0), (2, 1), (4, 3), (5, 2)];
        let mut layout = Layout::from_edges(6, &edges).unwrap();
        for (a, b) in [(3, 0), (2, 3), (5, 1)] {
            layout.move_after(a, b).unwrap();
        }
        assert_eq!(layout.order(), Ok(vec![0, 3, 2, 1, 5, 4]));
        assert_eq!(layout.count(), Ok(7));
        layout.fields_mut().count = 77;
        let due = [
            (0, 1, 4),
            (0, 5, 2),
            (1, 2, 0),
            (2, 4, 3),
            (2, 5, 1),
            (3, 4, 2),
            (3, 5, 2),
        ];
        let due = due.map(|(low, high, number)| (Edge { low, high }, number));
        assert_eq!(layout.edge_crossings().as_deref(), Ok(due.as_slice()));
    }

    #[test]
    fn no_edges_have_no_crossings() {
        for n in [0, 1, PLACES] {
            let layout = Layout::from_edges(n, &[]).unwrap();
            assert_eq!(layout.edge_crossings(), Ok(vec![]));
            assert_eq!(layout.write_edge_crossings(&mut []), Ok(0));
        }
    }

    #[test]
    fn the_crossings_of_the_most_edges() {
        for weight in [1, 255] {
            let layout = complete(PLACES, weight);
            let crossings = layout.edge_crossings().unwrap();
            assert_eq!(crossings.len(), MOST_EDGES);
            for &(edge, number) in &crossings {
                // Each of so many on one side of the chord is joined to all on the other.
                let between = edge.high - edge.low - 1;
                let crossed = between * (PLACES - 2 - between);
                assert_eq!(number, crossed as u64 * u64::from(weight).pow(2));
            }
            let sum: u64 = crossings.iter().map(|&(_, number)| number).sum();
            assert_eq!(Ok(sum), layout.count().map(|count| 2 * count));
        }
    }

    #[test]
    fn a_graph6_is_exported_as_it_is_imported() {
        assert_eq!(Layout::from_graph6(FIRST_GRAPH6), Ok(first()));
        assert_eq!(Layout::from_graph6(b"?"), Ok(Layout::empty()));
        for graph6 in [b"?".as_slice(), b"@", b"A?", b"A_", FIRST_GRAPH6, b"D?{"] {
            let again = Layout::from_graph6(graph6).and_then(|layout| layout.graph6());
            assert_eq!(again.as_deref(), Ok(graph6));
        }
    }

    #[test]
    fn a_graph6_as_a_file_has_it() {
        for graph6 in [b"?".as_slice(), FIRST_GRAPH6] {
            for header in [b"".as_slice(), b">>graph6<<"] {
                for line_end in [b"".as_slice(), b"\n", b"\r\n"] {
                    let file = [header, graph6, line_end].concat();
                    assert_eq!(Layout::from_graph6(&file), Layout::from_graph6(graph6));
                }
            }
        }
        for (graph6, refusal) in [
            (b"".as_slice(), Refusal::Graph6Size),
            (b"\n", Refusal::Graph6Size),
            (b">>graph6<<>>graph6<<CQ", Refusal::Graph6Size),
            (b">>sparse6<<CQ", Refusal::Graph6Size),
            (b"C\n", Refusal::Graph6Data),
            (b"CQ\n\n", Refusal::Graph6Data),
            (b"CQ\nCQ\n", Refusal::Graph6Data),
            (b">>graph6<<B@\n", Refusal::Graph6Padding),
        ] {
            assert_eq!(Layout::from_graph6(graph6), Err(refusal));
        }
    }

    #[test]
    fn a_layout_of_edges_and_an_order() {
        let mut layout = first();
        layout.move_after(3, 0).unwrap();
        let edges = [(0, 2), (3, 1)];
        assert_eq!(Layout::from_order(&edges, &[0, 3, 1, 2]), Ok(layout));
        assert_eq!(Layout::from_order(&[], &[]), Ok(Layout::empty()));
        let all: Vec<_> = complete(PLACES, 1).edges();
        let all: Vec<_> = all.iter().map(|edge| (edge.low, edge.high)).collect();
        let rising: Vec<_> = (0..PLACES).collect();
        assert_eq!(Layout::from_order(&all, &rising), Ok(complete(PLACES, 1)));
    }

    #[test]
    fn what_is_no_order_is_refused() {
        let many: Vec<_> = (0..PLACES + 1).collect();
        for (edges, order, refusal) in [
            ([(0, 2), (1, 3)], many.as_slice(), Refusal::ChartVertices),
            ([(0, 2), (1, 4)], &[0, 1, 2, 3], Refusal::ChartEdgeEnds),
            ([(0, 2), (1, 256)], &[0, 1, 2, 3], Refusal::ChartEdgeEnds),
            ([(0, 2), (1, 1)], &[0, 1, 2, 3], Refusal::ChartEdgeEnds),
            ([(0, 2), (2, 0)], &[0, 1, 2, 3], Refusal::ChartEdgeTwice),
            ([(0, 2), (1, 3)], &[0, 1, 2, 2], Refusal::ChartOrder),
            ([(0, 2), (1, 3)], &[0, 1, 2, 259], Refusal::ChartOrder),
        ] {
            assert_eq!(Layout::from_order(&edges, order), Err(refusal));
        }
        let long = Layout::from_order(&[(0, 1); 1 << 15], &[0, 1]);
        assert_eq!(long, Err(Refusal::ChartTooLong));
    }

    #[test]
    fn weights_of_1_take_no_room_in_a_chart() {
        let twice = Layout::from_order(&[(0, 1); 3000], &[0, 1]);
        assert_eq!(twice, Err(Refusal::ChartEdgeTwice));
        let twice = Layout::from_weighted_order(&[(0, 1, 1); 3000], &[0, 1]);
        assert_eq!(twice, Err(Refusal::ChartEdgeTwice));
        let long = Layout::from_weighted_order(&[(0, 1, 2); 3000], &[0, 1]);
        assert_eq!(long, Err(Refusal::ChartTooLong));
    }

    #[test]
    fn a_weighted_layout_of_edges_and_an_order() {
        let mut layout = Layout::from_weighted_edges(4, &[(2, 0, 255), (1, 3, 1)]).unwrap();
        layout.move_after(3, 0).unwrap();
        let edges = [(0, 2, 255), (3, 1, 1)];
        let ordered = Layout::from_weighted_order(&edges, &[0, 3, 1, 2]);
        assert_eq!(ordered, Ok(layout));
    }

    #[test]
    fn a_graph6_has_neither_order_nor_count() {
        let mut layout = first();
        layout.move_after(3, 0).unwrap();
        layout.fields_mut().count = 77;
        assert_eq!(layout.graph6().as_deref(), Ok(FIRST_GRAPH6));
        assert_eq!(layout.order(), Ok(vec![0, 3, 1, 2]));
        layout.import_graph6(FIRST_GRAPH6).unwrap();
        assert_eq!(layout, first());
    }

    #[test]
    fn the_largest_graph6() {
        for (n, size, length) in [
            (62, b"}".as_slice(), 317),
            (63, b"~??~", 330),
            (PLACES, b"~?@?", GRAPH6_BYTES),
        ] {
            let layout = complete(n, 1);
            let graph6 = layout.graph6().unwrap();
            assert_eq!(graph6.len(), length);
            assert!(graph6.starts_with(size));
            assert_eq!(Layout::from_graph6(&graph6), Ok(layout));
        }
    }

    #[test]
    fn a_refused_graph6_leaves_the_layout() {
        let mut layout = first();
        for (graph6, refusal) in [
            (b"".as_slice(), Refusal::Graph6Size),
            (b">>graph6<<CQ", Refusal::Graph6Size),
            (b"~??", Refusal::Graph6Size),
            (b"~??CQ", Refusal::Graph6Size),
            (b"~?@@", Refusal::Graph6Size),
            (b"C", Refusal::Graph6Data),
            (b"CQ\n", Refusal::Graph6Data),
            (b"~?@?", Refusal::Graph6Data),
            (b"B@", Refusal::Graph6Padding),
        ] {
            assert_eq!(layout.import_graph6(graph6), Err(refusal));
            assert_eq!(layout, first());
        }
    }

    #[test]
    fn an_invalid_layout_is_refused_and_left() {
        let mut layout = first();
        *layout.fields_mut() = Fields {
            n: usize::MAX,
            order: [255; PLACES],
            adjacency: [u64::MAX; PLACES],
            weights: [255; PLACES * PLACES],
            count: 5,
        };
        let before = layout.clone();
        let refused = Err(Refusal::InvalidLayout);
        assert!(!layout.is_valid());
        assert_eq!(layout.add_vertex().map(drop), refused);
        assert_eq!(layout.sift(0).map(drop), refused);
        assert_eq!(layout.sifting_round().map(drop), refused);
        assert_eq!(layout.converge(50).map(drop), refused);
        assert_eq!(layout.converge_without_limit().map(drop), refused);
        assert_eq!(layout.crossings().map(drop), refused);
        assert_eq!(layout.enough_rounds().map(drop), refused);
        assert_eq!(layout.order().map(drop), refused);
        assert_eq!(layout.row(50).map(drop), refused);
        assert_eq!(layout.row_without_limit().map(drop), refused);
        assert_eq!(layout.first_crossing().map(drop), refused);
        assert_eq!(layout.chart().map(drop), refused);
        assert_eq!(layout.write_chart(&mut []).map(drop), refused);
        assert_eq!(layout.graph6().map(drop), refused);
        assert_eq!(layout.export_graph6(&mut []).map(drop), refused);
        assert_eq!(layout.edge_crossings().map(drop), refused);
        assert_eq!(layout.write_edge_crossings(&mut []).map(drop), refused);
        assert_eq!(layout.edges().len(), 64 * 63 / 2);
        assert_eq!(layout, before);
    }
}
