//! Ways to make a layout invalid (document 01: not whole), one fact each.

use super::graph::Graph;
use super::ops::{Record, SET_N, SET_ORDER, SET_WEIGHT, SET_WORD};
use super::records::both_ways;
use crate::rng::Rng;

/// Records that spoil the layout of a graph; none where the way is barred.
pub type Spoil = fn(&mut Rng, &Graph) -> Vec<Record>;

/// A way, and its name.
pub type Way = (&'static str, Spoil);

pub const SPOILS: [Way; 19] = [
    ("n over 64", n_over_64),
    ("n one off", |rng, graph| {
        let n = graph.n() as u64;
        vec![[SET_N, rng.pick(&[n + 1, n.saturating_sub(1)]), 0, 0]]
    }),
    ("an order place out of range", |rng, graph| {
        let value = rng.pick(&[graph.n() as u64, 64, 255]);
        used_place(rng, graph).map_or(vec![], |p| vec![[SET_ORDER, p, value, 0]])
    }),
    ("a vertex twice in the order", |rng, graph| {
        let value = u64::from(graph.order.first().copied().unwrap_or(1));
        used_place(rng, graph).map_or(vec![], |p| vec![[SET_ORDER, p.max(1), value, 0]])
    }),
    ("an unused order place", |rng, graph| {
        let value = rng.within(1, 255) as u64;
        unused_place(rng, graph).map_or(vec![], |p| vec![[SET_ORDER, p, value, 0]])
    }),
    ("a word not symmetric", |rng, graph| {
        let other = used_place(rng, graph).unwrap_or(0);
        used_place(rng, graph)
            .filter(|&v| v != other)
            .map_or(vec![], |v| vec![flip(graph, v, other)])
    }),
    ("an edge from a vertex to itself", |rng, graph| {
        used_place(rng, graph).map_or(vec![], |v| joined(rng, graph, [v, v]))
    }),
    ("a bit at or above n", |rng, graph| {
        let (v, w) = (used_place(rng, graph), unused_place(rng, graph));
        v.zip(w).map_or(vec![], |(v, w)| vec![flip(graph, v, w)])
    }),
    ("a word at or above n", |rng, graph| {
        let word = 1 << rng.below(64);
        unused_place(rng, graph).map_or(vec![], |v| vec![[SET_WORD, v, word, 0]])
    }),
    ("an edge to a vertex at or above n", |rng, graph| {
        let (v, w) = (used_place(rng, graph), unused_place(rng, graph));
        v.zip(w).map_or(vec![], |(v, w)| joined(rng, graph, [v, w]))
    }),
    ("an edge between vertices above n", |rng, graph| {
        let (v, w) = (unused_place(rng, graph), unused_place(rng, graph));
        v.zip(w)
            .filter(|(v, w)| v != w)
            .map_or(vec![], |(v, w)| joined(rng, graph, [v, w]))
    }),
    ("a weight not symmetric", |rng, graph| {
        let other = rng.within(1, 254) as u64;
        edge(rng, graph).map_or(vec![], |([v, w], weight)| {
            vec![[SET_WEIGHT, v, w, 1 + (weight - 1 + other) % 255]]
        })
    }),
    ("a weight of 0 one way round", |rng, graph| {
        edge(rng, graph).map_or(vec![], |([v, w], _)| vec![[SET_WEIGHT, v, w, 0]])
    }),
    ("an edge without a weight", |rng, graph| {
        let zero = rng.pick(&[0, 256]);
        edge(rng, graph).map_or(vec![], |(ends, _)| both_ways(ends, zero).to_vec())
    }),
    ("a weight without an edge", |rng, graph| {
        let weight = any_weight(rng);
        unjoined(rng, graph).map_or(vec![], |ends| both_ways(ends, weight).to_vec())
    }),
    ("a weight without an edge one way round", |rng, graph| {
        let weight = any_weight(rng);
        unjoined(rng, graph).map_or(vec![], |[v, w]| vec![[SET_WEIGHT, v, w, weight]])
    }),
    ("a weight in a row at or above n", |rng, graph| {
        let (v, w) = (unused_place(rng, graph), rng.below(64) as u64);
        let weight = any_weight(rng);
        v.map_or(vec![], |v| vec![[SET_WEIGHT, v, w, weight]])
    }),
    ("a weight in a column at or above n", |rng, graph| {
        let (v, w) = (rng.below(64) as u64, unused_place(rng, graph));
        let weight = any_weight(rng);
        w.map_or(vec![], |w| vec![[SET_WEIGHT, v, w, weight]])
    }),
    ("a weight both ways round at or above n", |rng, graph| {
        let (v, w) = (rng.below(64) as u64, unused_place(rng, graph));
        let weight = any_weight(rng);
        w.map_or(vec![], |w| both_ways([v, w], weight).to_vec())
    }),
];

/// Possible for every graph.
pub fn n_over_64(rng: &mut Rng, graph: &Graph) -> Vec<Record> {
    let n = graph.n() as u64;
    let far = [65, 66, 255, 256 + n, 1 << 32, (1 << 32) + n, u64::MAX];
    vec![[SET_N, rng.pick(&far), 0, 0]]
}

fn used_place(rng: &mut Rng, graph: &Graph) -> Option<u64> {
    (graph.n() > 0).then(|| rng.below(graph.n().max(1)) as u64)
}

fn unused_place(rng: &mut Rng, graph: &Graph) -> Option<u64> {
    (graph.n() < 64).then(|| rng.within(graph.n().min(63), 63) as u64)
}

/// Sets word v as in the graph, but for bit w.
fn flip(graph: &Graph, v: u64, w: u64) -> Record {
    [SET_WORD, v, graph.words()[v as usize] ^ 1 << w, 0]
}

/// Puts in an edge with a weight, both ways round.
fn joined(rng: &mut Rng, graph: &Graph, [v, w]: [u64; 2]) -> Vec<Record> {
    let weight = any_weight(rng);
    let words = [flip(graph, v, w), flip(graph, w, v)];
    [words, both_ways([v, w], weight)].concat()
}

fn any_weight(rng: &mut Rng) -> u64 {
    let any = rng.within(1, 255) as u64;
    rng.pick(&[1, 2, 255, 256 + 1, any])
}

/// An edge of a graph, either way round, and its weight.
fn edge(rng: &mut Rng, graph: &Graph) -> Option<([u64; 2], u64)> {
    let edges = graph.weighted_edges();
    let turned = rng.once_in(2);
    let ((a, b), weight) = (!edges.is_empty()).then(|| rng.pick(&edges))?;
    let ends = if turned { [b, a] } else { [a, b] };
    Some((ends.map(u64::from), weight.into()))
}

/// Two vertices of a graph that aren't joined; they may be the same.
fn unjoined(rng: &mut Rng, graph: &Graph) -> Option<[u64; 2]> {
    let (v, w) = (used_place(rng, graph)?, used_place(rng, graph)?);
    let is_joined = graph.words()[v as usize] >> w & 1 == 1;
    (!is_joined).then_some([v, w])
}

#[cfg(test)]
mod tests {
    use super::*;
    use crate::make::charts::Chart;
    use crate::make::ops::COUNT;
    use crate::make::records;
    use crate::make::weights;
    use crate::naive::play::play;

    /// Each way does what its name says, wherever it isn't barred: the layout
    /// isn't valid any more. It is barred now and then, but not always.
    #[test]
    fn each_way_spoils() {
        for (name, spoil) in SPOILS {
            let mut spoilt = 0;
            for index in 0..60 {
                let mut rng = Rng::new(1, name, index);
                let n = rng.within(3, 64);
                let mut graph = Graph::random(&mut rng, n, usize::MAX);
                weights::any(&mut rng, &mut graph);
                let records = spoil(&mut rng, &graph);
                let start = records::chart(&Chart::of(&graph).bytes());
                let broken = records.iter().chain(&[[COUNT, 0, 0, 0]]);
                let broken = broken.flat_map(|&record| records::bytes(record));
                let list: Vec<u8> = start.into_iter().chain(broken).collect();
                let lines = play(&list);
                let due = if records.is_empty() {
                    "count 0 "
                } else {
                    "count 11 0 "
                };
                let last = lines.lines().last().expect("a line");
                assert!(last.starts_with(due), "{name}: {last}");
                spoilt += usize::from(!records.is_empty());
            }
            assert!(spoilt > 20, "{name}: {spoilt}");
        }
    }
}
