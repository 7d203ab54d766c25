//! Special charts: each refusal number, each boundary, and spoilt bytes.

use super::charts::{field, Chart};
use super::graph::{all_pairs, vertices, Graph};
use super::weights;
use crate::rng::Rng;

/// A kind of chart or graph6, with the refusal number that the documents give
/// it, where they give all of the kind the same.
pub struct Special {
    pub kind: &'static str,
    pub refusal: Option<u8>,
    pub make: fn(&mut Rng) -> Vec<u8>,
}

pub const fn refused(refusal: u8, kind: &'static str, make: fn(&mut Rng) -> Vec<u8>) -> Special {
    Special {
        kind,
        refusal: Some(refusal),
        make,
    }
}

pub const fn accepted(kind: &'static str, make: fn(&mut Rng) -> Vec<u8>) -> Special {
    refused(0, kind, make)
}

pub const fn any(kind: &'static str, make: fn(&mut Rng) -> Vec<u8>) -> Special {
    Special {
        kind,
        refusal: None,
        make,
    }
}

/// So many of them are dear to settle; they stand first.
pub const DEAR: usize = 2;

pub const SPECIALS: [Special; 55] = [
    accepted("64 vertices, all 2,016 edges", |_| {
        Chart::of(&Graph::of(all_pairs(64), vertices(64))).bytes()
    }),
    accepted("64 vertices, all edges of weight 255", |_| {
        let graph = Graph::of(all_pairs(64), vertices(64));
        Chart::of(&graph.with_weights([255; 2016])).bytes()
    }),
    refused(24, "a weight too few", |rng| {
        weighted(rng, |_, weights| weights.truncate(weights.len() - 1))
    }),
    refused(25, "a weight of 0", |rng| {
        weighted(rng, |rng, weights| {
            let place = rng.below(weights.len());
            weights[place] = 0;
        })
    }),
    refused(1, "8,193 bytes", |rng| {
        with_filler(rng, &[0x4C, 0x52, 0x57], 8193)
    }),
    refused(1, "more than 8,193 bytes", |rng| {
        let length = rng.within(8194, 20_000);
        rng.bytes(length)
    }),
    refused(7, "8,192 bytes in three fields", crowded),
    refused(3, "8,192 bytes in a field too many", |rng| {
        with_filler(rng, &[0x44, 0x4C, 0x52, 0x58], 8192)
    }),
    refused(2, "cut in a header", |rng| cut(rng, 1, 2)),
    refused(2, "cut in a body", |rng| cut(rng, 3, usize::MAX)),
    refused(2, "a line end behind", |rng| {
        [base(rng).bytes(), b"\n".to_vec()].concat()
    }),
    refused(3, "empty input", |_| Vec::new()),
    refused(3, "a field too many", |rng| {
        let tag = rng.pick(&[0x44, 0x4C, 0x52, 0x56, 0x58, 0]);
        [base(rng).bytes(), field(tag, &[1, 1])].concat()
    }),
    refused(3, "fields out of sequence", |rng| {
        let mut fields = base(rng).fields();
        let (one, other) = rng.pick(&[(0, 1), (1, 2), (0, 2)]);
        fields.swap(one, other);
        fields.concat()
    }),
    refused(3, "a field missing", |rng| {
        let mut fields = base(rng).fields();
        fields[rng.below(3)].clear();
        fields.concat()
    }),
    refused(3, "an unknown tag", |rng| {
        let mut fields = base(rng).fields();
        let place = rng.below(fields.len());
        fields[place][0] = rng.pick(&[0, 0x43, 0x6C, 0x53, 0x77, 0xFF]);
        fields.concat()
    }),
    refused(3, "a field twice", |rng| {
        let fields = base(rng).fields();
        let again = rng.below(fields.len());
        [fields.concat(), fields[again].clone()].concat()
    }),
    refused(4, "65 vertices", |rng| {
        let graph = Graph::random(rng, 65, 100);
        Chart::of(&graph).bytes()
    }),
    refused(4, "a size of no byte or two", |rng| {
        changed(rng, |rng, chart| {
            chart.size = rng.pick(&[&[][..], &[3, 3]]).to_vec()
        })
    }),
    refused(4, "a bad size and an odd body", |rng| {
        changed(rng, |rng, chart| {
            chart.size = vec![rng.within(65, 255) as u8];
            chart.edges.push(0);
        })
    }),
    refused(5, "an odd body", |rng| {
        changed(rng, |_, chart| chart.edges.push(0))
    }),
    refused(5, "an odd body with a bad end", |_| {
        Chart {
            size: vec![4],
            edges: vec![0, 2, 9],
            order: vertices(4),
            weights: None,
        }
        .bytes()
    }),
    refused(6, "an end that is no vertex", |rng| {
        changed(rng, |rng, chart| {
            let end = rng.below(chart.edges.len());
            chart.edges[end] = rng.within(chart.order.len(), 255) as u8;
        })
    }),
    refused(6, "an edge from a vertex to itself", |rng| {
        changed(rng, |_, chart| chart.edges.extend([2, 2]))
    }),
    refused(6, "no vertices but an edge", |_| {
        without_vertices(&[0, 1], &[], None)
    }),
    refused(6, "a pair twice, then a bad end", |rng| {
        changed(rng, |_, chart| {
            chart.edges.extend([chart.edges[1], chart.edges[0], 0, 64]);
        })
    }),
    refused(7, "a pair twice", |rng| {
        changed(rng, |_, chart| {
            chart.edges.extend([chart.edges[0], chart.edges[1]])
        })
    }),
    refused(7, "a pair twice, the other way round", |rng| {
        changed(rng, |_, chart| {
            chart.edges.extend([chart.edges[1], chart.edges[0]])
        })
    }),
    refused(8, "an order too short or too long", |rng| {
        changed(rng, |rng, chart| {
            let shorter = chart.order[1..].to_vec();
            let longer = [&chart.order[..], &[rng.pick(&chart.order)]].concat();
            chart.order = rng.pick(&[&shorter, &longer, &vec![]]).clone();
        })
    }),
    refused(8, "an order with a vertex twice", |rng| {
        changed(rng, |_, chart| chart.order[0] = chart.order[1])
    }),
    refused(8, "an order with what is no vertex", |rng| {
        changed(rng, |rng, chart| {
            let place = rng.below(chart.order.len());
            chart.order[place] = rng.pick(&[chart.order.len() as u8, 64, 255]);
        })
    }),
    refused(8, "no vertices but an order", |_| {
        without_vertices(&[], &[0], None)
    }),
    accepted("64 vertices, many edges", |rng| {
        let mut graph = Graph::random(rng, 64, 0);
        graph.edges = some_pairs(rng, 64, 300, 500);
        Chart::of(&graph).bytes()
    }),
    accepted("a length about a high byte", |rng| {
        let mut graph = Graph::random(rng, 24, 0);
        let m = rng.pick(&[127, 128, 129, 255, 256, 257]);
        graph.edges = some_pairs(rng, 24, m, m);
        weights::any(rng, &mut graph);
        Chart::of(&graph).bytes()
    }),
    refused(24, "a weight too many", |rng| {
        weighted(rng, |rng, weights| {
            weights.push(rng.within(0, 255) as u8);
        })
    }),
    refused(24, "a field of weights without a body", |rng| {
        weighted(rng, |_, weights| weights.clear())
    }),
    refused(24, "a weight of 0 and a wrong length", |rng| {
        weighted(rng, |rng, weights| {
            let m = weights.len();
            let shorter = if m > 1 { m - 1 } else { 2 };
            weights[0] = 0;
            weights.resize(rng.pick(&[shorter, m + 1, 2 * m, 300]), 0);
        })
    }),
    refused(24, "no edges but a weight", |rng| {
        let weight = rng.pick(&[0, 1, 255]);
        without_edges(rng, vec![weight])
    }),
    refused(24, "no vertices but a weight", |_| {
        without_vertices(&[], &[], Some(vec![1]))
    }),
    refused(24, "8,192 bytes in four fields", |rng| {
        let chart = unweighted(rng).bytes();
        filled_up(chart, 0x57, 8192)
    }),
    refused(25, "all weights 0", |rng| {
        weighted(rng, |_, weights| weights.fill(0))
    }),
    refused(25, "the last weight 0", |rng| {
        weighted(rng, |_, weights| {
            let last = weights.len() - 1;
            weights[last] = 0;
        })
    }),
    refused(8, "a bad order and a wrong number of weights", |rng| {
        spoilt(rng, &[-1, 1], |chart| chart.order[0] = chart.order[1])
    }),
    refused(8, "a bad order and weights of 0", |rng| {
        spoilt(rng, &[0], |chart| chart.order[0] = chart.order[1])
    }),
    refused(7, "a pair twice and bad weights", |rng| {
        spoilt(rng, &[-1, 0, 1, 2], |chart| {
            chart.edges.extend([chart.edges[1], chart.edges[0]])
        })
    }),
    refused(3, "a field of weights twice", |rng| {
        let weights = field(0x57, &[1, 1]);
        [unweighted(rng).bytes(), weights.clone(), weights].concat()
    }),
    refused(3, "a field of weights elsewhere", |rng| {
        let mut fields = unweighted(rng).fields();
        fields.insert(rng.below(3), field(0x57, &[1, 1]));
        fields.concat()
    }),
    refused(3, "a field of weights in another's place", |rng| {
        let mut fields = unweighted(rng).fields();
        fields[rng.below(3)] = field(0x57, &[1, 1]);
        fields.concat()
    }),
    accepted("no edges and no weights in their field", |rng| {
        without_edges(rng, Vec::new())
    }),
    accepted("no vertices and no weights in their field", |_| {
        without_vertices(&[], &[], Some(Vec::new()))
    }),
    accepted("a field of weights of 1", |rng| {
        weighted(rng, |_, weights| weights.fill(1))
    }),
    any("a bit flipped", |rng| {
        let bytes = base(rng).bytes();
        rng.flip(bytes)
    }),
    any("bytes at random", |rng| rng.few_bytes(80)),
    any("three fields of bytes at random", |rng| {
        at_random(rng).bytes()
    }),
    any("four fields of bytes at random", |rng| {
        let weights = body_at_random(rng);
        Chart {
            weights: Some(weights),
            ..at_random(rng)
        }
        .bytes()
    }),
];

/// Some of all pairs of n vertices, between two numbers of them.
fn some_pairs(rng: &mut Rng, n: usize, least: usize, most: usize) -> Vec<(u8, u8)> {
    let mut pairs = all_pairs(n);
    rng.shuffle(&mut pairs);
    pairs.truncate(rng.within(least, most));
    pairs
}

/// An accepted chart with at least three vertices and one edge, without weights.
fn unweighted(rng: &mut Rng) -> Chart {
    Chart::of(&graph(rng))
}

/// The same, without weights or with some.
fn base(rng: &mut Rng) -> Chart {
    let mut graph = graph(rng);
    weights::any(rng, &mut graph);
    Chart::of(&graph)
}

fn graph(rng: &mut Rng) -> Graph {
    let n = rng.within(3, 14);
    let mut graph = Graph::random(rng, n, usize::MAX);
    if graph.edges.is_empty() {
        graph.edges.push((2, 0));
    }
    graph
}

/// An accepted chart, changed.
fn changed(rng: &mut Rng, change: fn(&mut Rng, &mut Chart)) -> Vec<u8> {
    let mut chart = base(rng);
    change(rng, &mut chart);
    chart.bytes()
}

/// An accepted chart with a field of any weights, which are changed.
fn weighted(rng: &mut Rng, change: fn(&mut Rng, &mut Vec<u8>)) -> Vec<u8> {
    let graph = graph(rng);
    let mut weights = any_weights(rng, graph.edges.len());
    change(rng, &mut weights);
    Chart {
        weights: Some(weights),
        ..Chart::of(&graph)
    }
    .bytes()
}

fn any_weights(rng: &mut Rng, m: usize) -> Vec<u8> {
    (0..m).map(|_| rng.within(1, 255) as u8).collect()
}

/// An accepted chart with weights of 0, by some number more or fewer than there
/// are edges, changed so that something before them is refused.
fn spoilt(rng: &mut Rng, more: &[isize], change: fn(&mut Chart)) -> Vec<u8> {
    let mut chart = unweighted(rng);
    let m = chart.edges.len() / 2;
    chart.weights = Some(vec![0; m.saturating_add_signed(rng.pick(more))]);
    change(&mut chart);
    chart.bytes()
}

/// A chart without edges, with a field of weights.
fn without_edges(rng: &mut Rng, weights: Vec<u8>) -> Vec<u8> {
    let n = rng.within(1, 14);
    Chart::of(&Graph::random(rng, n, 0).with_weights(weights)).bytes()
}

/// A chart without vertices.
fn without_vertices(edges: &[u8], order: &[u8], weights: Option<Vec<u8>>) -> Vec<u8> {
    Chart {
        size: vec![0],
        edges: edges.to_vec(),
        order: order.to_vec(),
        weights,
    }
    .bytes()
}

/// A chart of three fields of small bytes at random.
fn at_random(rng: &mut Rng) -> Chart {
    Chart {
        size: vec![rng.below(5) as u8],
        edges: body_at_random(rng),
        order: body_at_random(rng),
        weights: None,
    }
}

fn body_at_random(rng: &mut Rng) -> Vec<u8> {
    let length = rng.below(5);
    (0..length).map(|_| rng.below(6) as u8).collect()
}

/// An accepted chart cut within its last field, which then has so many bytes,
/// header included, but not all of them.
fn cut(rng: &mut Rng, least: usize, most: usize) -> Vec<u8> {
    let fields = base(rng).fields();
    let last = rng.below(fields.len());
    let length = rng.within(least, most.min(fields[last].len() - 1));
    [fields[..last].concat(), fields[last][..length].to_vec()].concat()
}

/// An accepted chart with a further field that brings it to a length.
fn with_filler(rng: &mut Rng, tags: &[u8], length: usize) -> Vec<u8> {
    let tag = rng.pick(tags);
    filled_up(base(rng).bytes(), tag, length)
}

fn filled_up(chart: Vec<u8>, tag: u8, length: usize) -> Vec<u8> {
    let filler = field(tag, &vec![0; length - chart.len() - 3]);
    [chart, filler].concat()
}

/// 8,192 bytes in the three fields: so many edges that some pair is repeated.
fn crowded(rng: &mut Rng) -> Vec<u8> {
    let pairs = all_pairs(64);
    let edges: Vec<(u8, u8)> = (0..4059).map(|_| rng.pick(&pairs)).collect();
    Chart::of(&Graph::of(edges, vertices(64))).bytes()
}

/// Sees that what is made gets the refusal number that it is made for, if it is
/// made for one.
#[cfg(test)]
pub fn numbers_are_due(specials: &[Special], refusal_of: impl Fn(&[u8]) -> u8) {
    for special in specials {
        for index in 0..60 {
            let refusal = refusal_of(&(special.make)(&mut Rng::new(1, special.kind, index)));
            let due = special.refusal.unwrap_or(refusal);
            assert_eq!(refusal, due, "{}", special.kind);
        }
    }
}

#[cfg(test)]
mod tests {
    use super::*;
    use crate::make::ops::CHART_REFUSALS;
    use crate::naive::chart::read;
    use std::collections::BTreeSet;

    #[test]
    fn each_special_one_gets_its_refusal_number() {
        numbers_are_due(&SPECIALS, |chart| read(chart).0);
    }

    /// So that a run of a hundred charts, of which 33 are special, meets them.
    #[test]
    fn each_refusal_number_stands_among_the_first() {
        let first: BTreeSet<u8> = SPECIALS[..33].iter().filter_map(|s| s.refusal).collect();
        assert!(CHART_REFUSALS.iter().all(|number| first.contains(number)));
        let kinds: BTreeSet<&str> = SPECIALS.iter().map(|special| special.kind).collect();
        assert_eq!(kinds.len(), SPECIALS.len());
    }

    /// What is made at random gets several numbers.
    #[test]
    fn what_has_no_known_number_gets_several() {
        for special in SPECIALS.iter().filter(|special| special.refusal.is_none()) {
            let numbers = (0..400).map(|index| {
                let chart = (special.make)(&mut Rng::new(1, special.kind, index));
                read(&chart).0
            });
            let numbers: BTreeSet<u8> = numbers.collect();
            assert!(numbers.len() > 1, "{}: {numbers:?}", special.kind);
        }
    }
}
