//! Charts: of every size and density, of every family of graphs, with each kind
//! of weights, settled already, and those that are refused.

use super::cost;
use super::density::QUARTERS;
use super::families;
use super::graph::Graph;
use super::settled::settled;
use super::special::{Special, DEAR, SPECIALS};
use super::weights;
use crate::rng::Rng;

/// The bodies of a chart's fields, whatever they hold; that of the weights may
/// be missing.
pub struct Chart {
    pub size: Vec<u8>,
    pub edges: Vec<u8>,
    pub order: Vec<u8>,
    pub weights: Option<Vec<u8>>,
}

impl Chart {
    pub fn of(graph: &Graph) -> Chart {
        Chart {
            size: vec![graph.n() as u8],
            edges: graph.edges.iter().flat_map(|&(a, b)| [a, b]).collect(),
            order: graph.order.clone(),
            weights: graph.weights.clone(),
        }
    }

    /// Three fields, or four.
    pub fn fields(&self) -> Vec<Vec<u8>> {
        let mut fields = vec![
            field(0x44, &self.size),
            field(0x4C, &self.edges),
            field(0x52, &self.order),
        ];
        fields.extend(self.weights.iter().map(|weights| field(0x57, weights)));
        fields
    }

    pub fn bytes(&self) -> Vec<u8> {
        self.fields().concat()
    }
}

/// The length of a chart of n vertices and m edges: three headers, the size,
/// two bytes an edge and one a vertex; with weights another header and a third
/// byte an edge.
pub fn length(n: usize, m: usize, weighted: bool) -> u64 {
    let weights = if weighted { 3 + m } else { 0 };
    (3 * 3 + 1 + 2 * m + n + weights) as u64
}

pub fn field(tag: u8, body: &[u8]) -> Vec<u8> {
    let length = [(body.len() / 256) as u8, (body.len() % 256) as u8];
    [&[tag], &length[..], body].concat()
}

/// A chart, its kind, and the refusal number due to it where that is known.
pub struct Made {
    pub bytes: Vec<u8>,
    pub kind: &'static str,
    /// The family that its graph is of, if it is of one.
    pub family: Option<&'static str>,
    /// The kind of weights that it has, if it is an accepted one.
    pub weights: Option<&'static str>,
    pub refusal: Option<u8>,
    /// Whether the naive model can settle it in bearable time.
    pub naive: bool,
}

/// The kinds of charts that are accepted.
pub const ACCEPTED: [&str; 3] = [ANY, FAMILY, SETTLED];

const ANY: &str = "any size and density";
const FAMILY: &str = "graph of a family";
const SETTLED: &str = "settled already";

/// Of three charts two are accepted and one is special.
pub fn chart(seed: u64, index: usize) -> Made {
    let mut rng = Rng::new(seed, "chart", index);
    if index % 3 == 2 {
        return special_chart(&mut rng, index / 3);
    }
    accepted_chart(&mut rng, Shape::new(seed, index - index / 3))
}

/// What an accepted chart is to be. Any 65 in a row have every size once; the
/// quarters of all edges, the families and the kinds of weights take turns, and
/// one chart in five is settled already, if its graph can be settled in bearable
/// time.
struct Shape {
    n: usize,
    /// Its number among the accepted charts.
    number: usize,
    /// Its number among the charts that are of a family or of any density.
    turn: usize,
    of_family: bool,
    settled: bool,
}

impl Shape {
    /// The shape of the accepted chart with some number.
    fn new(seed: u64, accepted: usize) -> Shape {
        let n = ((seed % 65) as usize + 7 * accepted) % 65;
        Shape {
            n,
            number: accepted,
            turn: accepted / 2,
            of_family: n < 2 || accepted % 2 == 1,
            settled: accepted.is_multiple_of(5),
        }
    }

    /// The graph, and the family that it is of.
    fn graph(&self, rng: &mut Rng) -> (Graph, Option<&'static str>) {
        if !self.of_family {
            return (Graph::in_quarter(rng, self.n, self.turn % QUARTERS), None);
        }
        let family = families::in_turn(self.turn, self.n);
        (family.graph_of_size(rng, self.n), Some(family.name))
    }
}

fn accepted_chart(rng: &mut Rng, shape: Shape) -> Made {
    let (mut graph, family) = shape.graph(rng);
    weights::in_turn(rng, &mut graph, shape.number);
    let settled = shape.settled.then(|| settled(&graph)).flatten();
    let kind = match (&settled, family) {
        (Some(_), _) => SETTLED,
        (None, Some(_)) => FAMILY,
        (None, None) => ANY,
    };
    let graph = settled.unwrap_or(graph);
    Made {
        bytes: Chart::of(&graph).bytes(),
        kind,
        family,
        weights: graph.kind,
        refusal: Some(0),
        naive: cost::settle(graph.n(), graph.edges.len()) <= cost::NAIVE,
    }
}

/// The special chart with some number. They take turns, but for the first ones,
/// which are dear and always the same.
pub fn special(number: usize) -> &'static Special {
    let others = SPECIALS.len() - DEAR;
    match number.checked_sub(DEAR) {
        None => &SPECIALS[number],
        Some(turn) => &SPECIALS[DEAR + turn % others],
    }
}

fn special_chart(rng: &mut Rng, number: usize) -> Made {
    let special = special(number);
    Made {
        bytes: (special.make)(rng),
        kind: special.kind,
        family: None,
        weights: None,
        refusal: special.refusal,
        naive: true,
    }
}

#[cfg(test)]
mod tests {
    use super::*;
    use crate::make::density::{quarter, LARGE};
    use std::collections::BTreeSet;

    /// The shapes of the accepted ones among a hundred charts.
    fn shapes(seed: u64) -> impl Iterator<Item = Shape> {
        (0..67).map(move |accepted| Shape::new(seed, accepted))
    }

    #[test]
    fn a_hundred_charts_have_every_size_and_family_and_large_ones_every_density() {
        for seed in 0..65 {
            let sizes: BTreeSet<usize> = shapes(seed).map(|shape| shape.n).collect();
            assert_eq!(sizes.len(), 65, "seed {seed}");
            let (mut families, mut quarters) = (BTreeSet::new(), BTreeSet::new());
            for (index, shape) in shapes(seed).enumerate() {
                let (graph, family) = shape.graph(&mut Rng::new(seed, "shape", index));
                assert_eq!(graph.n(), shape.n);
                families.extend(family);
                if shape.n >= LARGE && family.is_none() {
                    quarters.insert(quarter(shape.n, graph.edges.len()));
                }
            }
            assert_eq!(families.len(), families::all().len(), "seed {seed}");
            assert_eq!(quarters.len(), QUARTERS, "seed {seed}");
        }
    }

    #[test]
    fn charts_have_their_length() {
        for (n, m) in [(0, 0), (17, 127), (17, 128), (64, 2016)] {
            let graph = Graph::with_edges(&mut Rng::new(1, "length", m), n, m);
            assert_eq!(Chart::of(&graph).bytes().len() as u64, length(n, m, false));
            let graph = graph.with_weights(vec![2; m]);
            assert_eq!(Chart::of(&graph).bytes().len() as u64, length(n, m, true));
        }
        let longest = [false, true].map(|weighted| length(64, 2016, weighted));
        assert_eq!((length(0, 0, false), longest), (10, [4106, 6125]));
    }

    #[test]
    fn charts_of_every_kind_are_made() {
        for seed in 1..4 {
            let made: Vec<Made> = (0..100).map(|index| chart(seed, index)).collect();
            for kind in ACCEPTED {
                assert!(made.iter().any(|made| made.kind == kind), "{kind}");
            }
            for kind in weights::names() {
                assert!(made.iter().any(|made| made.weights == Some(kind)), "{kind}");
            }
            assert!(made.iter().any(|made| !made.naive));
        }
    }
}
