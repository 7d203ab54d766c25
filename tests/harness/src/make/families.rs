//! Families of graphs: those in which many vertices tie, those with isolated
//! vertices, those that fall apart, and those at the limits.

use std::ops::Range;

use super::graph::{all_pairs, vertices, Edge, Graph};
use crate::rng::Rng;

/// A family of graphs: its name, its fewest and most vertices, and the edges of
/// one with n vertices.
#[derive(Clone, Copy)]
pub struct Family {
    pub name: &'static str,
    fewest: usize,
    most: usize,
    edges: fn(&mut Rng, usize) -> Vec<Edge>,
}

/// The families in which many vertices tie come first, then those with isolated
/// vertices.
const FAMILIES: [Family; 16] = [
    family("path", 2, 64, |_, n| path(n)),
    family("cycle", 3, 64, |_, n| {
        [path(n), vec![(0, n as u8 - 1)]].concat()
    }),
    family("star", 2, 64, |_, n| bipartite(0..1, 1..n as u8)),
    family("complete bipartite", 2, 64, |rng, n| {
        let first = rng.within(1, n - 1) as u8;
        bipartite(0..first, first..n as u8)
    }),
    family("matching", 2, 64, |_, n| {
        let mut edges = path(n);
        edges.retain(|(a, _)| a % 2 == 0);
        edges
    }),
    family("grid", 4, 64, |rng, n| {
        let width = rng.within(2, n / 2);
        grid(n, width)
    }),
    family("disjoint cliques", 4, 64, |rng, n| {
        let size = rng.within(2, n / 2);
        cliques(n, size)
    }),
    family("complete less a few edges", 4, 64, |rng, n| {
        let mut edges = all_pairs(n);
        rng.shuffle(&mut edges);
        edges.truncate(edges.len() - rng.within(1, FEW));
        edges
    }),
    family("no edges", 2, 64, |_, _| Vec::new()),
    family("component and isolated vertices", 3, 64, |rng, n| {
        let linked = rng.within(2, n - 1);
        connected(rng, linked)
    }),
    family("components and isolated vertices", 5, 64, |rng, n| {
        let linked = rng.within(4, n - 1);
        components(rng, linked)
    }),
    family("tree", 2, 64, tree),
    family("components", 4, 64, components),
    family("complete", 3, 64, |_, n| all_pairs(n)),
    family("one vertex", 1, 1, |_, _| Vec::new()),
    family("no vertex", 0, 0, |_, _| Vec::new()),
];

/// How many families with ties there are, and how many with isolated vertices.
const WITH_TIES: usize = 8;
const WITH_ISOLATED: usize = 3;

/// The most edges that are less than all but a few.
const FEW: usize = 5;

const fn family(
    name: &'static str,
    fewest: usize,
    most: usize,
    edges: fn(&mut Rng, usize) -> Vec<Edge>,
) -> Family {
    Family {
        name,
        fewest,
        most,
        edges,
    }
}

pub fn all() -> &'static [Family] {
    &FAMILIES
}

/// The families in which many vertices tie.
pub fn with_ties() -> &'static [Family] {
    &FAMILIES[..WITH_TIES]
}

/// The families with isolated vertices.
pub fn with_isolated() -> &'static [Family] {
    &FAMILIES[WITH_TIES..][..WITH_ISOLATED]
}

/// Those families that have a graph of n vertices.
pub fn of_size(n: usize) -> Vec<Family> {
    let mut families = FAMILIES.to_vec();
    families.retain(|family| family.has(n));
    families
}

/// The family whose turn it is, or the next that has a graph of n vertices.
pub fn in_turn(turn: usize, n: usize) -> Family {
    let mut families = FAMILIES;
    families.rotate_left(turn % FAMILIES.len());
    let mut families = families.into_iter();
    let next = families.find(|family| family.has(n));
    next.expect("a family of every size")
}

impl Family {
    fn has(&self, n: usize) -> bool {
        (self.fewest..=self.most).contains(&n)
    }

    /// A graph of the family with at most so many vertices, or as few as it
    /// can have.
    pub fn graph(&self, rng: &mut Rng, most: usize) -> Graph {
        let most = most.clamp(self.fewest, self.most);
        let n = rng.within(self.fewest, most);
        self.graph_of_size(rng, n)
    }

    /// A graph of the family with n vertices, which it can have, numbered as
    /// the family has them or in any other way.
    pub fn graph_of_size(&self, rng: &mut Rng, n: usize) -> Graph {
        let mut edges = (self.edges)(rng, n);
        if rng.once_in(2) {
            renumber(rng, n, &mut edges);
        }
        Graph::new(rng, n, edges)
    }
}

fn renumber(rng: &mut Rng, n: usize, edges: &mut [Edge]) {
    let mut numbers = vertices(n);
    rng.shuffle(&mut numbers);
    for (a, b) in edges {
        (*a, *b) = (numbers[usize::from(*a)], numbers[usize::from(*b)]);
    }
}

fn path(n: usize) -> Vec<Edge> {
    (1..n as u8).map(|v| (v - 1, v)).collect()
}

/// Each of the one with each of the other vertices.
fn bipartite(ones: Range<u8>, others: Range<u8>) -> Vec<Edge> {
    let from = |a| others.clone().map(move |b| (a, b));
    ones.flat_map(from).collect()
}

/// Rows of some width, the last of them as long as the vertices last.
fn grid(n: usize, width: usize) -> Vec<Edge> {
    let mut edges = Vec::new();
    for v in 0..n {
        let (right, below) = (v + 1, v + width);
        if right % width != 0 && right < n {
            edges.push((v as u8, right as u8));
        }
        if below < n {
            edges.push((v as u8, below as u8));
        }
    }
    edges
}

/// Complete graphs of some size, the last of them of the vertices that remain.
fn cliques(n: usize, size: usize) -> Vec<Edge> {
    let mut edges = all_pairs(n);
    let clique = |v: u8| usize::from(v) / size;
    edges.retain(|&(a, b)| clique(a) == clique(b));
    edges
}

/// A tree whose vertices hang on any earlier one, on one of the last few, or
/// two on each.
fn tree(rng: &mut Rng, n: usize) -> Vec<Edge> {
    let shape = rng.below(3);
    let mut edges = Vec::new();
    for v in 1..n {
        let parent = match shape {
            0 => rng.below(v),
            1 => rng.within(v.saturating_sub(3), v - 1),
            _ => (v - 1) / 2,
        };
        edges.push((parent as u8, v as u8));
    }
    edges
}

/// Two components or more, each of two vertices or more.
fn components(rng: &mut Rng, n: usize) -> Vec<Edge> {
    let first = rng.within(2, n - 2);
    let rest = n - first;
    let mut edges = connected(rng, first);
    let others = if rest >= 4 && rng.once_in(2) {
        components(rng, rest)
    } else {
        connected(rng, rest)
    };
    let behind = |v: u8| v + first as u8;
    edges.extend(others.into_iter().map(|(a, b)| (behind(a), behind(b))));
    edges
}

/// A tree of n vertices, and some edges more.
fn connected(rng: &mut Rng, n: usize) -> Vec<Edge> {
    let mut edges = Vec::new();
    for v in 1..n {
        edges.push((rng.below(v) as u8, v as u8));
    }
    let mut others = all_pairs(n);
    others.retain(|pair| !edges.contains(pair));
    rng.shuffle(&mut others);
    others.truncate(rng.below(n));
    edges.extend(others);
    edges
}

#[cfg(test)]
mod tests {
    use super::*;
    use crate::make::density;
    use crate::make::graph::component_count;
    use std::collections::BTreeSet;

    /// The degrees of a graph's vertices, sorted.
    fn degrees(graph: &Graph) -> Vec<u32> {
        let words = graph.words();
        let degrees = graph.order.iter().map(|&v| words[usize::from(v)]);
        let mut degrees: Vec<u32> = degrees.map(u64::count_ones).collect();
        degrees.sort_unstable();
        degrees
    }

    /// In a grid no vertex has more than four neighbours, there are fewer than
    /// two edges for each vertex, and no three vertices are all joined.
    fn is_grid(graph: &Graph) -> bool {
        let words = graph.words();
        let triangle = |&(a, b): &Edge| words[usize::from(a)] & words[usize::from(b)] != 0;
        let (n, m) = (graph.n(), graph.edges.len());
        degrees(graph)[n - 1] <= 4
            && (n - 1..2 * n).contains(&m)
            && !graph.edges.iter().any(triangle)
    }

    /// Whether both ends of each edge have the same neighbours but for each
    /// other.
    fn are_cliques(graph: &Graph) -> bool {
        let words = graph.words();
        let with_itself = |v: u8| words[usize::from(v)] | 1 << v;
        let alike = |&(a, b): &Edge| with_itself(a) == with_itself(b);
        graph.edges.iter().all(alike)
    }

    /// Whether a graph is what the name of its family says.
    fn belongs(name: &str, graph: &Graph) -> bool {
        let (n, m) = (graph.n(), graph.edges.len());
        let (degrees, with_edges) = (degrees(graph), component_count(&graph.words()));
        let isolated = degrees.iter().filter(|&&degree| degree == 0).count();
        let components = with_edges + isolated;
        let all = |degree: usize| degrees.iter().all(|&d| d as usize == degree);
        match name {
            "path" => m == n - 1 && components == 1 && degrees[n - 1] <= 2,
            "cycle" => m == n && components == 1 && all(2),
            "star" => m == n - 1 && degrees[n - 1] as usize == m,
            "complete bipartite" => {
                let first = degrees[n - 1] as usize;
                m == first * (n - first) && components == 1
            }
            "matching" => m == n / 2 && degrees[n - 1] == 1,
            "grid" => components == 1 && is_grid(graph),
            "disjoint cliques" => components >= 2 && are_cliques(graph),
            "complete less a few edges" => (1..=FEW).contains(&(density::possible(n) - m)),
            "tree" => m == n - 1 && components == 1,
            "no edges" => n >= 2 && m == 0,
            "component and isolated vertices" => with_edges == 1 && isolated > 0,
            "components and isolated vertices" => with_edges >= 2 && isolated > 0,
            "components" => with_edges >= 2 && isolated == 0,
            "complete" => n >= 3 && all(n - 1),
            "one vertex" => n == 1 && m == 0,
            "no vertex" => n == 0 && m == 0,
            _ => false,
        }
    }

    #[test]
    fn graphs_are_what_their_families_say() {
        for family in all() {
            for index in 0..200 {
                let mut rng = Rng::new(1, family.name, index);
                let most = rng.pick(&[0, 4, 5, 12, 64]);
                let graph = family.graph(&mut rng, most);
                assert!(graph.n() <= most.max(family.fewest), "{}", family.name);
                assert!(belongs(family.name, &graph), "{}", family.name);
            }
        }
    }

    #[test]
    fn isolated_vertices_have_numbers_before_between_and_behind_the_others() {
        for family in &with_isolated()[1..] {
            let mut sides = BTreeSet::new();
            for index in 0..50 {
                let graph = family.graph(&mut Rng::new(4, family.name, index), 20);
                let linked = graph.words().map(|word| word != 0);
                for v in (0..graph.n()).filter(|&v| !linked[v]) {
                    sides.insert([&linked[..v], &linked[v..]].map(|side| side.contains(&true)));
                }
            }
            assert_eq!(sides.len(), 3, "{}", family.name);
        }
    }

    #[test]
    fn grids_cliques_and_trees_by_hand() {
        assert_eq!(grid(5, 2), [(0, 1), (0, 2), (1, 3), (2, 3), (2, 4)]);
        assert_eq!(grid(6, 3).len(), 7);
        assert_eq!(cliques(5, 2), [(0, 1), (2, 3)]);
        assert_eq!(cliques(64, 32).len(), 2 * density::possible(32));
        let trees = (0..40).map(|index| tree(&mut Rng::new(1, "tree", index), 7));
        let binary = [(0, 1), (0, 2), (1, 3), (1, 4), (2, 5), (2, 6)];
        assert!(trees.filter(|edges| edges[..] == binary).count() < 40);
        assert!((0..40).any(|index| tree(&mut Rng::new(1, "tree", index), 7) == binary));
    }

    #[test]
    fn families_of_a_size_have_graphs_of_it() {
        for n in 0..=64 {
            for family in of_size(n) {
                let graph = family.graph_of_size(&mut Rng::new(3, family.name, n), n);
                assert_eq!(graph.n(), n);
                assert!(belongs(family.name, &graph), "{} of {n}", family.name);
            }
        }
        assert_eq!((of_size(0).len(), of_size(1).len()), (1, 1));
        assert_eq!(of_size(64).len(), all().len() - 2);
    }

    #[test]
    fn no_pair_is_joined_twice() {
        for family in all() {
            for index in 0..50 {
                let graph = family.graph(&mut Rng::new(2, family.name, index), 64);
                let degrees: u32 = degrees(&graph).iter().sum();
                assert_eq!(degrees as usize, 2 * graph.edges.len(), "{}", family.name);
            }
        }
    }
}
