//! The graphs of the collections, as nauty's tools print them (tests/graph6),
//! each imported and exported.

use super::ops::*;
use super::records;

/// A file of graphs.
pub struct Collection {
    pub name: &'static str,
    /// One graph6 a line.
    graph6: &'static str,
    /// What nauty reads in each: a line with the numbers of vertices and edges,
    /// and a line with the edges.
    edges: &'static str,
}

macro_rules! collection {
    ($name:literal) => {
        Collection {
            name: $name,
            graph6: include_str!(concat!("../../../graph6/", $name, ".g6")),
            edges: include_str!(concat!("../../../graph6/", $name, ".edges")),
        }
    };
}

pub const COLLECTIONS: [Collection; 8] = [
    collection!("up-to-five"),
    collection!("six"),
    collection!("cubic-of-ten"),
    collection!("trees-of-eight"),
    collection!("named"),
    collection!("special"),
    collection!("configurations"),
    collection!("sizes-61-to-64"),
];

/// A graph6 and what nauty reads in it.
pub struct Collected {
    pub graph6: &'static str,
    pub n: usize,
    pub edges: Vec<(usize, usize)>,
}

impl Collection {
    pub fn graphs(&self) -> Vec<Collected> {
        let lines: Vec<&str> = self.edges.lines().collect();
        let read = self.graph6.lines().zip(lines.chunks(2));
        read.map(|(graph6, two)| Collected {
            graph6,
            n: numbers(two[0])[0],
            edges: numbers(two[1])
                .chunks(2)
                .map(|ends| (ends[0], ends[1]))
                .collect(),
        })
        .collect()
    }

    /// Each of its graphs is imported, and exported into a buffer of line ends
    /// that is one byte longer.
    pub fn list(&self) -> Vec<u8> {
        let calls = |graph6: &str| {
            let room = graph6.len() as u64 + 1;
            let export = records::bytes([EXPORT, room, b'\n'.into(), 0]);
            [records::import(graph6.as_bytes()), export].concat()
        };
        self.graph6.lines().flat_map(calls).collect()
    }
}

fn numbers(line: &str) -> Vec<usize> {
    let words = line.split_whitespace();
    words.filter_map(|word| word.parse().ok()).collect()
}

/// Whether the lists can be made of known calls.
pub fn open(known: &Known) -> bool {
    known.has(IMPORT) && known.has(EXPORT)
}

/// How many graphs there are.
pub fn graph_count() -> usize {
    let counts = COLLECTIONS.iter().map(|file| file.graph6.lines().count());
    counts.sum()
}

#[cfg(test)]
mod tests {
    use super::*;
    use std::collections::BTreeSet;

    #[test]
    fn every_file_is_taken_in() {
        let folder = concat!(env!("CARGO_MANIFEST_DIR"), "/../graph6");
        let entries = std::fs::read_dir(folder).expect("the folder of the graphs");
        let names = entries.map(|entry| entry.expect("a file").file_name());
        let names = names.map(|name| name.into_string().expect("a plain name"));
        let graphs = names.filter_map(|name| name.strip_suffix(".g6").map(String::from));
        let due = COLLECTIONS.iter().map(|file| file.name.to_string());
        assert_eq!(graphs.collect::<BTreeSet<_>>(), due.collect());
    }

    #[test]
    fn nauty_reads_every_graph() {
        for file in COLLECTIONS {
            assert_eq!(2 * file.graph6.lines().count(), file.edges.lines().count());
            let firsts = file.edges.lines().step_by(2);
            for (graph, first) in file.graphs().iter().zip(firsts) {
                assert_eq!(numbers(first), [graph.n, graph.edges.len()]);
            }
        }
        assert_eq!(graph_count(), 424);
    }

    #[test]
    fn lists_are_made_of_known_calls_only() {
        assert!(open(&Known::all()));
        for names in ["import,count", "export"] {
            assert!(!open(&Known::parse(names).expect("known names")));
        }
    }
}
