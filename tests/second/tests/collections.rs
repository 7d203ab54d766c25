//! The graphs of the collections, as nauty's tools print them (tests/graph6).

mod common;

use std::fs;
use std::path::{Path, PathBuf};

use common::{layout, rising, written};
use second::calls;
use second::graph6::read;
use second::layout::Layout;

const FOLDER: &str = concat!(env!("CARGO_MANIFEST_DIR"), "/../graph6");

fn files() -> Vec<PathBuf> {
    let entries = fs::read_dir(FOLDER).expect("the folder of the graphs");
    let paths = entries.map(|entry| entry.expect("a file").path());
    let is_graph6 = |path: &PathBuf| path.extension().is_some_and(|end| end == "g6");
    paths.filter(is_graph6).collect()
}

fn text(path: &Path) -> String {
    fs::read_to_string(path).expect("a text")
}

/// The numbers in a line of nauty's.
fn numbers(line: &str) -> Vec<u8> {
    let words = line.split_whitespace();
    words
        .map(|word| word.parse().expect("a number of a vertex"))
        .collect()
}

/// The graphs that nauty reads in a file, each in two lines: the numbers of
/// vertices and edges, and the edges.
fn graphs(path: &Path) -> Vec<Layout> {
    let text = text(&path.with_extension("edges"));
    let lines: Vec<&str> = text.lines().collect();
    let graph = |two: &[&str]| {
        let (n, m) = two[0].split_once(' ').expect("two numbers");
        let edges: Vec<(u8, u8)> = numbers(two[1])
            .chunks(2)
            .map(|ends| (ends[0], ends[1]))
            .collect();
        assert_eq!(m, edges.len().to_string());
        layout(&rising(n.parse().expect("a number of vertices")), &edges)
    };
    lines.chunks(2).map(graph).collect()
}

#[test]
fn graphs_are_read_as_nauty_reads_them_and_written_as_nauty_writes_them() {
    let mut met = 0;
    for path in files() {
        let (text, graphs) = (text(&path), graphs(&path));
        assert_eq!(text.lines().count(), graphs.len(), "{}", path.display());
        for (graph6, graph) in text.lines().zip(&graphs) {
            assert_eq!(read(graph6.as_bytes()), Ok(*graph), "{graph6}");
            let back = written(calls::write_graph6, *graph);
            assert_eq!(back, graph6.as_bytes(), "{graph6}");
        }
        met += graphs.len();
    }
    assert!(met > 400, "{met} graphs");
}

/// As they stand in a file, with the line end.
#[test]
fn a_whole_line_is_refused() {
    for path in files() {
        for line in text(&path).split_inclusive('\n') {
            assert_eq!(read(line.as_bytes()), Err(21), "{line}");
        }
    }
}
