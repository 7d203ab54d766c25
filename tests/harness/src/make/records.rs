//! Records, charts and graph6 as they stand in a list (tests/README.md).

use super::graph::Graph;
use super::ops::{Record, CHART, EMPTY, IMPORT, SET_N, SET_ORDER, SET_WEIGHT, SET_WORD};

pub fn bytes(record: Record) -> Vec<u8> {
    record.iter().flat_map(|n| n.to_le_bytes()).collect()
}

/// A start from a chart.
pub fn chart(chart: &[u8]) -> Vec<u8> {
    start(CHART, chart)
}

/// A start from a graph6.
pub fn import(graph6: &[u8]) -> Vec<u8> {
    start(IMPORT, graph6)
}

/// A start from what is read from some bytes, padded.
pub fn start(op: u64, read: &[u8]) -> Vec<u8> {
    let mut start = bytes([op, read.len() as u64, 0, 0]);
    start.extend(read);
    start.resize(start.len().next_multiple_of(32), 0);
    start
}

/// A start from a layout set field by field.
pub fn fields(graph: &Graph) -> Vec<Record> {
    let mut records = vec![[EMPTY, 0, 0, 0], [SET_N, graph.n() as u64, 0, 0]];
    for (place, &v) in graph.order.iter().enumerate() {
        records.push([SET_ORDER, place as u64, u64::from(v), 0]);
    }
    for (v, &word) in graph.words().iter().enumerate() {
        if word != 0 {
            records.push([SET_WORD, v as u64, word, 0]);
        }
    }
    for ((v, w), weight) in graph.weighted_edges() {
        records.extend(both_ways([v.into(), w.into()], weight.into()));
    }
    records
}

/// Sets the weight of two vertices both ways round.
pub fn both_ways([v, w]: [u64; 2], weight: u64) -> [Record; 2] {
    [[SET_WEIGHT, v, w, weight], [SET_WEIGHT, w, v, weight]]
}
