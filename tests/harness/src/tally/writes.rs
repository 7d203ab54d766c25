//! What occurs of charts and graph6 that are written, and of tables that are
//! filled.

use super::{NOT_VALID, WEIGHTED};
use crate::counted::true_count;
use crate::followed::{lent, Step};
use crate::make::ops::{Known, PERLINK, WRITE, WRITERS};
use crate::make::written::{filled_length, EDGES};

const OTHER_COUNT: &str = "a count that is not the true one";

pub const READ_BACK: &str = "read back";

const NO_ENTRIES: &str = "no edges and no entries";
const BESIDE: &str = "an edge without crossings beside one with some";

/// The lengths of what is lent that should occur, less that of what is filled.
fn rooms(op: u64) -> [(i64, String); 3] {
    let (lent, entry) = match op {
        PERLINK => ("table", "entry"),
        _ => ("buffer", "byte"),
    };
    [
        (-1, format!("a {lent} one {entry} too short")),
        (0, format!("a {lent} just long enough")),
        (1, format!("a {lent} one {entry} longer")),
    ]
}

/// The numbers of edges that should occur.
fn edge_counts(op: u64) -> &'static [usize] {
    match op {
        WRITE => &EDGES,
        PERLINK => &[0, 2016],
        _ => &[],
    }
}

/// What should occur of a call that is lent what it fills, with known calls.
pub fn due(known: &Known, op: u64) -> Vec<String> {
    if !known.has(op) {
        return Vec::new();
    }
    let mut due: Vec<String> = rooms(op).map(|(_, name)| name).to_vec();
    due.extend(edge_counts(op).iter().map(|&m| edges(m)));
    due.push(OTHER_COUNT.to_string());
    if op == PERLINK {
        due.extend([NO_ENTRIES, BESIDE].map(String::from));
    }
    let readers = WRITERS.iter().filter(|(writer, _)| *writer == op);
    let known = readers.filter(|(_, reader)| known.has(*reader));
    due.extend(known.map(|_| READ_BACK.to_string()));
    due
}

/// What occurs of it in a line of the call with some refusal number.
pub fn met(step: &Step, op: u64, refusal: u8) -> Vec<String> {
    let mut met = Vec::new();
    let (m, lent) = (step.m(), lent(step.line));
    if ![NOT_VALID, WEIGHTED].contains(&refusal) {
        let due = filled_length(op, step.n(), m, step.is_weighted());
        let room = lent.len() as i64 - due as i64;
        let named = rooms(op).into_iter().filter(|(known, _)| *known == room);
        met.extend(named.map(|(_, name)| name));
    }
    if refusal == 0 {
        met.extend(edge_counts(op).contains(&m).then(|| edges(m)));
        let is_other = step.after.count != true_count(&step.after);
        met.extend(is_other.then(|| OTHER_COUNT.to_string()));
    }
    if (op, refusal) == (PERLINK, 0) {
        met.extend(met_by_table(&lent, m).map(String::from));
    }
    met
}

/// What occurs of it in a table that is filled for m edges.
fn met_by_table(table: &[u64], m: usize) -> Option<&'static str> {
    let uncrossed = table.iter().take(m).filter(|&&number| number == 0).count();
    match (table.len(), uncrossed) {
        (0, _) => Some(NO_ENTRIES),
        (_, some) if 0 < some && some < m => Some(BESIDE),
        _ => None,
    }
}

fn edges(m: usize) -> String {
    format!("{m} edges")
}
