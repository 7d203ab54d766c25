//! What occurs of best places in accepted sifts, and of last rounds in accepted
//! settlings.

use crate::followed::Step;
use crate::make::ops::{Known, SETTLE, SIFT};
use crate::sifted::{answers, is_again};

const ONE_VERTEX: &str = "one vertex, no place";
const TWO_VERTICES: &str = "two vertices, one place";
const MOVED_TO_ONE: &str = "moved, one place best";
const MOVED_TO_FIRST: &str = "moved, several places best";
const STAYED_IN_ONE: &str = "stayed, one place best of several";
const STAYED: &str = "stayed, several places best, but not all";
const FREE: &str = "three vertices or more, every place best";

pub const AGAIN: &str = "again behind a move";

const SIFTS: [&str; 8] = [
    ONE_VERTEX,
    TWO_VERTICES,
    MOVED_TO_ONE,
    MOVED_TO_FIRST,
    STAYED_IN_ONE,
    STAYED,
    FREE,
    AGAIN,
];

const SETTLED: &str = "the last round moved nothing";
const LIMIT_REACHED: &str = "limit reached, the last round moved something";

const SETTLES: [&str; 2] = [SETTLED, LIMIT_REACHED];

/// What should occur of sifts with known calls.
pub fn due(known: &Known) -> &'static [&'static str] {
    if known.has(SIFT) {
        &SIFTS
    } else {
        &[]
    }
}

/// What should occur of settlings with known calls.
pub fn due_of_settles(known: &Known) -> &'static [&'static str] {
    if known.has(SETTLE) {
        &SETTLES
    } else {
        &[]
    }
}

/// What occurs of it in a line of an accepted `sift`.
pub fn met(step: &Step) -> Option<&'static str> {
    let found = answers(step.line)?;
    let optima = found.optima as usize;
    Some(match (step.n(), found.saving > 0) {
        (1, _) => ONE_VERTEX,
        (2, _) => TWO_VERTICES,
        (_, true) if optima == 1 => MOVED_TO_ONE,
        (_, true) => MOVED_TO_FIRST,
        (_, false) if optima == 1 => STAYED_IN_ONE,
        (n, false) if optima + 1 == n => FREE,
        (_, false) => STAYED,
    })
}

/// What occurs of it in a line of an accepted `settle`.
pub fn met_by_settle(step: &Step) -> Option<&'static str> {
    let found = answers(step.line)?;
    Some(if found.settled {
        SETTLED
    } else {
        LIMIT_REACHED
    })
}

/// Whether the vertex that the line before moved is sifted again.
pub fn is_again_behind_a_move(last: &Step, step: &Step) -> bool {
    is_again(last, step) && answers(last.line).is_some_and(|first| first.saving > 0)
}

#[cfg(test)]
mod tests {
    use super::*;
    use crate::followed::steps;
    use crate::make::charts::Chart;
    use crate::make::graph::{all_pairs, vertices, Edge, Graph};
    use crate::make::records;
    use crate::naive::play::play;

    /// What occurs in two calls on vertices in rising order: in each, and
    /// whether the second one sifts again behind a move.
    fn sorts(n: usize, edges: &[Edge], calls: [[u64; 4]; 2]) -> (Vec<Option<&'static str>>, bool) {
        let (edges, order) = (edges.to_vec(), vertices(n));
        let chart = records::chart(&Chart::of(&Graph::of(edges, order)).bytes());
        let list = [chart, calls.map(records::bytes).concat()].concat();
        let lines = play(&list);
        let steps: Vec<Step> = steps(&list, &lines).skip(1).collect();
        let met = |step: &Step| match step.answer() {
            Some(("settle", 0)) => met_by_settle(step),
            _ => met(step),
        };
        let again = is_again_behind_a_move(&steps[0], &steps[1]);
        (steps.iter().map(met).collect(), again)
    }

    /// The same of a vertex that is sifted twice.
    fn sifted(n: usize, edges: &[Edge], u: u64) -> (Vec<&'static str>, bool) {
        let (met, again) = sorts(n, edges, [[SIFT, u, 0, 0]; 2]);
        (met.into_iter().flatten().collect(), again)
    }

    #[test]
    fn each_sort_of_sift_is_told() {
        let first = [(0, 2), (1, 3)];
        let square = [(0, 1), (0, 2), (1, 3), (2, 3)];
        assert_eq!(sifted(1, &[], 0), (vec![ONE_VERTEX; 2], false));
        assert_eq!(sifted(2, &[], 1), (vec![TWO_VERTICES; 2], false));
        assert_eq!(sifted(3, &[], 1), (vec![FREE; 2], false));
        assert_eq!(sifted(4, &all_pairs(4), 3), (vec![FREE; 2], false));
        assert_eq!(sifted(4, &first, 0), (vec![MOVED_TO_FIRST, STAYED], true));
        assert_eq!(
            sifted(4, &square, 0),
            (vec![MOVED_TO_ONE, STAYED_IN_ONE], true)
        );
        assert_eq!(sifted(4, &square, 4), (vec![], false));
    }

    #[test]
    fn another_call_or_vertex_is_not_sifted_again() {
        let first = [(0, 2), (1, 3)];
        let [one, other] = [[SIFT, 0, 0, 0], [SIFT, 1, 0, 0]];
        assert!(!sorts(4, &first, [one, other]).1);
        let settle = [SETTLE, 1, 0, 0];
        let due = [Some(LIMIT_REACHED), Some(SETTLED)];
        assert_eq!(sorts(4, &first, [settle; 2]), (due.to_vec(), false));
    }
}
