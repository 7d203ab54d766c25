//! What sift, round and settle answer of best places (document 02, Note 3),
//! checked in every list.

use std::ops::RangeInclusive;

use crate::entries::Entry;
use crate::followed::Step;
use crate::make::density::possible;
use crate::make::ops::{ROUND, SETTLE, SIFT};
use crate::naive::layout::{isolated, weighted, Layout};

/// What an accepted call that sifts answers.
#[derive(Debug, PartialEq)]
pub struct Answers {
    pub saving: u64,
    /// The rounds run; 1 where the call doesn't answer them.
    pub rounds: u32,
    /// Whether it says `yes`.
    pub settled: bool,
    /// How many places are best, summed over the sifts.
    pub optima: u32,
}

/// The answers in a line of an accepted call that sifts.
pub fn answers(line: &str) -> Option<Answers> {
    let words: Vec<&str> = line.split(' ').take_while(|&word| word != "n").collect();
    let (saving, rounds, settled, optima) = match words[..] {
        ["sift", "0", saving, optima] => (saving, "1", false, optima),
        ["round", "0", saving, _, optima] => (saving, "1", false, optima),
        ["settle", "0", saving, rounds, "yes", optima] => (saving, rounds, true, optima),
        ["settle", "0", saving, rounds, "no", optima] => (saving, rounds, false, optima),
        _ => return None,
    };
    Some(Answers {
        saving: saving.parse().ok()?,
        rounds: rounds.parse().ok()?,
        settled,
        optima: optima.parse().ok()?,
    })
}

/// Whether a refused call that sifts answers nothing, and an accepted one as
/// many best places as there can be.
pub fn check_line(step: &Step) -> Result<(), String> {
    let (Entry::Record([op, ..]), Some((name, refusal))) = (&step.entry, step.answer()) else {
        return Ok(());
    };
    let nothing = match *op {
        SIFT => "0 0",
        ROUND => "0 0 0",
        SETTLE => "0 0 no 0",
        _ => return Ok(()),
    };
    let refused = format!("{name} {refusal} {nothing} n ");
    match refusal {
        0 => check_accepted(step),
        _ if step.line.starts_with(&refused) => Ok(()),
        _ => Err(format!("refused, but not with {nothing}")),
    }
}

fn check_accepted(step: &Step) -> Result<(), String> {
    let answers = answers(step.line).ok_or("other answers than are due")?;
    let due = possible_optima(step, answers.rounds);
    if due.contains(&answers.optima.into()) {
        Ok(())
    } else {
        let (least, most) = due.into_inner();
        Err(format!("{least} to {most} best places are due"))
    }
}

/// How many places can be best in so many rounds: for each sift one or more,
/// for an isolated vertex, and where all edges are there and weigh the same,
/// every place.
fn possible_optima(step: &Step, rounds: u32) -> RangeInclusive<u64> {
    let n = step.n();
    let free = if is_even(&step.before) {
        (0..n).collect()
    } else {
        isolated(&step.before)
    };
    let (sifts, free) = match step.entry {
        Entry::Record([SIFT, u, ..]) => (1, usize::from(free.contains(&(u as usize)))),
        _ => (n, free.len()),
    };
    let places = n.saturating_sub(1);
    let of_each_round = [sifts - free + free * places, sifts * places];
    let [least, most] = of_each_round.map(|optima| u64::from(rounds) * optima as u64);
    least..=most
}

/// Whether a layout has all edges, and they all have one weight.
fn is_even(layout: &Layout) -> bool {
    let edges = weighted(layout);
    let even = edges.windows(2).all(|two| two[0].1 == two[1].1);
    even && edges.len() == possible(layout.n as usize)
}

/// Whether a line sifts the vertex that the line before it sifted.
pub fn is_again(last: &Step, step: &Step) -> bool {
    let sifts = matches!(step.entry, Entry::Record([SIFT, ..]));
    sifts && last.entry == step.entry && last.after == step.before
}

/// Whether a vertex that is sifted again saves nothing more and has as many
/// best places: its candidates are the same.
pub fn check_again(last: &Step, step: &Step) -> Result<(), String> {
    let (Some(first), Some(again)) = (answers(last.line), answers(step.line)) else {
        return Ok(());
    };
    if !is_again(last, step) || (again.saving, again.optima) == (0, first.optima) {
        Ok(())
    } else {
        let due = first.optima;
        Err(format!(
            "sifted again, so saving 0, best places {due} are due"
        ))
    }
}

#[cfg(test)]
mod tests {
    use super::*;
    use crate::followed::{change_found, check_lines, check_pairs};
    use crate::make::charts::Chart;
    use crate::make::graph::{all_pairs, vertices, Edge, Graph};
    use crate::make::ops::{Record, SET_COUNT, SET_N};
    use crate::make::records;
    use crate::naive::play::play;

    /// Vertices in rising order.
    fn graph(n: usize, edges: &[Edge]) -> Graph {
        Graph::of(edges.to_vec(), vertices(n))
    }

    /// The same with weights.
    fn heavy(n: usize, edges: &[Edge], weights: &[u8]) -> Graph {
        graph(n, edges).with_weights(weights)
    }

    /// Calls on a graph, and what is printed.
    fn played(graph: &Graph, calls: &[Record]) -> (Vec<u8>, String) {
        let mut list = records::chart(&Chart::of(graph).bytes());
        list.extend(calls.iter().flat_map(|&call| records::bytes(call)));
        let lines = play(&list);
        (list, lines)
    }

    /// Document 01's first ring.
    const FIRST: [Edge; 2] = [(0, 2), (1, 3)];

    const CALLS: [Record; 3] = [[SIFT, 0, 0, 0], [ROUND, 0, 0, 0], [SETTLE, 2, 0, 0]];

    #[test]
    fn answers_are_found_in_their_lines() {
        let found = |line| {
            let found = answers(line)?;
            Some((found.saving, found.rounds, found.settled, found.optima))
        };
        assert_eq!(found("sift 0 5 2 n 4 order"), Some((5, 1, false, 2)));
        assert_eq!(found("round 0 5 1 8 n 4 order"), Some((5, 1, false, 8)));
        assert_eq!(found("settle 0 5 3 yes 24 n 4"), Some((5, 3, true, 24)));
        assert_eq!(found("settle 0 5 3 no 24 n 4"), Some((5, 3, false, 24)));
        for line in [
            "sift 0 5 n 4",
            "sift 0 5 2 2 n 4",
            "sift 12 0 0 n 4",
            "round 0 5 1 n 4",
            "settle 0 5 3 yes n 4",
            "settle 0 5 3 24 n 4",
            "lay 0 5 2 n 4",
            "end",
        ] {
            assert_eq!(answers(line), None, "{line}");
        }
    }

    #[test]
    fn optima_that_cannot_be_are_found() {
        let (list, lines) = played(&graph(4, &FIRST), &CALLS);
        assert_eq!(check_lines(&list, &lines, check_line), Ok(()));
        for change in [
            (2, "sift 0 1 2 n", "sift 0 1 0 n"),
            (2, "sift 0 1 2 n", "sift 0 1 4 n"),
            (2, "sift 0 1 2 n", "sift 0 1 n"),
            (3, "round 0 0 0 8 n", "round 0 0 0 3 n"),
            (3, "round 0 0 0 8 n", "round 0 0 0 13 n"),
            (3, "round 0 0 0 8 n", "round 0 0 0 n"),
            (4, "settle 0 0 1 yes 8 n", "settle 0 0 1 yes 3 n"),
            (4, "settle 0 0 1 yes 8 n", "settle 0 0 1 yes 13 n"),
            (4, "settle 0 0 1 yes 8 n", "settle 0 0 3 yes 8 n"),
            (4, "settle 0 0 1 yes 8 n", "settle 0 0 1 8 n"),
        ] {
            change_found(&list, &lines, check_line, change);
        }
    }

    /// One less is found where every place is best: with all edges, without
    /// any, and for an isolated vertex beside others.
    #[test]
    fn fewer_optima_than_all_are_found() {
        let (list, lines) = played(&graph(4, &all_pairs(4)), &CALLS);
        for change in [
            (2, "sift 0 0 3 n", "sift 0 0 2 n"),
            (3, "round 0 0 0 12 n", "round 0 0 0 11 n"),
            (4, "settle 0 0 1 yes 12 n", "settle 0 0 1 yes 11 n"),
        ] {
            change_found(&list, &lines, check_line, change);
        }
        let (list, lines) = played(&graph(3, &[]), &CALLS);
        let change = (3, "round 0 0 0 6 n", "round 0 0 0 5 n");
        change_found(&list, &lines, check_line, change);
        let (list, lines) = played(&graph(5, &FIRST), &[[SIFT, 4, 0, 0]]);
        let change = (2, "sift 0 0 4 n", "sift 0 0 3 n");
        change_found(&list, &lines, check_line, change);
        let (list, lines) = played(&heavy(4, &all_pairs(4), &[7; 6]), &CALLS);
        let change = (3, "round 0 0 0 12 n", "round 0 0 0 11 n");
        change_found(&list, &lines, check_line, change);
        for (n, change) in [
            (1, (2, "sift 0 0 0 n", "sift 0 0 1 n")),
            (1, (3, "round 0 0 0 0 n", "round 0 0 0 1 n")),
            (2, (2, "sift 0 0 1 n", "sift 0 0 0 n")),
            (2, (2, "sift 0 0 1 n", "sift 0 0 2 n")),
        ] {
            let (list, lines) = played(&graph(n, &[]), &CALLS);
            change_found(&list, &lines, check_line, change);
        }
        let (list, lines) = played(&graph(0, &[]), &CALLS);
        let change = (4, "settle 0 0 1 yes 0 n", "settle 0 0 1 yes 1 n");
        change_found(&list, &lines, check_line, change);
    }

    /// With all edges, but of several weights, one place may be best.
    #[test]
    fn one_best_place_of_several_weights_is_not_too_few() {
        let four = heavy(4, &all_pairs(4), &[1, 2, 1, 2, 3, 1]);
        let (list, lines) = played(&four, &CALLS);
        assert!(lines.contains("sift 0 5 1 n"));
        assert_eq!(check_lines(&list, &lines, check_line), Ok(()));
    }

    #[test]
    fn an_answer_of_a_refused_call_is_found() {
        let refused = [
            [SIFT, 4, 0, 0],
            [SETTLE, 0, 0, 0],
            [SET_N, 5, 0, 0],
            [ROUND, 0, 0, 0],
        ];
        let (list, lines) = played(&graph(4, &FIRST), &refused);
        assert_eq!(check_lines(&list, &lines, check_line), Ok(()));
        for change in [
            (2, "sift 12 0 0 n", "sift 12 0 2 n"),
            (2, "sift 12 0 0 n", "sift 12 0 n"),
            (3, "settle 17 0 0 no 0 n", "settle 17 0 0 no 8 n"),
            (3, "settle 17 0 0 no 0 n", "settle 17 0 0 yes 0 n"),
            (4, "round 11 0 0 0 n", "round 11 0 0 8 n"),
        ] {
            change_found(&list, &lines, check_line, change);
        }
    }

    /// Whether a vertex is sifted again is told by the record and the layout.
    #[test]
    fn a_vertex_that_is_sifted_again_has_the_same_optima() {
        let calls = [
            [SIFT, 0, 0, 0],
            [SIFT, 0, 0, 0],
            [SIFT, 1, 0, 0],
            [SET_COUNT, 7, 0, 0],
            [SIFT, 1, 0, 0],
        ];
        let (list, lines) = played(&graph(4, &FIRST), &calls);
        let first = lines.replacen("sift 0 1 2 n", "sift 0 1 3 n", 1);
        let again = |wrong: &str| lines.replacen("sift 0 0 2 n", wrong, 1);
        let checked = |lines: &str| check_pairs(&list, lines, check_again);
        assert_eq!(checked(&lines), Ok(()));
        for wrong in [&first, &again("sift 0 0 1 n"), &again("sift 0 1 2 n")] {
            let (line, text) = checked(wrong).expect_err(wrong);
            assert_eq!(line, 3, "{text}");
        }
        let last = lines.rfind("sift 0 0 2").expect("a sift");
        let other = [&lines[..last], &lines[last..].replacen("0 2", "0 1", 1)].concat();
        assert_eq!(checked(&other), Ok(()));
    }
}
