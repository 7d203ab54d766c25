//! Lays, compared with the crossings of what was laid, and with the rule before
//! Note 2 of document 02.

use crate::counted::true_count;
use crate::entries::Entry;
use crate::followed::Step;
use crate::make::ops::LAY;
use crate::naive::calls::{former_lay, Reply};
use crate::naive::layout::{isolated, Layout};

/// Whether the tally of an accepted lay is the crossings of what was laid,
/// counted pair by pair (document 02, Note 6).
pub fn check_tally(step: &Step) -> Result<(), String> {
    if step.answer() != Some(("lay", 0)) {
        return Ok(());
    }
    let crossings = true_count(&step.after).to_string();
    match step.line.split(' ').nth(2) {
        Some(tally) if tally == crossings => Ok(()),
        _ => Err(format!("{crossings} crossings were laid, another tally")),
    }
}

/// What a lay would have answered and left by the former rule; none where no
/// vertex but the start is isolated, so that the rules are the same.
pub fn formerly(step: &Step) -> Option<(Reply<u64>, Layout)> {
    let Entry::Record([LAY, start, ..]) = step.entry else {
        return None;
    };
    let isolated = isolated(&step.before);
    if isolated.iter().all(|&v| v as u64 == start) {
        return None;
    }
    let mut former = step.before.clone();
    let reply = former_lay(&mut former, start);
    Some((reply, former))
}

/// Whether the crossings and the tally of a lay are those of the former rule.
pub fn check_line(step: &Step) -> Result<(), String> {
    let Some(((refusal, tally), former)) = formerly(step) else {
        return Ok(());
    };
    let due = format!("lay {refusal} {tally} n ");
    if step.line.starts_with(&due) && step.after.count == former.count {
        Ok(())
    } else {
        Err(format!(
            "by the former rule the tally is {tally}, the count {}",
            former.count
        ))
    }
}

#[cfg(test)]
mod tests {
    use super::*;
    use crate::followed::{change_found, check_lines};
    use crate::make::charts::Chart;
    use crate::make::graph::{all_pairs, vertices, Graph};
    use crate::make::records;
    use crate::naive::play::play;

    /// All edges of five vertices, and three isolated ones, laid from one of
    /// these and from what isn't there; the answer lines too.
    fn laid_fives() -> (Vec<u8>, String) {
        let (edges, order) = (all_pairs(5), vertices(8));
        let chart = Chart::of(&Graph::of(edges, order)).bytes();
        let lays = [[LAY, 6, 0, 0], [LAY, 8, 0, 0]].map(records::bytes);
        let list = [records::chart(&chart), lays.concat()].concat();
        let lines = play(&list);
        (list, lines)
    }

    /// Two cliques of four vertices, each with weights of its own, and an isolated
    /// vertex: by number lay takes other ends.
    #[test]
    fn a_tally_by_number_is_found() {
        let mut edges = all_pairs(8);
        edges.retain(|(a, b)| (a < &4) == (b < &4));
        let weights = [[1, 2, 1, 2, 3, 1], [3; 6]].concat();
        let graph = Graph::of(edges, vertices(9)).with_weights(weights);
        let start = records::chart(&Chart::of(&graph).bytes());
        let list = [start, records::bytes([LAY, 2, 0, 0])].concat();
        let lines = play(&list);
        let laid = |check: fn(&Step) -> Result<(), String>| check_lines(&list, &lines, check);
        assert_eq!([check_tally, check_line].map(laid), [Ok(()), Ok(())]);
        for check in [check_tally, check_line] {
            change_found(&list, &lines, check, (2, "lay 0 10 n", "lay 0 2 n"));
        }
    }

    /// The crossings of what was laid are counted, whatever count is told; of a
    /// refused lay nothing is.
    #[test]
    fn a_tally_that_is_not_the_crossings_is_found() {
        let (list, lines) = laid_fives();
        assert_eq!(check_lines(&list, &lines, check_tally), Ok(()));
        for tally in ["lay 0 4 n", "lay 0 6 n", "lay 0 0 n"] {
            change_found(&list, &lines, check_tally, (2, "lay 0 5 n", tally));
        }
        let another = lines.replacen("lay 12 0 n", "lay 12 5 n", 1);
        assert_eq!(check_lines(&list, &another, check_tally), Ok(()));
    }

    #[test]
    fn another_tally_or_count_is_found() {
        let (list, lines) = laid_fives();
        assert_eq!(check_lines(&list, &lines, check_line), Ok(()));
        for change in [
            (2, "lay 0 5 n", "lay 0 4 n"),
            (
                2,
                "count 5 words weights\nlay 12",
                "count 6 words weights\nlay 12",
            ),
            (3, "lay 12 0 n", "lay 12 5 n"),
        ] {
            change_found(&list, &lines, check_line, change);
        }
    }
}
