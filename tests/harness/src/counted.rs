//! What the naive model still does where playing is too dear for it: it plays
//! single calls, each from the layout that a program printed, and counts the
//! crossings of what was printed.

use crate::difference::first_difference;
use crate::entries::Entry;
use crate::followed::Step;
use crate::label::Output;
use crate::make::ops::{ROUND, SETTLE};
use crate::naive::chart::read;
use crate::naive::layout::{crossings, edges, list, valid, weighted, Layout};
use crate::naive::play::play_from;

/// Whether a line is what the naive model prints from the layout before it, or
/// where that is too dear, shows what can be counted.
pub fn check_line(step: &Step) -> Result<(), String> {
    if is_dear(step) {
        return check_counts(step);
    }
    let due = play_from(step.before.clone(), &step.entry.list());
    let line = format!("{}\n", step.line);
    match first_difference(Output::Answers, due.as_bytes(), line.as_bytes()) {
        None => Ok(()),
        Some(found) => Err(format!(
            "naive model against what is printed\n{}",
            found.text()
        )),
    }
}

/// Whether a line is that of an accepted round or settling; one that the naive
/// model refuses isn't dear.
fn is_dear(step: &Step) -> bool {
    let sifts = matches!(
        step.entry,
        Entry::Record([ROUND, ..] | [SETTLE, 1..=1000, ..])
    );
    let accepted = step.answer().is_some_and(|(_, refusal)| refusal == 0);
    sifts && accepted && valid(&step.before)
}

/// Whether a call that sifts leaves a valid layout and its graph, changes the
/// carried count by crossings after less crossings before, and answers their
/// difference as its saving.
fn check_counts(step: &Step) -> Result<(), String> {
    let Step { before, after, .. } = step;
    if !valid(after) {
        return Err("accepted, but not valid".to_string());
    }
    if (after.n, after.words, after.weights) != (before.n, before.words, before.weights) {
        return Err("another graph than before".to_string());
    }
    let [had, has] = [before, after].map(true_count);
    if after.count.wrapping_sub(before.count) != has.wrapping_sub(had) {
        let (from, to) = (before.count, after.count);
        return Err(format!(
            "count from {from} to {to}, crossings from {had} to {has}"
        ));
    }
    let saving = had.wrapping_sub(has).to_string();
    if step.line.split(' ').nth(2) != Some(&saving) {
        return Err(format!("crossings from {had} to {has}, another saving"));
    }
    Ok(())
}

/// The crossings of a valid layout, whatever count it carries.
pub fn true_count(layout: &Layout) -> u64 {
    crossings(&list(layout), &weighted(layout))
}

/// Whether a listing has the edges and the crossings of its chart, and the
/// crossings of the order that it ends with.
pub fn check_listing(chart: &[u8], listing: &str) -> Result<(), String> {
    let (refusal, mut ring) = read(chart);
    if refusal != 0 {
        return Ok(());
    }
    let before = true_count(&ring);
    let order = listing
        .lines()
        .last()
        .unwrap_or_default()
        .split(' ')
        .skip(1);
    let order: Vec<u8> = order.filter_map(|word| word.parse().ok()).collect();
    if order.len() != ring.n as usize {
        return Err("an order of another length".to_string());
    }
    ring.order[..order.len()].copy_from_slice(&order);
    if !valid(&ring) {
        return Err("an order without some vertex".to_string());
    }
    let after = true_count(&ring);
    let (n, m) = (ring.n, edges(&ring).len());
    let due = format!("devices {n}\nlinks {m}\nbefore {before}\nafter {after}\nrounds ");
    if listing.starts_with(&due) {
        Ok(())
    } else {
        Err(format!(
            "{m} edges, crossings from {before} to {after} are due"
        ))
    }
}

#[cfg(test)]
mod tests {
    use super::*;
    use crate::followed::{change_found, changes_found, check_fours, check_lines, check_pairs};
    use crate::imported;
    use crate::make::charts::Chart;
    use crate::make::graph::{all_pairs, vertices, Graph};
    use crate::make::lists;
    use crate::make::ops::*;
    use crate::make::records;
    use crate::naive::list::listing;
    use crate::naive::play::play;
    use crate::sifted;
    use crate::written;

    /// Document 01's first ring.
    fn ring() -> Graph {
        Graph::of(vec![(0, 2), (1, 3)], vertices(4))
    }

    /// Its chart.
    fn square() -> Vec<u8> {
        Chart::of(&ring()).bytes()
    }

    /// The same with weights.
    fn heavy(weights: &[u8]) -> Vec<u8> {
        Chart::of(&ring().with_weights(weights)).bytes()
    }

    #[test]
    fn what_the_naive_model_prints_is_right() {
        let known = Known::all();
        for made in (0..40).map(|index| lists::list(7, index, &known)) {
            if made.naive {
                let lines = play(&made.bytes);
                let check = |step: &Step| {
                    check_line(step)?;
                    written::check_line(step)?;
                    imported::check_line(step)?;
                    sifted::check_line(step)
                };
                assert_eq!(check_lines(&made.bytes, &lines, check), Ok(()));
                let again = |last: &Step, step: &Step| {
                    sifted::check_again(last, step)?;
                    imported::check_again(last, step)
                };
                assert_eq!(check_pairs(&made.bytes, &lines, again), Ok(()));
                let alike = written::check_alike;
                assert_eq!(check_fours(&made.bytes, &lines, alike), Ok(()));
            }
        }
        assert_eq!(check_listing(&square(), &listing(&square())), Ok(()));
        assert_eq!(check_listing(&[], &listing(&[])), Ok(()));
    }

    /// Calls behind a chart, and what is printed. All of it is right.
    fn played(chart: &[u8], calls: &[Record]) -> (Vec<u8>, String) {
        let mut list = records::chart(chart);
        list.extend(calls.iter().flat_map(|&call| records::bytes(call)));
        let lines = play(&list);
        assert_eq!(check_lines(&list, &lines, check_line), Ok(()));
        (list, lines)
    }

    #[test]
    fn a_wrong_count_order_or_saving_is_found() {
        let (list, lines) = played(&square(), &[[SIFT, 0, 0, 0], [SETTLE, 9, 0, 0]]);
        for change in [
            (1, "count 1 words", "count 2 words"),
            (1, "words 0 4 1 8 2 1 3 2", "words 0 4 2 1"),
            (2, "sift 0 1 2 n", "sift 0 2 2 n"),
            (2, "sift 0 1 2 n", "sift 0 1 1 n"),
            (2, "order 1 0 2", "order 1 1 2"),
            (2, "order 1 0 2 3", "order 1 2 3 0"),
            (2, "count 0 words", "count 1 words"),
            (3, "settle 0 0", "settle 0 1"),
        ] {
            change_found(&list, &lines, check_line, change);
        }
        let (list, lines) = played(&square(), &[[SETTLE, 9, 0, 0]]);
        let changes = [
            (2, "settle 0 1", "settle 0 0", "another saving"),
            (2, "count 0 words", "count 1 words", "count from 1 to 1"),
            (2, "order 1 0 2", "order 1 1 2", "not valid"),
        ];
        changes_found(&list, &lines, check_line, &changes);
    }

    /// A count goes round at 2^64, not at 2^32, and by products.
    #[test]
    fn a_wrong_count_or_saving_by_weight_is_found() {
        let after = 9u64.wrapping_sub(510);
        let told = format!("count {after} words");
        for (op, saving, by_number) in [
            (SIFT, "sift 0 510 ", "sift 0 1 "),
            (ROUND, "round 0 510 ", "round 0 1 "),
        ] {
            let (list, lines) = played(&heavy(&[2, 255]), &[[SET_COUNT, 9, 0, 0], [op, 0, 0, 0]]);
            for (line, from, to) in [
                (1, "count 510 words", "count 1 words"),
                (1, "weights 0 2 2 1 3 255", "weights 0 2 2 1 3 254"),
                (2, saving, by_number),
                (2, &told, "count 4294966795 words"),
                (2, &told, "count 8 words"),
            ] {
                change_found(&list, &lines, check_line, (line, from, to));
            }
        }
    }

    /// All edges of four vertices: without weights no sift moves any.
    #[test]
    fn a_sift_by_number_is_found() {
        let four = Graph::of(all_pairs(4), vertices(4)).with_weights([1, 2, 1, 2, 3, 1]);
        let (list, lines) = played(&Chart::of(&four).bytes(), &[[SIFT, 0, 0, 0]]);
        for change in [
            (2, "sift 0 5 1 n", "sift 0 0 3 n"),
            (2, "sift 0 5 1 n", "sift 0 1 1 n"),
            (2, "order 1 2 0 3", "order 0 1 2 3"),
        ] {
            change_found(&list, &lines, check_line, change);
        }
    }

    /// All of these leave the crossings as they are.
    #[test]
    fn another_edit_than_is_called_for_is_found() {
        let edits = [
            [LINK, 0, 1, 256 + 7],
            [UNLINK, 1, 0, 0],
            [ADD, 0, 0, 0],
            [MOVE, 4, 1, 0],
        ];
        let (list, lines) = played(&square(), &edits);
        let linked = "words 0 6 1 9 weights 0 1 7 1 0 7";
        for change in [
            (2, linked, "words 0 6 1 9 weights 0 1 8 1 0 8"),
            (2, linked, "words 0 6 1 9 weights 0 1 1 1 0 1"),
            (2, linked, "words 2 9 3 6 weights 2 3 7 3 2 7"),
            (2, linked, "words weights"),
            (3, "words 0 4 1 8 weights 0 1 0 1 0 0", "words weights"),
            (4, "add 0 4 n", "add 0 5 n"),
            (4, "n 5 order 0 1 2 3 4", "n 4 order 0 1 2 3 0"),
            (5, "order 0 1 4 2 3", "order 0 4 1 2 3"),
            (5, "order 0 1 4 2 3", "order 1 4 2 3 0"),
        ] {
            change_found(&list, &lines, check_line, change);
        }
    }

    /// The edges 0-2 and 1-3 get each other's weight, or become 0-1 and 2-3, or a
    /// vertex is added. Behind a round and a settling none of it crosses.
    #[test]
    fn another_graph_behind_a_lay_or_sifting_is_found() {
        let weights = "words weights 0 2 3 1 3 2 2 0 3 3 1 2\n";
        let edges = "words 0 2 1 1 2 8 3 4 weights \
                     0 1 2 0 2 0 1 0 2 1 3 0 2 0 0 2 3 3 3 1 0 3 2 3\n";
        for op in [LAY, SIFT] {
            let (list, lines) = played(&heavy(&[2, 3]), &[[op, 1, 0, 0]]);
            for to in [weights, edges] {
                change_found(&list, &lines, check_line, (2, "words weights\n", to));
            }
        }
        for (op, start) in [(ROUND, "round 0 6"), (SETTLE, "settle 0 6")] {
            let (list, lines) = played(&heavy(&[2, 3]), &[[op, 1, 0, 0]]);
            let (four, five) = ("n 4 order 1 0 2 3 0", "n 5 order 1 0 2 3 4");
            let graph = "another graph";
            let changes = [
                (2, "words weights\n", weights, graph),
                (2, "words weights\n", edges, graph),
                (2, four, five, graph),
            ];
            assert!(lines.contains(start));
            changes_found(&list, &lines, check_line, &changes);
        }
    }

    #[test]
    fn a_refused_call_with_another_number_or_layout_is_found() {
        for (call, refused, other) in [
            ([LINK, 0, 2, 1], "link 14 n 4", "link 25 n 4"),
            ([LINK, 0, 1, 256], "link 25 n 4", "link 0 n 4"),
            ([UNLINK, 0, 1, 0], "unlink 15 n 4", "unlink 0 n 4"),
            ([MOVE, 4, 4, 0], "move 12 n 4", "move 13 n 4"),
            ([LAY, 4, 0, 0], "lay 12 0 n 4", "lay 0 1 n 4"),
            ([SIFT, 4, 0, 0], "sift 12 0 0 n 4", "sift 11 0 0 n 4"),
            ([SIFT, 4, 0, 0], "sift 12 0 0 n 4", "sift 12 0 1 n 4"),
            (
                [SETTLE, 0, 0, 0],
                "settle 17 0 0 no 0 n 4",
                "settle 0 0 1 yes 8 n 4",
            ),
            (
                [ORDER, 3, 7, 0],
                "order 18 buffer 7 7 7 n 4",
                "order 18 buffer 0 1 2 n 4",
            ),
        ] {
            let (list, lines) = played(&heavy(&[2, 3]), &[call]);
            let turned = format!("{refused} order 1 2 3 0");
            let order = format!("{refused} order 0 1 2 3");
            for (from, to) in [
                (refused, other),
                (&order, &turned),
                ("words weights\n", "words weights 0 2 3 1 3 2 2 0 3 3 1 2\n"),
                ("count 6 words weights\n", "count 0 words weights\n"),
            ] {
                change_found(&list, &lines, check_line, (2, from, to));
            }
        }
    }

    #[test]
    fn a_wrong_answer_of_a_call_that_reads_is_found() {
        let calls = [
            [COUNT, 0, 0, 0],
            [ORDER, 5, 7, 0],
            [PAIR, 0, 0, 0],
            [SET_N, 5, 0, 0],
            [ROUND, 0, 0, 0],
            [31, 0, 0, 0],
        ];
        let (list, lines) = played(&square(), &calls);
        for change in [
            (2, "count 0 1 n", "count 0 0 n"),
            (3, "buffer 0 1 2 3 7 n", "buffer 0 1 2 3 0 n"),
            (4, "pair 0 pair 0 2 1 3 n", "pair 0 none n"),
            (5, "round 11 0 0 0 n", "round 0 0 0 8 n"),
            (6, "end\n", "empty 0 n 5\n"),
        ] {
            change_found(&list, &lines, check_line, change);
        }
    }

    #[test]
    fn a_chart_refused_with_another_number_is_found() {
        for (weights, refused, other) in [
            (&[0][..], "chart 24 n", "chart 25 n"),
            (&[9, 0], "chart 25 n", "chart 24 n"),
            (&[9, 0], "chart 25 n", "chart 0 n"),
        ] {
            let (list, lines) = played(&heavy(weights), &[]);
            change_found(&list, &lines, check_line, (1, refused, other));
        }
    }

    #[test]
    fn a_wrong_listing_by_weight_is_found() {
        let heavy = heavy(&[2, 255]);
        let due = listing(&heavy);
        assert_eq!(check_listing(&heavy, &due), Ok(()));
        for wrong in ["before 1\n", "before 257\n"] {
            let wrong = due.replace("before 510\n", wrong);
            assert!(wrong != due && check_listing(&heavy, &wrong).is_err());
        }
    }

    #[test]
    fn a_wrong_listing_is_found() {
        let due = listing(&square());
        for (from, to) in [
            ("links 2", "links 3"),
            ("before 1", "before 0"),
            ("after 0", "after 1"),
            ("order 1 0", "order 0 1"),
            ("order 1 0", "order 1 1"),
            ("order 1 0", "order 1"),
        ] {
            let wrong = due.replace(from, to);
            assert!(check_listing(&square(), &wrong).is_err(), "{to}");
        }
    }
}
