//! Charts and graph6 that programs wrote, read back, and tables that they
//! filled, all compared with what is due.

use crate::counted::true_count;
use crate::entries::Entry;
use crate::followed::{lent, Step};
use crate::make::ops::{EXPORT, PERLINK, WRITE};
use crate::naive::chart::read;
use crate::naive::graph6::import;
use crate::naive::layout::{edges, valid, Layout};
use crate::naive::play::{export, perlink, write};

/// Whether what was written is read as the layout that the line shows, a graph6
/// in rising order, with its true crossings; whether the crossings of the edges
/// add up to twice those of the layout; and whether a line of `write`, `export`
/// or `perlink`, accepted or not, is the naive model's for the layout before it.
pub fn check_line(step: &Step) -> Result<(), String> {
    let due = match step.entry {
        Entry::Record([WRITE, length, fill, _]) => write(&step.before, length, fill),
        Entry::Record([EXPORT, length, fill, _]) => export(&step.before, length, fill),
        Entry::Record([PERLINK, length, fill, _]) => perlink(&step.before, length, fill),
        _ => return Ok(()),
    };
    if let Some(bytes) = written(step.line) {
        check_read_back(&step.entry, &bytes, &step.after)?;
    }
    if let Some(numbers) = filled(step.line, &["perlink"]) {
        check_sum(&numbers, &step.after)?;
    }
    if step.line.starts_with(&(due + " n ")) && step.before == step.after {
        Ok(())
    } else {
        Err("not what the naive model writes".to_string())
    }
}

fn check_read_back(entry: &Entry, bytes: &[u8], layout: &Layout) -> Result<(), String> {
    let (what, (refusal, read), due) = match entry {
        Entry::Record([EXPORT, ..]) => ("graph6", import(bytes), in_rising_order(layout)),
        _ => ("chart", read(bytes), layout.clone()),
    };
    if refusal != 0 {
        return Err(format!("the {what} that is written gets refusal {refusal}"));
    }
    let count = true_count(&read);
    if read == (Layout { count, ..due }) {
        Ok(())
    } else {
        Err(format!(
            "the {what} that is written is read as another layout"
        ))
    }
}

/// Whether there is a number for each edge of a layout, and they add up to twice
/// its crossings.
fn check_sum(numbers: &[u64], layout: &Layout) -> Result<(), String> {
    if !valid(layout) {
        return Err("accepted, but not valid".to_string());
    }
    let (m, crossings) = (edges(layout).len(), true_count(layout));
    let sum: u128 = numbers.iter().map(|&number| u128::from(number)).sum();
    if numbers.len() == m && sum == 2 * u128::from(crossings) {
        Ok(())
    } else {
        Err(format!(
            "{m} edges with {crossings} crossings, but {} entries with the sum {sum}",
            numbers.len()
        ))
    }
}

fn in_rising_order(layout: &Layout) -> Layout {
    let mut rising = layout.clone();
    for (v, place) in (0..layout.n).zip(&mut rising.order) {
        *place = v as u8;
    }
    rising
}

/// What an accepted `write` or `export` shows that it wrote.
pub fn written(line: &str) -> Option<Vec<u8>> {
    let bytes = filled(line, &["write", "export"])?;
    Some(bytes.into_iter().map(|byte| byte as u8).collect())
}

/// What an accepted call with one of some names shows that it filled.
fn filled(line: &str, names: &[&str]) -> Option<Vec<u64>> {
    let words: Vec<&str> = line.splitn(4, ' ').collect();
    let [name, "0", length, _] = words[..] else {
        return None;
    };
    let is_named = names.contains(&name);
    let entries = is_named.then(|| lent(line))?;
    let filled = entries.get(..length.parse().ok()?)?;
    Some(filled.to_vec())
}

/// Whether a line starts from what the line before it wrote.
pub fn is_read_back(last: &Step, step: &Step) -> bool {
    let Some(bytes) = written(last.line) else {
        return false;
    };
    match last.entry {
        Entry::Record([WRITE, ..]) => step.entry == Entry::Chart(&bytes),
        _ => step.entry == Entry::Import(&bytes),
    }
}

/// The charts of two starts, if four lines in a row start from one, write it,
/// start from another of the same layout, and write that.
pub fn alike<'a>(four: &[Step<'a>]) -> Option<(&'a [u8], &'a [u8])> {
    let [first, one_written, second, other_written] = four else {
        return None;
    };
    let (Entry::Chart(one), Entry::Chart(other)) = (&first.entry, &second.entry) else {
        return None;
    };
    let goes_on = first.after == one_written.before && second.after == other_written.before;
    let both_written = [one_written, other_written]
        .iter()
        .all(|step| step.answer() == Some(("write", 0)));
    let [one_read, other_read] = [one, other].map(|chart| read(chart));
    let same = one_read == other_read && one_read.0 == 0;
    (goes_on && both_written && same).then_some((*one, *other))
}

/// Whether two charts of the same layout, however they list their edges and
/// whether they have weights of 1 or none, are written alike.
pub fn check_alike(four: &[Step]) -> Result<(), String> {
    if alike(four).is_none() || written(four[1].line) == written(four[3].line) {
        Ok(())
    } else {
        Err("another chart than that written of the same layout before".to_string())
    }
}

#[cfg(test)]
mod tests {
    use super::*;
    use crate::followed::{changes_found, check_fours, check_lines, steps};
    use crate::make::charts::Chart;
    use crate::make::graph::{Edge, Graph};
    use crate::make::ops::{MOVE, SET_COUNT, SET_N};
    use crate::make::records;
    use crate::naive::play::play;

    /// Document 01's first ring with another count, written into 17 bytes and
    /// into 19, read back, and spoilt.
    fn list() -> Vec<u8> {
        let (edges, order) = (vec![(3, 1), (0, 2)], vec![0, 1, 2, 3]);
        let start = records::chart(&Chart::of(&Graph::of(edges, order)).bytes());
        let sorted = [
            0x44, 0, 1, 4, 0x4C, 0, 4, 0, 2, 1, 3, 0x52, 0, 4, 0, 1, 2, 3,
        ];
        let calls = [[SET_COUNT, 9, 0, 0], [WRITE, 17, 6, 0], [WRITE, 19, 7, 0]];
        let spoilt = [[SET_N, 5, 0, 0], [WRITE, 19, 8, 0]];
        [
            start,
            calls.map(records::bytes).concat(),
            records::chart(&sorted),
            spoilt.map(records::bytes).concat(),
        ]
        .concat()
    }

    /// The same, moved and exported into 1 byte and into 3, imported, and spoilt.
    fn list_of_graph6() -> Vec<u8> {
        let calls = [
            [SET_COUNT, 9, 0, 0],
            [MOVE, 0, 1, 0],
            [EXPORT, 1, 6, 0],
            [EXPORT, 3, 7, 0],
        ];
        let spoilt = [[SET_N, 5, 0, 0], [EXPORT, 3, 8, 0]];
        [
            records::import(b"CQ"),
            calls.map(records::bytes).concat(),
            records::import(b"CQ"),
            spoilt.map(records::bytes).concat(),
        ]
        .concat()
    }

    #[test]
    fn what_is_written_is_found_in_its_line_and_behind_it() {
        let found = |list: Vec<u8>| {
            let lines = play(&list);
            let steps: Vec<Step> = steps(&list, &lines).collect();
            let lengths: Vec<Option<usize>> = steps
                .iter()
                .map(|step| written(step.line).map(|bytes| bytes.len()))
                .collect();
            let mut pairs = steps.windows(2);
            let back = pairs.position(|pair| is_read_back(&pair[0], &pair[1]));
            (lengths, back)
        };
        let due = vec![None, None, Some(18), None, None];
        assert_eq!(found(list()), (due, Some(2)));
        let due = vec![None, None, None, Some(2), None, None];
        assert_eq!(found(list_of_graph6()), (due, Some(3)));
    }

    #[test]
    fn a_wrong_graph6_buffer_or_layout_is_found() {
        let (list, lines) = (list_of_graph6(), play(&list_of_graph6()));
        assert_eq!(check_lines(&list, &lines, check_line), Ok(()));
        let due = "export 0 2 buffer 67 81 7 n 4 order 1 0 2 3";
        assert!(lines.contains(due));
        let changes = [
            (
                3,
                "export 19 0 buffer 6",
                "export 19 0 buffer 5",
                "not what",
            ),
            (3, "export 19 0", "export 19 1", "not what"),
            (3, "export 19 0", "export 18 0", "not what"),
            (4, "67 81 7 n", "67 82 7 n", "another layout"),
            (4, "67 81 7 n", "67 73 7 n", "another layout"),
            (4, "67 81 7 n", "68 81 7 n", "gets refusal 21"),
            (4, "67 81 7 n", "66 81 7 n", "gets refusal 22"),
            (4, "67 81 7 n", "62 81 7 n", "gets refusal 20"),
            (4, "67 81 7 n", "67 81 6 n", "not what"),
            (4, "export 0 2", "export 0 3", "gets refusal 21"),
            (4, "export 0 2", "export 0 1", "gets refusal 21"),
            (4, "export 0 2", "export 0 4", "not what"),
            (4, "7 n 4 order 1 0 2 3", "7 n 4 order 0 1 2 3", "not what"),
            (6, "export 11 0", "export 19 0", "not what"),
        ];
        changes_found(&list, &lines, check_line, &changes);
    }

    /// Four vertices with the edges 0-1, 0-2 and 1-3 and another count than the
    /// true one, counted into 2 entries, into 3 and into 4, and spoilt.
    fn list_of_tables() -> Vec<u8> {
        let (edges, order) = (vec![(3, 1), (0, 2), (1, 0)], vec![0, 1, 2, 3]);
        let start = records::chart(&Chart::of(&Graph::of(edges, order)).bytes());
        let calls = [
            [SET_COUNT, 9, 0, 0],
            [PERLINK, 2, 6, 0],
            [PERLINK, 3, 8, 0],
            [PERLINK, 4, u64::MAX, 0],
            [SET_N, 5, 0, 0],
            [PERLINK, 3, 5, 0],
        ];
        [start, calls.map(records::bytes).concat()].concat()
    }

    #[test]
    fn a_wrong_table_or_number_of_edges_is_found() {
        let (list, lines) = (list_of_tables(), play(&list_of_tables()));
        assert_eq!(check_lines(&list, &lines, check_line), Ok(()));
        let exact = "3 table 0 1 1 n";
        let changes = [
            (2, "perlink 23 0", "perlink 23 2", "not what"),
            (2, "perlink 23 0", "perlink 19 0", "not what"),
            (2, "perlink 23 0", "perlink 0 2", "3 edges with 1 crossings"),
            (2, "0 table 6 6 n", "0 table 6 0 n", "not what"),
            (3, exact, "3 table 0 1 2 n", "but 3 entries with the sum 3"),
            (3, exact, "3 table 0 1 0 n", "but 3 entries with the sum 1"),
            (3, exact, "3 table 1 0 1 n", "not what"),
            (3, exact, "3 table 1 1 0 n", "not what"),
            (3, exact, "3 table 0 1 1 8 n", "not what"),
            (3, exact, "2 table 0 1 1 n", "but 2 entries with the sum 1"),
            (3, exact, "4 table 0 1 1 n", "not what"),
            (3, "perlink 0 3", "perlink 23 3", "not what"),
        ];
        changes_found(&list, &lines, check_line, &changes);
    }

    #[test]
    fn a_wrong_longer_table_or_layout_is_found() {
        let (list, lines) = (list_of_tables(), play(&list_of_tables()));
        let longer = "3 table 0 1 1 18446744073709551615 n";
        assert!(lines.contains(longer));
        let changes = [
            (4, longer, "3 table 0 1 1 0 n", "not what"),
            (4, longer, "3 table 0 1 1 n", "not what"),
            (
                4,
                longer,
                "4 table 0 1 1 0 n",
                "but 4 entries with the sum 2",
            ),
            (
                4,
                "551615 n 4 order 0 1",
                "551615 n 4 order 1 0",
                "with 0 crossings",
            ),
            (4, "551615 n 4", "551615 n 3", "not valid"),
            (
                4,
                "count 9 words weights\nperlink 11",
                "count 1 words weights\nperlink 11",
                "not what",
            ),
            (5, "perlink 11 0", "perlink 23 0", "not what"),
            (5, "table 5 5 5 n", "table 0 1 1 n", "not what"),
        ];
        changes_found(&list, &lines, check_line, &changes);
    }

    #[test]
    fn a_wrong_chart_buffer_or_layout_is_found() {
        let (list, lines) = (list(), play(&list()));
        assert_eq!(check_lines(&list, &lines, check_line), Ok(()));
        let changes = [
            (2, "write 19 0 buffer 6", "write 19 0 buffer 5", "not what"),
            (2, "write 19 0", "write 19 1", "not what"),
            (2, "write 19 0", "write 18 0", "not what"),
            (3, "82 0 4 0 1 2 3 7", "82 0 4 0 1 2 2 7", "gets refusal 8"),
            (3, "82 0 4 0 1 2 3 7", "82 0 4 0 1 3 2 7", "another layout"),
            (3, "76 0 4 0 2 1 3", "76 0 4 0 1 2 3", "another layout"),
            (3, "76 0 4 0 2 1 3", "76 0 4 1 3 0 2", "not what"),
            (3, "76 0 4 0 2 1 3", "76 0 4 0 2 3 1", "not what"),
            (3, "82 0 4 0 1 2 3 7", "82 0 4 0 1 2 3 6", "not what"),
            (3, "write 0 18", "write 0 19", "gets refusal 2"),
            (3, "write 0 18", "write 0 17", "gets refusal 2"),
            (3, "write 0 18", "write 0 20", "not what"),
            (
                3,
                "count 9 words weights\nchart",
                "count 1 words weights\nchart",
                "not what",
            ),
            (5, "write 11 0", "write 19 0", "not what"),
        ];
        changes_found(&list, &lines, check_line, &changes);
    }

    /// Document 01's first ring with the weights 2 and 3, listed in two ways and
    /// written each time; the crossings of its edges counted; and exported.
    fn list_of_weights() -> Vec<u8> {
        let listed = |edges: [Edge; 2], weights: [u8; 2]| {
            let graph = Graph::of(edges.to_vec(), vec![0, 1, 2, 3]).with_weights(weights);
            records::chart(&Chart::of(&graph).bytes())
        };
        let write = records::bytes([WRITE, 23, 7, 0]);
        let calls = [[PERLINK, 3, 8, 0], [EXPORT, 2, 7, 0], [EXPORT, 1, 7, 0]];
        [
            listed([(3, 1), (0, 2)], [3, 2]),
            write.clone(),
            listed([(2, 0), (3, 1)], [2, 3]),
            write,
            calls.map(records::bytes).concat(),
        ]
        .concat()
    }

    #[test]
    fn wrong_weights_and_numbers_by_weight_are_found() {
        let (list, lines) = (list_of_weights(), play(&list_of_weights()));
        assert_eq!(check_lines(&list, &lines, check_line), Ok(()));
        let (weights, table) = ("87 0 2 2 3 n", "2 table 6 6 8 n");
        assert!(lines.contains(weights) && lines.contains(table));
        let changes = [
            (2, weights, "87 0 2 3 2 n", "another layout"),
            (2, weights, "87 0 2 2 2 n", "another layout"),
            (2, weights, "87 0 2 2 0 n", "gets refusal 25"),
            (2, weights, "87 0 1 2 3 n", "gets refusal 2"),
            (2, "write 0 23", "write 0 18", "another layout"),
            (5, table, "2 table 1 1 8 n", "with 6 crossings"),
            (5, table, "2 table 5 5 8 n", "with 6 crossings"),
            (5, table, "2 table 4 8 8 n", "not what"),
            (6, "export 26 0", "export 0 2", "gets refusal 20"),
            (6, "export 26 0", "export 19 0", "not what"),
            (
                7,
                "export 26 0 buffer 7 n",
                "export 19 0 buffer 7 n",
                "not what",
            ),
        ];
        changes_found(&list, &lines, check_line, &changes);
    }

    #[test]
    fn the_same_layout_written_otherwise_is_found() {
        let (list, lines) = (list_of_weights(), play(&list_of_weights()));
        assert_eq!(check_fours(&list, &lines, check_alike), Ok(()));
        let last = lines.rfind("write 0 23").expect("a write");
        for (from, to) in [("87 0 2 2 3", "87 0 2 3 2"), ("0 2 1 3", "1 3 0 2")] {
            let wrong = [&lines[..last], &lines[last..].replacen(from, to, 1)].concat();
            assert_ne!(wrong, lines, "{from}");
            let (line, text) = check_fours(&list, &wrong, check_alike).expect_err(to);
            assert_eq!(line, 4, "{text}");
        }
        let other = lines.replacen("write 0 23", "write 19 0", 1);
        assert_eq!(check_fours(&list, &other, check_alike), Ok(()));
    }
}
