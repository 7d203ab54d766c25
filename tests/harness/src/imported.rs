//! graph6 that programs imported, compared with what is due.

use crate::counted::true_count;
use crate::entries::Entry;
use crate::followed::Step;
use crate::make::ops::EXPORT;
use crate::naive::graph6::import;
use crate::naive::layout::{list, valid};
use crate::written::written;

/// Whether an accepted import leaves a valid layout in rising order with its
/// true crossings, and any import what the naive model makes of the graph6.
pub fn check_line(step: &Step) -> Result<(), String> {
    let Entry::Import(graph6) = step.entry else {
        return Ok(());
    };
    let after = &step.after;
    if is_accepted(step) {
        let rising = |layout| list(layout).into_iter().eq(0..step.n());
        if !valid(after) || !rising(after) {
            return Err("not valid or not in rising order".to_string());
        }
        let count = true_count(after);
        if after.count != count {
            return Err(format!("imported with another count than {count}"));
        }
    }
    let (refusal, due) = import(graph6);
    if step.line.starts_with(&format!("import {refusal} n ")) && *after == due {
        Ok(())
    } else {
        Err(format!(
            "the naive model imports another layout, with {refusal}"
        ))
    }
}

fn is_accepted(step: &Step) -> bool {
    step.answer() == Some(("import", 0))
}

/// The graph6 that was imported, and what an export behind it shows, where
/// both were accepted.
pub fn exported_again<'a>(last: &Step<'a>, step: &Step) -> Option<(&'a [u8], Vec<u8>)> {
    let (Entry::Import(graph6), Entry::Record([EXPORT, ..])) = (&last.entry, &step.entry) else {
        return None;
    };
    let goes_on = is_accepted(last) && last.after == step.before;
    let exported = written(step.line).filter(|_| goes_on)?;
    Some((graph6, exported))
}

/// Whether an export behind an accepted import gives every byte back.
pub fn check_again(last: &Step, step: &Step) -> Result<(), String> {
    match exported_again(last, step) {
        Some((imported, exported)) if imported != exported => {
            Err("not the graph6 that was imported".to_string())
        }
        _ => Ok(()),
    }
}

#[cfg(test)]
mod tests {
    use super::*;
    use crate::followed::{changes_found, check_lines, check_pairs};
    use crate::make::ops::{COUNT, SET_COUNT};
    use crate::make::records;
    use crate::naive::play::play;

    /// Document 01's first ring and one that is refused, each exported.
    fn both() -> (Vec<u8>, String) {
        let calls = [[EXPORT, 3, 7, 0], [COUNT, 0, 0, 0]].map(records::bytes);
        let starts = [&b"CQ"[..], b"DQd"].map(records::import);
        let list = starts.map(|start| [start, calls.concat()].concat());
        let list = list.concat();
        let lines = play(&list);
        (list, lines)
    }

    #[test]
    fn a_wrong_import_is_found() {
        let (list, lines) = both();
        assert_eq!(check_lines(&list, &lines, check_line), Ok(()));
        let first = "import 0 n 4 order 0 1 2 3";
        let changes = [
            (1, first, "import 0 n 4 order 0 2 1 3", "rising order"),
            (1, first, "import 0 n 4 order 0 1 2 2", "rising order"),
            (1, first, "import 0 n 3 order 0 1 2 0", "rising order"),
            (1, first, "import 22 n 4 order 0 1 2 3", "another layout"),
            (1, "count 1 words", "count 0 words", "another count than 1"),
            (
                1,
                "count 1 words 0 4 1 8 2 1 3 2 weights 0 2 1 1 3 1 2 0 1 3 1 1",
                "count 0 words 0 8 3 1 weights 0 3 1 3 0 1",
                "another layout",
            ),
            (
                1,
                "count 1 words 0 4 1 8 2 1 3 2 weights 0 2 1 1 3 1 2 0 1 3 1 1",
                "count 2 words 0 4 1 8 2 1 3 2 weights 0 2 2 1 3 1 2 0 2 3 1 1",
                "another layout",
            ),
            (1, "weights 0 2 1", "weights 0 2 2", "rising order"),
            (1, "weights 0 2 1 1 3 1", "weights 0 2 1", "rising order"),
            (
                4,
                "import 22 n 0",
                "import 21 n 0",
                "another layout, with 22",
            ),
            (
                4,
                "import 22 n 0",
                "import 22 n 5",
                "another layout, with 22",
            ),
        ];
        changes_found(&list, &lines, check_line, &changes);
    }

    #[test]
    fn another_byte_behind_an_accepted_import_is_found() {
        let (list, lines) = both();
        let checked = |lines: &str| check_pairs(&list, lines, check_again);
        assert_eq!(checked(&lines), Ok(()));
        for to in ["buffer 67 82", "buffer 68 81", "buffer 67 80"] {
            let wrong = lines.replacen("buffer 67 81", to, 1);
            assert_eq!(checked(&wrong).expect_err(to).0, 2);
        }
        let shorter = lines.replacen("export 0 2", "export 0 1", 1);
        assert_eq!(checked(&shorter).expect_err("a byte less").0, 2);
        let refused = lines.replacen("export 0 1 buffer 63", "export 0 1 buffer 64", 1);
        assert_ne!(refused, lines);
        assert_eq!(checked(&refused), Ok(()));
    }

    #[test]
    fn what_is_changed_between_is_not_exported_again() {
        let calls = [[SET_COUNT, 7, 0, 0], [EXPORT, 2, 0, 0]].map(records::bytes);
        let list = [records::import(b"CQ"), calls.concat()].concat();
        let lines = play(&list).replace("buffer 67 81", "buffer 67 82");
        assert_eq!(check_pairs(&list, &lines, check_again), Ok(()));
    }
}
