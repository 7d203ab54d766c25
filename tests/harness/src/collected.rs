//! The graphs of the collections, compared with nauty's own reading of them.

use crate::followed::{numbers, steps, Step};
use crate::make::collections::{Collected, Collection};
use crate::naive::layout::weighted;

/// Whether each graph of a file is imported with the vertices and the edges that
/// nauty reads in it, all of weight 1, and exported byte for byte as nauty wrote it. Tells the
/// first line, counted from 1, in which one is not.
pub fn check(file: &Collection, list: &[u8], lines: &str) -> Result<(), (usize, String)> {
    let steps: Vec<Step> = steps(list, lines).collect();
    for (i, (two, graph)) in steps.chunks(2).zip(file.graphs()).enumerate() {
        check_import(&two[0], &graph).map_err(|text| (2 * i + 1, text))?;
        check_export(&two[1], &graph).map_err(|text| (2 * i + 2, text))?;
    }
    Ok(())
}

fn check_import(step: &Step, graph: &Collected) -> Result<(), String> {
    let accepted = step.answer() == Some(("import", 0));
    let due = graph.edges.iter().map(|&edge| (edge, 1));
    if accepted && step.n() == graph.n && weighted(&step.after).into_iter().eq(due) {
        Ok(())
    } else {
        Err(format!("nauty reads other edges in {}", graph.graph6))
    }
}

/// The buffer held line ends before, one of which is left.
fn check_export(step: &Step, graph: &Collected) -> Result<(), String> {
    let start = format!("export 0 {} buffer ", graph.graph6.len());
    let buffer = numbers(step.line, " buffer ");
    let line = graph.graph6.bytes().chain([b'\n']);
    if step.line.starts_with(&start) && buffer.into_iter().eq(line.map(u64::from)) {
        Ok(())
    } else {
        Err(format!("nauty writes {}", graph.graph6))
    }
}

#[cfg(test)]
mod tests {
    use super::*;
    use crate::make::collections::COLLECTIONS;
    use crate::naive::play::play;

    #[test]
    fn the_naive_model_reads_and_writes_as_nauty_does() {
        for file in COLLECTIONS {
            let list = file.list();
            let lines = play(&list);
            assert_eq!(lines.lines().count(), 2 * file.graphs().len());
            assert_eq!(check(&file, &list, &lines), Ok(()), "{}", file.name);
        }
    }

    #[test]
    fn another_graph_or_byte_is_found() {
        let file = &COLLECTIONS[0];
        let list = file.list();
        let lines = play(&list);
        let at = |line: &str| 1 + lines.lines().position(|l| l.starts_with(line)).expect(line);
        let import = at("import 0 n 2 order 0 1 0");
        for (line, from, to) in [
            (1, "import 0 n 0", "import 20 n 0"),
            (2, "export 0 1 buffer 63 10 n", "export 0 1 buffer 63 11 n"),
            (2, "export 0 1 buffer 63 10 n", "export 0 1 buffer 63 n"),
            (2, "export 0 1 buffer 63 10 n", "export 0 2 buffer 63 10 n"),
            (
                import,
                "import 0 n 2 order 0 1 0",
                "import 0 n 3 order 0 1 2",
            ),
            (import + 3, "buffer 65 95 10", "buffer 65 63 10"),
            (import + 2, "words 0 2 1 1", "words"),
        ] {
            let wrong = lines.replacen(from, to, 1);
            assert_ne!(wrong, lines, "{from}");
            let (found, _) = check(file, &list, &wrong).expect_err(to);
            assert_eq!(found, line, "{to}");
        }
    }
}
