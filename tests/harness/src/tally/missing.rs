//! What a long run should have met but did not.

use std::collections::BTreeSet;
use std::ops::RangeInclusive;

use super::{imports, lays, sifts, weights, writes, Counts, Quarters, Tally};
use crate::make::ops::{Known, CHART_REFUSALS, EXPORT, IMPORT, ORDER, PERLINK, WRITE};
use crate::make::spoil::SPOILS;
use crate::make::{charts, families, lists, starts};

/// The quarters of all possible edges in words.
const QUARTER: [&str; 4] = ["first", "second", "third", "last"];

impl Tally {
    /// What a long run of such lists, and of charts if there are any, should
    /// have met but did not.
    pub fn missing(&self, known: &Known, charts: bool) -> Vec<String> {
        let mut missing = Vec::new();
        if charts {
            missing.extend(self.missing_charts());
        }
        missing.extend(self.missing_answers(known));
        missing.extend(self.missing_quarters(known));
        missing.extend(absent("list", lists::kinds(known), &self.lists));
        let starts = starts::open(known).into_iter().map(|(name, ..)| name);
        missing.extend(absent("start", starts, &self.starts));
        let spoilt = SPOILS.into_iter().map(|(name, _)| name);
        missing.extend(absent("start", spoilt, &self.starts));
        missing.extend(absent("graph in lists", families(), &self.list_graphs));
        let kinds = crate::make::weights::names();
        missing.extend(absent("weights in lists", kinds, &self.list_weights));
        missing.extend(without("calls on size", 0..=64, &self.list_sizes));
        if known.has(ORDER) {
            missing.extend(without("buffer of", 0..=65, &self.buffers));
        }
        missing.extend(absent("lay", lays::due(known), &self.lays));
        missing.extend(absent("sift", sifts::due(known), &self.sifts));
        let settles = sifts::due_of_settles(known);
        missing.extend(absent("settle", settles, &self.settles));
        missing.extend(absent("weights", weights::due(known), &self.weights));
        missing.extend(self.missing_transfers(known));
        missing
    }

    fn missing_transfers(&self, known: &Known) -> Vec<String> {
        let mut missing = Vec::new();
        for (name, op, transfers) in [
            ("write", WRITE, &self.writes),
            ("export", EXPORT, &self.exports),
            ("import", IMPORT, &self.imports),
            ("perlink", PERLINK, &self.tables),
        ] {
            let due = match op {
                IMPORT => imports::due(known),
                _ => writes::due(known, op),
            };
            missing.extend(absent(name, due, &transfers.met));
            if known.has(op) {
                let title = format!("{name} of size");
                missing.extend(without(&title, 0..=64, &transfers.sizes));
            }
        }
        missing
    }

    fn missing_charts(&self) -> Vec<String> {
        let answers = std::iter::once(0).chain(CHART_REFUSALS);
        let refusals = answers.filter(|number| !self.listings.contains_key(number));
        let mut missing: Vec<String> = refusals.map(|number| answer("listing", number)).collect();
        missing.extend(absent("chart", charts::ACCEPTED, &self.charts));
        missing.extend(absent("graph in charts", families(), &self.chart_graphs));
        let kinds = crate::make::weights::names();
        missing.extend(absent("weights in charts", kinds, &self.chart_weights));
        missing.extend(without("chart of size", 0..=64, &self.chart_sizes));
        missing.extend(empty_quarters("large chart", &self.chart_quarters));
        missing
    }

    /// Each call must have been accepted, and refused with each number that it
    /// can answer.
    fn missing_answers(&self, known: &Known) -> Vec<String> {
        let met = |name, number| {
            let answers = self.answers.get(name);
            answers.is_some_and(|answers| answers.contains_key(&number))
        };
        let answers = known.answers().into_iter();
        let missing = answers.filter(|&(name, number)| !met(name, number));
        missing.map(|(name, number)| answer(name, number)).collect()
    }

    /// Each call must have been accepted on large graphs of every density.
    fn missing_quarters(&self, known: &Known) -> Vec<String> {
        let names: BTreeSet<&str> = known.refused().into_iter().map(|(name, ..)| name).collect();
        let missing = names.into_iter().flat_map(|name| {
            let quarters = self.call_quarters.get(name).copied().unwrap_or_default();
            empty_quarters(&format!("{name} on a large graph"), &quarters)
        });
        missing.collect()
    }
}

fn families() -> Vec<&'static str> {
    families::all().iter().map(|family| family.name).collect()
}

fn answer(name: &str, number: u8) -> String {
    match number {
        0 => format!("{name}, accepted"),
        number => format!("{name} with refusal {number}"),
    }
}

fn empty_quarters(title: &str, quarters: &Quarters) -> Vec<String> {
    let empty = QUARTER
        .iter()
        .zip(quarters)
        .filter(|(_, &times)| times == 0);
    let told = |(quarter, _)| format!("{title} with edges in the {quarter} quarter");
    empty.map(told).collect()
}

/// Those names that were never counted.
fn absent<N: AsRef<str>>(
    title: &str,
    names: impl IntoIterator<Item = N>,
    counts: &Counts,
) -> Vec<String> {
    let names = names.into_iter();
    let absent = names.filter(|name| !counts.contains_key(name.as_ref()));
    absent
        .map(|name| format!("{title}, {}", name.as_ref()))
        .collect()
}

/// Those numbers that were never met.
fn without(title: &str, numbers: RangeInclusive<usize>, met: &BTreeSet<usize>) -> Vec<String> {
    let missing = numbers.filter(|number| !met.contains(number));
    missing.map(|number| format!("{title} {number}")).collect()
}

#[cfg(test)]
mod tests {
    use super::*;
    use crate::make::graph::Graph;
    use crate::make::ops::{ADD, LAY, LINK, SETTLE, SET_COUNT, SET_N, SET_ORDER, SIFT};
    use crate::make::records;

    /// What there is of each: kinds of list, of which two need lay, ways to
    /// start, of which one needs add, three chart and two import, ways to spoil,
    /// families of graphs, and kinds of weights.
    const LISTS: usize = 5;
    const STARTS: usize = 12;
    const SPOILT: usize = 19;
    const GRAPHS: usize = 16;
    const KINDS: usize = 8;
    /// Calls, and their answers; those of charts.
    const CALLS: usize = 14;
    const ANSWERS: usize = 61;
    const LISTINGS: usize = 11;
    /// What is to occur of lays, of sifts, of settlings, of weights, of charts
    /// that are written, one of which needs chart, of graph6 that are exported
    /// and imported, one of which needs the other, and of tables that are filled.
    const LAYS: usize = 8;
    const SIFTS: usize = 8;
    const SETTLES: usize = 2;
    const WEIGHTS: usize = 13 + 1 + 20;
    const WRITES: usize = 9;
    const EXPORTS: usize = 5;
    const IMPORTS: usize = 34;
    const TABLES: usize = 8;

    fn list(records: &[[u64; 4]]) -> lists::Made {
        lists::Made {
            bytes: records.iter().flat_map(|&r| records::bytes(r)).collect(),
            kind: "several starts",
            starts: vec!["empty"],
            graphs: vec!["path", "path"],
            weights: Vec::new(),
            naive: true,
        }
    }

    /// Four vertices, two edges that cross, and one that crosses neither.
    fn square() -> Graph {
        Graph::of(vec![(0, 1), (0, 2), (1, 3)], vec![0, 1, 2, 3])
    }

    fn chart() -> charts::Made {
        charts::Made {
            bytes: Vec::new(),
            kind: "settled already",
            family: Some("path"),
            weights: None,
            refusal: None,
            naive: false,
        }
    }

    /// What is missing with all calls.
    fn missing(tally: &Tally) -> BTreeSet<String> {
        tally.missing(&Known::all(), true).into_iter().collect()
    }

    /// What is no longer missing behind some charts and lists.
    fn met(change: impl Fn(&mut Tally)) -> Vec<String> {
        let mut tally = Tally::default();
        let before = missing(&tally);
        change(&mut tally);
        before.difference(&missing(&tally)).cloned().collect()
    }

    #[test]
    fn at_first_everything_is_missing() {
        let of_charts = LISTINGS + 3 + GRAPHS + KINDS + 65 + 4;
        let of_graphs = SPOILT + GRAPHS + KINDS + 65;
        let of_lists = ANSWERS + 4 * CALLS + LISTS + STARTS + of_graphs + 66;
        let of_calls = LAYS + SIFTS + SETTLES + WEIGHTS;
        let of_transfers = WRITES + EXPORTS + IMPORTS + TABLES + 4 * 65;
        let of_all = of_charts + of_lists + of_calls + of_transfers;
        assert_eq!(missing(&Tally::default()).len(), of_all);
        let of_few = |names: &str| {
            let known = Known::parse(names).expect("known names");
            Tally::default().missing(&known, false).len()
        };
        let of_any = LISTS - 2 + of_graphs;
        let due = 6 + 4 * 2 + of_any + (STARTS - 5) + 66 + (2 + 1);
        assert_eq!(of_few("add,order"), due);
        let due = 6 + 4 * 2 + of_any + (STARTS - 6) + SIFTS + SETTLES + (2 + 1 + 2);
        assert_eq!(of_few("sift,settle"), due);
        let due = 3 + 4 + of_any + (STARTS - 6) + (WRITES - 1) + 65 + (1 + 1 + 1);
        assert_eq!(of_few("write"), due);
        let due = 4 + 4 + of_any + (STARTS - 6) + (EXPORTS - 1) + 65 + (1 + 2);
        assert_eq!(of_few("export"), due);
        let due = 3 + 4 + of_any + (STARTS - 6) + TABLES + 65 + (1 + 1 + 1);
        assert_eq!(of_few("perlink"), due);
    }

    #[test]
    fn a_chart_is_met() {
        let accepted = met(|tally| tally.chart(&chart(), "devices 40\nlinks 780\nbefore 1\n"));
        let due = [
            "chart of size 40",
            "chart, settled already",
            "graph in charts, path",
            "large chart with edges in the last quarter",
            "listing, accepted",
        ];
        assert_eq!(accepted, due);
        let refused = met(|tally| tally.chart(&chart(), "refused 3\n"));
        assert!(refused.contains(&"listing with refusal 3".to_string()));
        assert_eq!(refused.len(), 3);
    }

    #[test]
    fn a_refusal_number_is_met_by_the_call_that_answers_it() {
        let line = "link 12 n 40 order 0 count 0 words\n";
        let refused = met(|tally| tally.list(&list(&[[LINK, 3, 40, 0]]), line));
        let due = [
            "calls on size 40",
            "graph in lists, path",
            "link with refusal 12",
            "list, several starts",
            "start, empty",
        ];
        assert_eq!(refused, due);
        let line = "add 11 n 40 order 0 count 0 words\n";
        let refused = met(|tally| tally.list(&list(&[[ADD, 0, 0, 0]]), line));
        assert!(!refused.contains(&"calls on size 40".to_string()));
        assert!(refused.contains(&"add with refusal 11".to_string()));
    }

    #[test]
    fn an_accepted_call_is_met_with_its_size_and_density() {
        let line = "link 0 n 40 order 0 count 0 words 3 16 4 8\n";
        let records = [[SET_N, 40, 0, 0], [LINK, 3, 4, 0]];
        let accepted = met(|tally| tally.list(&list(&records), line));
        for due in [
            "link, accepted",
            "calls on size 40",
            "link on a large graph with edges in the first quarter",
        ] {
            assert!(accepted.contains(&due.to_string()), "{due}");
        }
    }

    #[test]
    fn kinds_of_weights_and_ways_to_spoil_are_met() {
        let with_weights = met(|tally| {
            let weights = Some("all 2");
            let made = charts::Made { weights, ..chart() };
            tally.chart(&made, "refused 24\n");
        });
        let due = ["listing with refusal 24", "weights in charts, all 2"];
        assert_eq!(with_weights[2..], due);
        let spoilt = met(|tally| {
            let made = lists::Made {
                starts: vec!["a weight not symmetric"],
                weights: vec!["1 and 2", "1 and 2"],
                ..list(&[])
            };
            tally.list(&made, "");
        });
        let due = ["start, a weight not symmetric", "weights in lists, 1 and 2"];
        assert_eq!(spoilt[2..], due);
    }

    #[test]
    fn weights_are_met_by_the_calls_that_have_them() {
        let records = [[SET_N, 2, 0, 0], [SET_ORDER, 1, 1, 0], [LINK, 0, 1, 258]];
        let line = "link 0 n 2 order 0 1 count 4294967296 words 0 2 1 1 weights 0 1 2 1 0 2\n";
        let accepted = met(|tally| tally.list(&list(&records), line));
        for due in [
            "weights, a carried count of 2^32 or more",
            "weights, a link of weight 2",
            "weights, a link with a number over 255",
            "weights, link with weights other than 1",
        ] {
            assert!(accepted.contains(&due.to_string()), "{due}");
        }
        let line = "link 25 n 2 order 0 1 count 4294967296 words weights\n";
        let refused = met(|tally| tally.list(&list(&records), line));
        assert!(!refused.iter().any(|due| due.starts_with("weights")));
    }

    #[test]
    fn a_buffer_is_met_and_counted() {
        let mut tally = Tally::default();
        tally.list(
            &list(&[[ORDER, 2, 1, 0]]),
            "order 18 buffer 1 1 n 3 order 0\n",
        );
        assert!(!missing(&tally).contains("buffer of 2"));
        assert_eq!(tally.calls(), 1);
        tally.chart(&chart(), "refused 3\n");
        assert_eq!(tally.without_naive(), (1, 0));
        assert!(tally.text().contains("answers of order:, 18 1\n"));
    }

    #[test]
    fn isolated_vertices_are_met_by_an_accepted_lay() {
        let records = [[SET_N, 2, 0, 0], [SET_ORDER, 1, 1, 0], [LAY, 1, 0, 0]];
        let line = "lay 0 0 n 2 order 1 0 count 0 words\n";
        let accepted = met(|tally| tally.list(&list(&records), line));
        let due = "lay, two vertices or more, all isolated".to_string();
        assert!(accepted.contains(&due));
        let line = "lay 12 0 n 2 order 0 1 count 0 words\n";
        let refused = met(|tally| tally.list(&list(&records), line));
        assert!(!refused.contains(&due));
    }

    #[test]
    fn best_places_are_met_by_an_accepted_sift() {
        let records = [[SET_N, 2, 0, 0], [SET_ORDER, 1, 1, 0], [SIFT, 1, 0, 0]];
        let line = "sift 0 0 1 n 2 order 0 1 count 0 words\n";
        let accepted = met(|tally| tally.list(&list(&records), line));
        let due = "sift, two vertices, one place".to_string();
        assert!(accepted.contains(&due));
        let line = "sift 12 0 0 n 2 order 0 1 count 0 words\n";
        let refused = met(|tally| tally.list(&list(&records), line));
        assert!(!refused.contains(&due));
    }

    #[test]
    fn a_vertex_that_is_sifted_again_and_a_limit_are_met() {
        let sift = [SIFT, 1, 0, 0];
        let lines = "sift 0 5 2 n 4 order 0 1 2 3 count 0 words\n\
                     sift 0 0 2 n 4 order 0 1 2 3 count 0 words\n\
                     settle 0 1 1 no 8 n 4 order 0 1 2 3 count 0 words\n";
        let records = [sift, sift, [SETTLE, 1, 0, 0]];
        let met = met(|tally| tally.list(&list(&records), lines));
        for due in [
            "sift, moved, several places best",
            "sift, stayed, several places best, but not all",
            "sift, again behind a move",
            "settle, limit reached, the last round moved something",
        ] {
            assert!(met.contains(&due.to_string()), "{due}");
        }
    }

    /// The empty layout's chart, as a list has it and as a line shows it.
    const EMPTY_CHART: [u8; 10] = [0x44, 0, 1, 0, 0x4C, 0, 0, 0x52, 0, 0];
    const EMPTY_SHOWN: &str = "68 0 1 0 76 0 0 82 0 0";

    #[test]
    fn a_write_is_met_with_its_size_and_edges() {
        let line = format!("write 0 10 buffer {EMPTY_SHOWN} 7 n 0 order 0 count 0 words\n");
        let accepted = met(|tally| tally.list(&list(&[[WRITE, 11, 7, 0]]), &line));
        let due = [
            "calls on size 0",
            "graph in lists, path",
            "list, several starts",
            "start, empty",
            "write of size 0",
            "write, 0 edges",
            "write, a buffer one byte longer",
            "write, accepted",
        ];
        assert_eq!(accepted, due);
        let line = "write 19 0 buffer 7 7 7 7 7 7 7 7 7 n 0 order 0 count 0 words\n";
        let refused = met(|tally| tally.list(&list(&[[WRITE, 9, 7, 0]]), line));
        let due = [
            "write with refusal 19",
            "write, a buffer one byte too short",
        ];
        assert_eq!(refused[4..], due);
    }

    #[test]
    fn an_export_is_met_with_its_size_and_room() {
        let line = "export 0 1 buffer 63 7 n 0 order 0 count 0 words\n";
        let accepted = met(|tally| tally.list(&list(&[[EXPORT, 2, 7, 0]]), line));
        let due = [
            "calls on size 0",
            "export of size 0",
            "export, a buffer one byte longer",
            "export, accepted",
            "graph in lists, path",
            "list, several starts",
            "start, empty",
        ];
        assert_eq!(accepted, due);
        let line = "export 19 0 buffer n 0 order 0 count 0 words\n";
        let refused = met(|tally| tally.list(&list(&[[EXPORT, 0, 7, 0]]), line));
        let due = [
            "export with refusal 19",
            "export, a buffer one byte too short",
        ];
        assert_eq!(refused[1..3], due);
    }

    #[test]
    fn a_table_is_met_with_its_size_and_room() {
        let line = "perlink 0 0 table n 3 order 0 1 2 count 0 words\n";
        let records = [[SET_N, 3, 0, 0], [PERLINK, 0, 7, 0]];
        let accepted = met(|tally| tally.list(&list(&records), line));
        let due = [
            "perlink of size 3",
            "perlink, 0 edges",
            "perlink, a table just long enough",
            "perlink, accepted",
            "perlink, no edges and no entries",
            "start, empty",
        ];
        assert_eq!(accepted[3..], due);
        let mut records = records::fields(&square());
        records.push([PERLINK, 2, 7, 0]);
        let empty = "empty 0 n 0 order 0 count 0 words\n";
        let line = |said: &str| format!("{empty}perlink {said} n 4 order 0 1 2 3 count 0 words\n");
        let refused = met(|tally| tally.list(&list(&records), &line("23 0 table 7 7")));
        let due = [
            "perlink with refusal 23",
            "perlink, a table one entry too short",
        ];
        assert!(due.iter().all(|due| refused.contains(&due.to_string())));
        let longer = line("0 3 table 0 1 1 7");
        let accepted = met(|tally| tally.list(&list(&records), &longer));
        for due in [
            "perlink, a count that is not the true one",
            "perlink, a table one entry longer",
            "perlink, an edge without crossings beside one with some",
        ] {
            assert!(accepted.contains(&due.to_string()), "{due}");
        }
        assert!(!accepted.contains(&"perlink, no edges and no entries".to_string()));
    }

    /// Exported and imported again, and imported and exported again.
    #[test]
    fn imports_are_met_with_what_is_before_and_behind_them() {
        let mut made = list(&[[EXPORT, 1, 0, 0]]);
        made.bytes.extend(records::import(b"?"));
        made.bytes.extend(records::bytes([EXPORT, 1, 0, 0]));
        made.bytes.extend(records::import(b""));
        let lines = "export 0 1 buffer 63 n 0 order 0 count 0 words\n\
                     import 0 n 0 order 0 count 0 words\n\
                     export 0 1 buffer 63 n 0 order 0 count 0 words\n\
                     import 20 n 0 order 0 count 0 words\n";
        let met = met(|tally| tally.list(&made, lines));
        for due in [
            "export, read back",
            "import of size 0",
            "import with refusal 20",
            "import, 0 padding bits, accepted",
            "import, accepted",
            "import, exported again",
            "import, no byte",
        ] {
            assert!(met.contains(&due.to_string()), "{due}");
        }
    }

    #[test]
    fn another_count_and_reading_back_are_met() {
        let mut made = list(&[[SET_COUNT, 9, 0, 0], [WRITE, 10, 0, 0]]);
        made.bytes.extend(records::chart(&EMPTY_CHART));
        let lines = format!(
            "write 0 10 buffer {EMPTY_SHOWN} n 0 order 0 count 9 words\n\
             chart 0 n 0 order 0 count 0 words\n"
        );
        let met = met(|tally| tally.list(&made, &lines));
        for due in [
            "write, a buffer just long enough",
            "write, a count that is not the true one",
            "write, read back",
        ] {
            assert!(met.contains(&due.to_string()), "{due}");
        }
    }
}
