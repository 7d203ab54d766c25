//! What occurs of weights, and of numbers that 32 bits can't hold.

use crate::entries::Entry;
use crate::followed::{lent, Step};
use crate::make::charts;
use crate::make::ops::*;
use crate::make::written::filled_length;
use crate::naive::calls;
use crate::naive::layout::{weighted, Layout};
use crate::sifted::answers;
use crate::written::alike;

const LINK_OF_1: &str = "a link of weight 1";
const LINK_OF_2: &str = "a link of weight 2";
const LINK_OF_255: &str = "a link of weight 255";
const LINK_OF_ANY: &str = "a link of another weight";
const LINK_OVER: &str = "a link with a number over 255";

const EXPORT_SHORT: &str = "an export refused into a buffer too short";
const EXPORT_LONG: &str = "an export refused into a buffer long enough";

const ONES: &str = "a chart with weights of 1";
const NO_EDGES: &str = "a chart with a field of no weights";
const LONGEST: &str = "a chart of 6,125 bytes read";
const LONGEST_WRITTEN: &str = "a chart of 6,125 bytes written";

pub const READ_BACK: &str = "a chart with weights read back";
pub const ALIKE: &str = "the same chart written with weights of 1 and without";

const OTHER_LAY: &str = "a lay in another order without weights";
const WIDE_TALLY: &str = "a tally of 2^32 or more";
const OTHER_SIFT: &str = "a sift to another place without weights";
const WIDE_SAVING: &str = "a saving of 2^32 or more";
const HEAVIEST: &str = "the crossings of 2016 edges of weight 255";

const WIDE_COUNT: &str = "a carried count of 2^32 or more";
const OVER_THE_TOP: &str = "a carried count that goes up over 2^64";
const BELOW_0: &str = "a carried count that goes down below 0";

/// What should occur, with the calls that it takes.
const DUE: [(&str, &[u64]); 20] = [
    (LINK_OF_1, &[LINK]),
    (LINK_OF_2, &[LINK]),
    (LINK_OF_255, &[LINK]),
    (LINK_OF_ANY, &[LINK]),
    (LINK_OVER, &[LINK]),
    (EXPORT_SHORT, &[EXPORT]),
    (EXPORT_LONG, &[EXPORT]),
    (ONES, &[CHART]),
    (NO_EDGES, &[CHART]),
    (LONGEST, &[CHART]),
    (LONGEST_WRITTEN, &[WRITE]),
    (READ_BACK, &[CHART, WRITE]),
    (ALIKE, &[CHART, WRITE]),
    (OTHER_LAY, &[LAY]),
    (WIDE_TALLY, &[LAY]),
    (OTHER_SIFT, &[SIFT]),
    (WIDE_SAVING, &[SETTLE]),
    (HEAVIEST, &[PERLINK]),
    (OVER_THE_TOP, &[MOVE]),
    (BELOW_0, &[MOVE]),
];

/// What doesn't fit into 32 bits.
const WIDE: u64 = 1 << 32;

/// So many vertices may a layout have of which it is told what would be without
/// weights; more take too long.
const FEW: u64 = 20;

/// What should occur with known calls: each but export, accepted on a layout
/// with weights other than 1, and more.
pub fn due(known: &Known) -> Vec<String> {
    let calls = known
        .refused()
        .into_iter()
        .filter(|(_, op, _)| *op != EXPORT);
    let mut due: Vec<String> = calls.map(|(name, ..)| with_weights(name)).collect();
    due.dedup();
    due.push(WIDE_COUNT.to_string());
    let open = DUE
        .iter()
        .filter(|(_, ops)| known.among(ops).len() == ops.len());
    due.extend(open.map(|(name, _)| name.to_string()));
    due
}

fn with_weights(name: &str) -> String {
    format!("{name} with weights other than 1")
}

/// What occurs of it in a line of a call or a start with some refusal number.
pub fn met(step: &Step, name: &str, refusal: u8) -> Vec<String> {
    let mut met = Vec::new();
    if refusal == 0 && step.is_weighted() {
        met.push(with_weights(name));
    }
    let sort: Vec<&str> = match (&step.entry, refusal) {
        (Entry::Chart(chart), 0) => met_by_chart(chart, step),
        (Entry::Record([LINK, _, _, weight]), 0) => met_by_link(*weight),
        (Entry::Record([EXPORT, ..]), 26) => vec![room_of_export(step)],
        (Entry::Record([WRITE, ..]), 0) => told(LONGEST_WRITTEN, is_longest(step)),
        (Entry::Record([LAY, start, ..]), 0) => met_by_lay(step, *start),
        (Entry::Record([SIFT, u, ..]), 0) => told(OTHER_SIFT, is_other_sift(step, *u)),
        (Entry::Record([ROUND | SETTLE, ..]), 0) => {
            let wide = answers(step.line).is_some_and(|answers| answers.saving >= WIDE);
            told(WIDE_SAVING, wide)
        }
        (Entry::Record([PERLINK, ..]), 0) => told(HEAVIEST, is_heaviest(step)),
        _ => Vec::new(),
    };
    met.extend(sort.into_iter().map(String::from));
    if refusal == 0 && matches!(step.entry, Entry::Record([ADD..=PERLINK, ..])) {
        met.extend(met_by_count(step).map(String::from));
    }
    met
}

fn told(name: &'static str, occurs: bool) -> Vec<&'static str> {
    occurs.then_some(name).into_iter().collect()
}

/// Field 57 has a header of three bytes.
fn met_by_chart(chart: &[u8], step: &Step) -> Vec<&'static str> {
    let without = charts::length(step.n(), step.m(), false) as usize;
    let has_weights = chart.len() > without;
    match (has_weights, step.m()) {
        (false, _) => Vec::new(),
        (true, 0) => vec![NO_EDGES],
        (true, _) if !step.is_weighted() => vec![ONES],
        (true, _) => told(LONGEST, is_longest(step)),
    }
}

fn is_longest(step: &Step) -> bool {
    step.is_weighted() && (step.n(), step.m()) == (64, 2016)
}

fn met_by_link(weight: u64) -> Vec<&'static str> {
    let sort = match weight % 256 {
        1 => LINK_OF_1,
        2 => LINK_OF_2,
        255 => LINK_OF_255,
        _ => LINK_OF_ANY,
    };
    let over = (weight > 255).then_some(LINK_OVER);
    [Some(sort), over].into_iter().flatten().collect()
}

fn room_of_export(step: &Step) -> &'static str {
    let due = filled_length(EXPORT, step.n(), step.m(), true);
    if (lent(step.line).len() as u64) < due {
        EXPORT_SHORT
    } else {
        EXPORT_LONG
    }
}

fn met_by_lay(step: &Step, start: u64) -> Vec<&'static str> {
    let other = without_weights(step, |layout| {
        calls::lay(layout, start);
    });
    let tally = step
        .line
        .split(' ')
        .nth(2)
        .and_then(|word| word.parse().ok());
    let wide = told(WIDE_TALLY, tally.is_some_and(|tally: u64| tally >= WIDE));
    [told(OTHER_LAY, other), wide].concat()
}

fn is_other_sift(step: &Step, u: u64) -> bool {
    without_weights(step, |layout| {
        calls::sift(layout, u);
    })
}

/// Whether a call would leave another order if all weights were 1.
fn without_weights(step: &Step, call: impl Fn(&mut Layout)) -> bool {
    if !step.is_weighted() || step.before.n > FEW {
        return false;
    }
    let mut layout = step.before.clone();
    for weight in layout.weights.iter_mut().flatten() {
        *weight = (*weight).min(1);
    }
    call(&mut layout);
    layout.order != step.after.order
}

fn is_heaviest(step: &Step) -> bool {
    let edges = weighted(&step.after);
    edges.len() == 2016 && edges.iter().all(|&(_, weight)| weight == 255)
}

/// Up or down is told by the shorter way round.
fn met_by_count(step: &Step) -> impl Iterator<Item = &'static str> {
    let (before, after) = (step.before.count, step.after.count);
    let change = after.wrapping_sub(before) as i64;
    let sorts = [
        (WIDE_COUNT, after >= WIDE),
        (OVER_THE_TOP, change > 0 && after < before),
        (BELOW_0, change < 0 && after > before),
    ];
    sorts
        .into_iter()
        .filter(|(_, occurs)| *occurs)
        .map(|(name, _)| name)
}

/// Whether four lines in a row write the same chart behind two starts, of which
/// just one has a field of weights.
pub fn is_alike(four: &[Step]) -> bool {
    let Some((one, other)) = alike(four) else {
        return false;
    };
    let weighed = charts::length(four[0].n(), four[0].m(), true) as usize;
    !four[0].is_weighted() && (one.len() == weighed) != (other.len() == weighed)
}

#[cfg(test)]
mod tests {
    use super::*;
    use crate::followed::steps;
    use crate::make::charts::Chart;
    use crate::make::graph::{all_pairs, vertices, Edge, Graph};
    use crate::make::records;
    use crate::naive::play::play;

    /// Vertices in rising order with edges of some weights.
    fn graph(n: usize, edges: &[Edge], weights: &[u8]) -> Graph {
        Graph::of(edges.to_vec(), vertices(n)).with_weights(weights)
    }

    /// What occurs in the last line of a list that starts from a graph.
    fn last(graph: &Graph, records: &[Record]) -> Vec<String> {
        let mut list = records::chart(&Chart::of(graph).bytes());
        list.extend(records.iter().flat_map(|&record| records::bytes(record)));
        let lines = play(&list);
        let step = steps(&list, &lines).last().expect("a line");
        let (name, refusal) = step.answer().expect("an answer");
        met(&step, name, refusal)
    }

    /// The first ring of document 01.
    const FIRST: [Edge; 2] = [(0, 2), (1, 3)];

    #[test]
    fn charts_with_weights_are_told() {
        let chart = |n, edges: &[Edge], weights: &[u8]| last(&graph(n, edges, weights), &[]);
        assert_eq!(chart(4, &FIRST, &[1, 1]), [ONES]);
        assert_eq!(
            chart(4, &FIRST, &[1, 2]),
            ["chart with weights other than 1"]
        );
        assert_eq!(chart(4, &[], &[]), [NO_EDGES]);
        let all = chart(64, &all_pairs(64), &[[1].repeat(2015), vec![2]].concat());
        assert_eq!(all, ["chart with weights other than 1", LONGEST]);
        assert!(last(&graph(4, &FIRST, &[1, 1]).unweighted(), &[]).is_empty());
        assert!(chart(4, &FIRST, &[1, 0]).is_empty());
    }

    #[test]
    fn links_and_exports_with_weights_are_told() {
        let square = graph(4, &FIRST, &[1, 1]);
        let link = |weight| last(&square, &[[LINK, 0, 1, weight]]);
        assert_eq!(link(1), [LINK_OF_1]);
        assert_eq!(link(257), [LINK_OF_1, LINK_OVER]);
        assert!(link(0).is_empty() && link(256).is_empty());
        let named = |sorts: &[&str]| -> Vec<String> {
            let with = "link with weights other than 1";
            [&[with], sorts]
                .concat()
                .into_iter()
                .map(String::from)
                .collect()
        };
        assert_eq!(link(2), named(&[LINK_OF_2]));
        assert_eq!(link(255), named(&[LINK_OF_255]));
        assert_eq!(link(7), named(&[LINK_OF_ANY]));
        assert_eq!(link(u64::MAX), named(&[LINK_OF_255, LINK_OVER]));
        let heavy = graph(4, &FIRST, &[1, 2]);
        let export = |length| last(&heavy, &[[EXPORT, length, 0, 0]]);
        assert_eq!(export(1), [EXPORT_SHORT]);
        assert_eq!(export(2), [EXPORT_LONG]);
        assert!(last(&square, &[[EXPORT, 1, 0, 0]]).is_empty());
    }

    /// All edges of four vertices: without weights no sift moves any, and a lay
    /// from 2 takes another end.
    #[test]
    fn what_weights_decide_is_told() {
        let four = |weights: [u8; 6]| graph(4, &all_pairs(4), &weights);
        let heavy = four([1, 2, 1, 2, 3, 1]);
        let sift = ["sift with weights other than 1", OTHER_SIFT];
        assert_eq!(last(&heavy, &[[SIFT, 0, 0, 0]]), sift);
        let lay = ["lay with weights other than 1", OTHER_LAY];
        assert_eq!(last(&heavy, &[[LAY, 2, 0, 0]]), lay);
        let even = four([3; 6]);
        assert_eq!(last(&even, &[[SIFT, 0, 0, 0]]), sift[..1]);
        assert_eq!(last(&even, &[[LAY, 2, 0, 0]]), lay[..1]);
        assert!(last(&four([1; 6]), &[[LAY, 2, 0, 0]]).is_empty());
        assert!(last(&heavy, &[[LAY, 4, 0, 0]]).is_empty());
    }

    #[test]
    fn wide_numbers_are_told() {
        let all = graph(64, &all_pairs(64), &[255; 2016]);
        let has = |records: &[Record], name: &str| last(&all, records).contains(&name.to_string());
        assert!(has(&[[LAY, 0, 0, 0]], WIDE_TALLY));
        assert!(has(&[[PERLINK, 2016, 0, 0]], HEAVIEST));
        assert!(has(&[[WRITE, 6125, 0, 0]], LONGEST_WRITTEN));
        assert!(has(&[[COUNT, 0, 0, 0]], WIDE_COUNT));
        assert!(!has(&[[SET_COUNT, 9, 0, 0], [COUNT, 0, 0, 0]], WIDE_COUNT));
        assert!(!has(&[[PERLINK, 2015, 0, 0]], HEAVIEST));
        for (saving, due) in [(WIDE, true), (WIDE - 1, false)] {
            let list = records::bytes([ROUND, 0, 0, 0]);
            let lines = format!("round 0 {saving} 1 64 n 64\n");
            let step = steps(&list, &lines).next().expect("a round");
            assert_eq!(met(&step, "round", 0) == [WIDE_SAVING], due);
        }
    }

    #[test]
    fn counts_that_go_round_are_told() {
        let square = graph(4, &FIRST, &[1, 1]);
        let down = |count| last(&square, &[[SET_COUNT, count, 0, 0], [MOVE, 0, 1, 0]]);
        assert_eq!(down(0), [WIDE_COUNT, BELOW_0]);
        assert!(down(1).is_empty());
        let apart = graph(4, &[(0, 1), (2, 3)], &[1, 1]);
        let up = |count| last(&apart, &[[SET_COUNT, count, 0, 0], [MOVE, 0, 2, 0]]);
        assert_eq!(up(u64::MAX), [OVER_THE_TOP]);
        assert_eq!(up(u64::MAX - 1), [WIDE_COUNT]);
        assert!(up(0).is_empty());
    }

    /// Whether the first of four lines, and the last, write the same.
    fn alike_charts(one: &Graph, other: &Graph) -> bool {
        let part = |graph: &Graph| {
            let start = records::chart(&Chart::of(graph).bytes());
            [start, records::bytes([WRITE, 100, 0, 0])].concat()
        };
        let list = [part(one), part(other)].concat();
        let lines = play(&list);
        let steps: Vec<Step> = steps(&list, &lines).collect();
        is_alike(&steps)
    }

    #[test]
    fn charts_of_the_same_layout_are_told() {
        let ones = graph(4, &FIRST, &[1, 1]);
        let without = ones.unweighted();
        assert!(alike_charts(&ones, &without) && alike_charts(&without, &ones));
        assert!(!alike_charts(&ones, &ones) && !alike_charts(&without, &without));
        let heavy = graph(4, &FIRST, &[1, 2]);
        assert!(!alike_charts(&heavy, &without) && !alike_charts(&heavy, &heavy));
    }
}
