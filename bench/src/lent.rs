//! What being lent costs: calls made one after another on one lent layout, beside
//! the same calls by value, within a list.

use layouts::{chart, layout, pairs, Weights};
use rostulanda::ffi::{self, ANSWER_NUMBERS};
use rostulanda::{Fields, Start};
use second::layout::Layout;

use crate::agreement::{agree, Outcome};
use crate::expected;
use crate::lists::{Call, LINK, UNLINK};
use crate::proved::{self, fields, Told};
use crate::rows::{repeated, Row, CALLS, WEIGHT};

/// Does something with each comparison: a row whose sides are the calls in place,
/// the list of them from a chart, and an empty list from that chart.
pub fn for_each(mut does: impl FnMut(&Row)) -> Outcome {
    let l = layout(64, 1000, Weights::Any);
    let missing = pairs(&l, false);
    let by_turns = |&(a, b): &(u64, u64)| [[LINK, a, b, WEIGHT.into()], [UNLINK, a, b, 0]];
    let accepted: Vec<Call> = missing.iter().flat_map(by_turns).take(CALLS).collect();
    compare(
        &mut does,
        "link and unlink by turns, 64 vertices, 1000 edges",
        &l,
        &accepted,
    )?;
    compare(
        &mut does,
        "link refused 12, 64 vertices, 1000 edges",
        &l,
        &[[LINK, 0, 64, WEIGHT.into()]; CALLS],
    )
}

/// One call in place, and the same by value: what the sides took, without what a
/// list takes that has no calls, for each of the calls.
pub fn of_a_call([in_place, list, no_calls]: [f64; 3]) -> [f64; 2] {
    [in_place, list - no_calls].map(|taken| taken / CALLS as f64)
}

fn compare(does: &mut dyn FnMut(&Row), name: &str, l: &Layout, calls: &[Call]) -> Outcome {
    let (lent, chart) = (fields(l), chart(l));
    answers_agree(name, &lent, &chart, calls)?;
    let sides = vec![
        repeated(|| in_place(&lent, calls)),
        repeated(|| within_a_list(&chart, calls)),
        repeated(|| within_a_list(&chart, &[])),
    ];
    does(&Row { name, sides });
    Ok(())
}

/// Whether the calls answer as the second program does, in place and by value.
fn answers_agree(name: &str, l: &Fields, chart: &[u8], calls: &[Call]) -> Outcome {
    let mut table = vec![0; ANSWER_NUMBERS * calls.len()];
    let second = expected::play(Start::Chart(chart), calls.as_flattened(), &mut table);
    let answers = table.chunks(ANSWER_NUMBERS);
    let refusals = answers.map(|answer| answer[0] as u8).collect();
    let left = (fields(&second.layout), refusals);
    agree(name, "in place", &in_place(l, calls), &left)?;
    let by_value = within_a_list(chart, calls).told();
    agree(name, "by value", &by_value, &(second, table))
}

/// Makes the calls, links and unlinks, on one copy of the layout. Answers that
/// copy, and the refusal numbers.
fn in_place(l: &Fields, calls: &[Call]) -> (Fields, Vec<u8>) {
    let mut l = l.clone();
    let made = calls.iter().map(|&[op, a, b, weight]| match op {
        LINK => ffi::rl_add_edge(&mut l, a as usize, b as usize, weight as u8),
        _ => ffi::rl_remove_edge(&mut l, a as usize, b as usize),
    });
    let refusals = made.collect();
    (l, refusals)
}

/// Plays the calls as a list, from a chart. Each goes by value.
fn within_a_list(chart: &[u8], calls: &[Call]) -> (ffi::Played, Vec<u64>) {
    let mut table = vec![0; ANSWER_NUMBERS * calls.len()];
    let played = proved::play(Start::Chart(chart), calls.as_flattened(), &mut table);
    (played, table)
}
