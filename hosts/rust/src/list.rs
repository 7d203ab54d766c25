//! Lists of calls, played in one go.

use crate::ffi::{self, ANSWER_NUMBERS, CALL_NUMBERS};
use crate::layout::Layout;
use crate::refusal::{accepted, Refusal};

/// What a list of calls starts from.
#[derive(Clone, Copy, Debug, PartialEq, Eq)]
pub enum Start<'a> {
    /// The layout without vertices.
    Empty,
    /// The layout that [`Layout::from_chart`] gives.
    Chart(&'a [u8]),
    /// The layout that [`Layout::import_graph6`] gives: no header, no line end.
    Graph6(&'a [u8]),
}

/// A call that changes a layout, with what it names: any numbers at all.
#[derive(Clone, Copy, Debug, PartialEq, Eq)]
pub enum Call {
    AddVertex,
    /// An edge of weight 1.
    AddEdge(usize, usize),
    AddWeightedEdge(usize, usize, u8),
    RemoveEdge(usize, usize),
    MoveAfter(usize, usize),
    GreedyAppend(usize),
    Sift(usize),
    SiftingRound,
    Converge(usize),
}

impl Call {
    /// The numbers that the library reads.
    fn numbers(self) -> [u64; CALL_NUMBERS] {
        let (op, a, b, weight) = match self {
            Call::AddVertex => (16, 0, 0, 0),
            Call::AddEdge(a, b) => (17, a, b, 1),
            Call::AddWeightedEdge(a, b, weight) => (17, a, b, weight),
            Call::RemoveEdge(a, b) => (18, a, b, 0),
            Call::MoveAfter(a, b) => (19, a, b, 0),
            Call::GreedyAppend(start) => (20, start, 0, 0),
            Call::Sift(u) => (21, u, 0, 0),
            Call::SiftingRound => (22, 0, 0, 0),
            Call::Converge(limit) => (23, limit, 0, 0),
        };
        [op, a as u64, b as u64, weight.into()]
    }
}

/// What one call of a list answered: its further numbers in the sequence of the
/// call's own answer, 0 where it has fewer; a bool counts as 0 or 1.
pub type Answer = Result<[u64; 4], Refusal>;

/// A list of calls played.
#[derive(Clone, Debug, PartialEq, Eq)]
pub struct Played {
    pub layout: Layout,
    pub answers: Vec<Answer>,
}

/// Plays a list of calls. Refused calls may stand anywhere among them; only a
/// refused start refuses the list.
pub fn play(start: Start, calls: &[Call]) -> Result<Played, Refusal> {
    let numbers: Vec<u64> = calls.iter().flat_map(|call| call.numbers()).collect();
    let mut table = vec![[0; ANSWER_NUMBERS]; calls.len()];
    let played = ffi::play(start, &numbers, table.as_flattened_mut());
    table.truncate(played.calls);
    // A refusal code is a byte.
    let answer = |[refusal, numbers @ ..]: [u64; ANSWER_NUMBERS]| accepted(refusal as u8, numbers);
    let answers = table.into_iter().map(answer).collect();
    let layout = Layout::from_fields(played.layout);
    accepted(played.refusal, Played { layout, answers })
}

#[cfg(test)]
mod tests {
    use super::*;
    use crate::{FIRST_CHART, FIRST_GRAPH6};

    #[test]
    fn a_list_is_its_calls_one_after_another() {
        let calls = [
            Call::AddVertex,
            Call::AddEdge(4, 1),
            Call::AddEdge(4, 4),
            Call::AddWeightedEdge(4, 2, 9),
            Call::AddWeightedEdge(4, 3, 0),
            Call::MoveAfter(4, 0),
            Call::Sift(2),
            Call::SiftingRound,
            Call::GreedyAppend(3),
            Call::RemoveEdge(4, 1),
            Call::Converge(50),
        ];
        let mut layout = Layout::from_chart(FIRST_CHART).unwrap();
        let mut answers: Vec<Answer> = Vec::new();
        answers.push(layout.add_vertex().map(|v| [v as u64, 0, 0, 0]));
        answers.push(layout.add_edge(4, 1).map(|()| [0; 4]));
        answers.push(layout.add_edge(4, 4).map(|()| [0; 4]));
        answers.push(layout.add_weighted_edge(4, 2, 9).map(|()| [0; 4]));
        answers.push(layout.add_weighted_edge(4, 3, 0).map(|()| [0; 4]));
        answers.push(layout.move_after(4, 0).map(|()| [0; 4]));
        let sifted = layout.sift(2);
        answers.push(sifted.map(|s| [s.reduction, s.optima.into(), 0, 0]));
        let round = layout.sifting_round();
        answers.push(round.map(|r| [r.reduction, r.moved.into(), r.optima.into(), 0]));
        let tally = layout.greedy_append(3);
        answers.push(tally.map(|tally| [tally, 0, 0, 0]));
        answers.push(layout.remove_edge(4, 1).map(|()| [0; 4]));
        let run = layout.converge(50);
        answers.push(run.map(|c| {
            let (rounds, converged) = (c.rounds.into(), c.converged.into());
            [c.reduction, rounds, converged, c.optima.into()]
        }));
        assert_eq!(answers[2], Err(Refusal::SameVertex));
        assert_eq!(answers[4], Err(Refusal::WeightOutOfRange));
        let due = Ok(Played { layout, answers });
        assert_eq!(play(Start::Chart(FIRST_CHART), &calls), due);
        assert_eq!(play(Start::Graph6(FIRST_GRAPH6), &calls), due);
    }

    #[test]
    fn an_empty_list_gives_the_start() {
        let first = Layout::from_chart(FIRST_CHART).unwrap();
        for (start, layout) in [
            (Start::Empty, Layout::empty()),
            (Start::Chart(FIRST_CHART), first.clone()),
            (Start::Graph6(FIRST_GRAPH6), first),
        ] {
            let answers = vec![];
            assert_eq!(play(start, &[]), Ok(Played { layout, answers }));
        }
    }

    #[test]
    fn a_refused_start_refuses_the_list() {
        let played = |start| play(start, &[Call::AddVertex]);
        assert_eq!(played(Start::Chart(&[1])), Err(Refusal::ChartFields));
        assert_eq!(played(Start::Graph6(&[1])), Err(Refusal::Graph6Size));
    }
}
