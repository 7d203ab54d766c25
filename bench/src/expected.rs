//! What the second program has in another form than the library: a chart or
//! graph6 read into a layout, also one that was just written, a listing in a lent
//! buffer, a list of calls.

use rostulanda::ffi::ANSWER_NUMBERS;
use rostulanda::Start;
use second::calls::{self, Answer};
use second::layout::Layout;
use second::{chart, graph6, list};

use crate::lists::{is_call, Call, ADD, LAY, LINK, MOVE, ROUND, SETTLE, SIFT, UNLINK};

/// What playing a list gives, beside the table of the answers.
#[derive(Debug, PartialEq)]
pub struct Played {
    pub refusal: u8,
    pub layout: Layout,
    pub calls: usize,
}

/// What a call answers: the refusal number, and up to four numbers, the others
/// 0. A bool is 1 or 0.
type Row = [u64; ANSWER_NUMBERS];

/// The least buffer for a listing.
pub const LISTING_BYTES: usize = 1024;

/// The layout of a chart, or the empty one if the chart is refused. The layout
/// that it is read into plays no part.
pub fn read_chart(_: Layout, bytes: &[u8]) -> Answer<()> {
    answer(chart::read(bytes))
}

/// The layout of a graph6, or the empty one if the graph6 is refused. The layout
/// that it is imported into plays no part.
pub fn import_graph6(_: Layout, bytes: &[u8]) -> Answer<()> {
    answer(graph6::read(bytes))
}

fn answer(read: Result<Layout, u8>) -> Answer<()> {
    Answer {
        refusal: read.err().unwrap_or(0),
        layout: read.unwrap_or(Layout::EMPTY),
        value: (),
    }
}

/// Writes a chart, and reads it into another layout.
pub fn write_and_read(l: Layout, buffer: &mut [u8], other: Layout) -> Answer<()> {
    let length = calls::write_chart(l, buffer).value;
    read_chart(other, &buffer[..length])
}

/// Exports a graph6, and imports it into another layout.
pub fn export_and_import(l: Layout, buffer: &mut [u8], other: Layout) -> Answer<()> {
    let length = calls::write_graph6(l, buffer).value;
    import_graph6(other, &buffer[..length])
}

/// Whether a layout is valid.
pub fn is_valid(layout: Layout) -> Answer<bool> {
    Answer {
        refusal: 0,
        layout,
        value: layout.is_valid(),
    }
}

/// Writes a chart's listing to a buffer that is long enough for any, and gives
/// its length.
pub fn list_chart(bytes: &[u8], out: &mut [u8]) -> usize {
    if out.len() < LISTING_BYTES {
        return 0;
    }
    let listing = list::listing(bytes);
    out[..listing.len()].copy_from_slice(listing.as_bytes());
    listing.len()
}

/// Plays the calls up to the first number that is none, and writes a row of
/// numbers for each.
pub fn play(start: Start, numbers: &[u64], answers: &mut [u64]) -> Played {
    let start = match start {
        Start::Empty => Ok(Layout::EMPTY),
        Start::Chart(bytes) => chart::read(bytes),
        Start::Graph6(bytes) => graph6::read(bytes),
    };
    let list = numbers.as_chunks().0;
    let length = list.iter().take_while(|call| is_call(call)).count();
    let refused = |refusal, layout| Played {
        refusal,
        layout,
        calls: 0,
    };
    match start {
        Err(refusal) => refused(refusal, Layout::EMPTY),
        Ok(layout) if answers.len() < ANSWER_NUMBERS * length => refused(18, layout),
        Ok(layout) => play_all(layout, &list[..length], answers),
    }
}

fn play_all(mut layout: Layout, list: &[Call], answers: &mut [u64]) -> Played {
    for (&call, answer) in list.iter().zip(answers.as_chunks_mut().0) {
        *answer = play_call(&mut layout, call);
    }
    Played {
        refusal: 0,
        layout,
        calls: list.len(),
    }
}

fn play_call(layout: &mut Layout, [op, a, b, weight]: Call) -> Row {
    let l = *layout;
    let limit = u32::try_from(a).unwrap_or(u32::MAX);
    match op {
        ADD => row(layout, calls::add_vertex(l), |v| [v, 0, 0, 0]),
        LINK => row(layout, calls::add_edge(l, a, b, weight as u8), |()| [0; 4]),
        UNLINK => row(layout, calls::remove_edge(l, a, b), |()| [0; 4]),
        MOVE => row(layout, calls::move_after(l, a, b), |()| [0; 4]),
        LAY => row(layout, calls::greedy_append(l, a), |tally| [tally, 0, 0, 0]),
        SIFT => row(layout, calls::sift(l, a), |s| {
            [s.reduction, s.optima.into(), 0, 0]
        }),
        ROUND => row(layout, calls::sifting_round(l), |r| {
            [r.reduction, r.moved.into(), r.optima.into(), 0]
        }),
        SETTLE => row(layout, calls::converge(l, limit), |c| {
            let [rounds, optima] = [c.rounds, c.optima].map(u64::from);
            [c.reduction, rounds, c.converged.into(), optima]
        }),
        _ => unreachable!("a list has calls only"),
    }
}

/// Takes over the answer's layout, and gives its row.
fn row<T>(layout: &mut Layout, answer: Answer<T>, numbers: fn(T) -> [u64; 4]) -> Row {
    *layout = answer.layout;
    let [a, b, c, d] = numbers(answer.value);
    [answer.refusal.into(), a, b, c, d]
}
