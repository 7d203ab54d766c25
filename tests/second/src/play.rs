//! Playing a list of calls. The format of lists and of answer lines is in
//! tests/README.md.

use std::fmt::Display;

use crate::calls::{self, Answer, Crossing};
use crate::chart;
use crate::graph6;
use crate::layout::Layout;
use crate::list::yes_or_no;

/// Bytes in a record; a chart or a graph6 is padded to a multiple of it.
const RECORD: usize = 32;

/// Bytes in the longest buffer that a chart or a graph6 is written to.
const BUFFER: u64 = 8192;

/// Entries in the longest table that crossings are written to.
const TABLE: u64 = 2100;

/// A record: the op and its three numbers.
type Record = [u64; 4];

/// What one record does.
struct Told {
    name: &'static str,
    refusal: u8,
    answers: String,
    layout: Layout,
}

/// Plays a list from the empty layout and gives all answer lines.
pub fn play(mut list: &[u8]) -> String {
    let mut layout = Layout::EMPTY;
    let mut lines = String::new();
    while !list.is_empty() {
        let Some(record) = take_record(&mut list) else {
            return lines + "end\n";
        };
        if set_field(&mut layout, record) {
            continue;
        }
        let Some(told) = start(record, &mut list).or_else(|| call(layout, record)) else {
            return lines + "end\n";
        };
        lines += &line(&told, &layout);
        layout = told.layout;
    }
    lines
}

/// The next record, if all of it is there.
fn take_record(list: &mut &[u8]) -> Option<Record> {
    let (bytes, rest) = list.split_at_checked(RECORD)?;
    *list = rest;
    let mut record = [0; 4];
    for (number, bytes) in record.iter_mut().zip(bytes.chunks(8)) {
        *number = u64::from_le_bytes(bytes.try_into().ok()?);
    }
    Some(record)
}

/// The next chart or graph6, if all of it and of its padding is there.
fn take_padded<'a>(list: &mut &'a [u8], length: u64) -> Option<&'a [u8]> {
    let length = usize::try_from(length).ok()?;
    let padded = length.checked_next_multiple_of(RECORD)?;
    let (bytes, rest) = list.split_at_checked(padded)?;
    *list = rest;
    Some(&bytes[..length])
}

/// Sets one field, if that is what the record asks for. A place that is not
/// there sets nothing.
fn set_field(layout: &mut Layout, [op, a, b, c]: Record) -> bool {
    match op {
        2 => layout.n = a,
        3 => set_place(&mut layout.order, a, b as u8),
        4 => set_place(&mut layout.adjacency, a, b),
        5 => layout.count = a,
        6 => {
            if let Some(row) = place_of(&mut layout.weights, a) {
                set_place(row, b, c as u8);
            }
        }
        _ => return false,
    }
    true
}

fn place_of<T>(places: &mut [T], place: u64) -> Option<&mut T> {
    places.get_mut(usize::try_from(place).ok()?)
}

fn set_place<T>(places: &mut [T], place: u64, value: T) {
    if let Some(held) = place_of(places, place) {
        *held = value;
    }
}

/// Starts from the empty layout, from a chart or from a graph6.
fn start([op, a, _, _]: Record, list: &mut &[u8]) -> Option<Told> {
    let (name, read) = match op {
        0 => ("empty", Ok(Layout::EMPTY)),
        1 => ("chart", chart::read(take_padded(list, a)?)),
        28 => ("import", graph6::read(take_padded(list, a)?)),
        _ => return None,
    };
    Some(Told {
        name,
        refusal: read.err().unwrap_or(0),
        answers: String::new(),
        layout: read.unwrap_or(Layout::EMPTY),
    })
}

/// Makes one call.
fn call(layout: Layout, [op, a, b, c]: Record) -> Option<Told> {
    let limit = u32::try_from(a).unwrap_or(u32::MAX);
    Some(match op {
        16 => told("add", calls::add_vertex(layout), |v| format!(" {v}")),
        17 => told("link", calls::add_edge(layout, a, b, c as u8), |()| {
            String::new()
        }),
        18 => told("unlink", calls::remove_edge(layout, a, b), |()| {
            String::new()
        }),
        19 => told("move", calls::move_after(layout, a, b), |()| String::new()),
        20 => told("lay", calls::greedy_append(layout, a), |t| format!(" {t}")),
        21 => told("sift", calls::sift(layout, a), |s| {
            format!(" {} {}", s.reduction, s.optima)
        }),
        22 => told("round", calls::sifting_round(layout), |r| {
            format!(" {} {} {}", r.reduction, r.moved, r.optima)
        }),
        23 => told("settle", calls::converge(layout, limit), |c| {
            let converged = yes_or_no(c.converged);
            format!(" {} {} {converged} {}", c.reduction, c.rounds, c.optima)
        }),
        24 => told("count", calls::count(layout), |c| format!(" {c}")),
        25 => read_order(layout, a, b),
        26 => told("pair", calls::first_crossing(layout), pair_text),
        27 => write("write", a, b, |buffer| calls::write_chart(layout, buffer)),
        29 => write("export", a, b, |buffer| calls::write_graph6(layout, buffer)),
        30 => count_each(layout, a, b),
        _ => return None,
    })
}

/// The call `order`, into a buffer of at most 255 bytes.
fn read_order(layout: Layout, length: u64, fill: u64) -> Told {
    let buffer = vec![fill as u8; length.min(255) as usize];
    let read = |buffer: &mut [u8]| calls::order(layout, buffer);
    lent("order", " buffer", buffer, read, |()| String::new())
}

/// A call that writes the layout into a buffer and answers a length.
fn write(
    name: &'static str,
    length: u64,
    fill: u64,
    call: impl FnOnce(&mut [u8]) -> Answer<usize>,
) -> Told {
    let buffer = vec![fill as u8; length.min(BUFFER) as usize];
    lent(name, " buffer", buffer, call, |l| format!(" {l}"))
}

/// The call `perlink`, which counts the crossings of each edge into a table.
fn count_each(layout: Layout, length: u64, fill: u64) -> Told {
    let table = vec![fill; length.min(TABLE) as usize];
    let count = |table: &mut [u64]| calls::edge_crossings(layout, table);
    lent("perlink", " table", table, count, |m| format!(" {m}"))
}

/// A call that is lent a buffer or a table, which is shown behind a word.
fn lent<E: Display, T>(
    name: &'static str,
    word: &str,
    mut entries: Vec<E>,
    call: impl FnOnce(&mut [E]) -> Answer<T>,
    text: impl FnOnce(T) -> String,
) -> Told {
    let answer = call(&mut entries);
    let shown = numbers(entries);
    told(name, answer, |value| text(value) + word + &shown)
}

fn pair_text(crossing: Crossing) -> String {
    match crossing {
        Crossing::Pair((a, b), (c, d)) => format!(" pair {a} {b} {c} {d}"),
        Crossing::None => " none".to_string(),
        Crossing::Refused => " refused".to_string(),
    }
}

fn told<T>(name: &'static str, answer: Answer<T>, text: impl FnOnce(T) -> String) -> Told {
    Told {
        name,
        refusal: answer.refusal,
        answers: text(answer.value),
        layout: answer.layout,
    }
}

/// Each number with a space before it.
fn numbers(numbers: impl IntoIterator<Item = impl Display>) -> String {
    let words = numbers.into_iter().map(|number| format!(" {number}"));
    words.collect()
}

/// The answer line, with the words and the weights that differ from those
/// before.
fn line(told: &Told, before: &Layout) -> String {
    let Told { name, refusal, .. } = told;
    let Layout { n, count, .. } = told.layout;
    let answers = &told.answers;
    let order = numbers(told.layout.order);
    let words: String = changed(&before.adjacency, &told.layout.adjacency)
        .map(|(v, word)| format!(" {v} {word}"))
        .collect();
    let weights: String = changed(&before.weights, &told.layout.weights)
        .flat_map(|(v, row)| changed(&before.weights[v], row).map(move |(w, x)| (v, w, x)))
        .map(|(v, w, weight)| format!(" {v} {w} {weight}"))
        .collect();
    format!(
        "{name} {refusal}{answers} n {n} order{order} count {count} \
         words{words} weights{weights}\n"
    )
}

/// What differs from before, with its place.
fn changed<'a, T: PartialEq>(
    before: &'a [T],
    after: &'a [T],
) -> impl Iterator<Item = (usize, &'a T)> {
    let both = before.iter().zip(after).enumerate();
    both.filter(|(_, (before, after))| before != after)
        .map(|(place, (_, after))| (place, after))
}
