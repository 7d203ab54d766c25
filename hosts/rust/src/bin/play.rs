//! Plays a list of calls from standard input through one lent layout and prints
//! the answer lines. Both formats are in tests/README.md.

use std::fmt::Display;
use std::io::{self, Read, Write};

use rostulanda::{Layout, Refusal, PLACES};

/// Bytes in a record; a chart or graph6 is padded to a multiple of it.
const RECORD: usize = 32;

/// The longest buffers that a list can lend: for an order, and for a chart or
/// graph6; and the longest table, for the crossings of every edge.
const LONGEST_ORDER: u64 = 255;
const LONGEST_WRITTEN: u64 = 8192;
const LONGEST_TABLE: u64 = 2100;

/// A record: the op and its three numbers.
type Record = [u64; 4];

/// A call that reads a layout from bytes, and one that writes it to them.
type Reading = fn(&mut Layout, &[u8]) -> Result<(), Refusal>;
type Writing = fn(&Layout, &mut [u8]) -> Result<usize, Refusal>;

fn main() -> io::Result<()> {
    let mut list = Vec::new();
    io::stdin().lock().read_to_end(&mut list)?;
    io::stdout().lock().write_all(play(&list).as_bytes())
}

/// All answer lines.
fn play(mut list: &[u8]) -> String {
    let mut layout = Layout::empty();
    let mut lines = String::new();
    while !list.is_empty() {
        let before = layout.clone();
        let Some(record) = take_record(&mut list) else {
            return lines + "end\n";
        };
        if set_field(&mut layout, record) {
            continue;
        }
        let Some(told) = play_record(&mut layout, record, &mut list) else {
            return lines + "end\n";
        };
        lines += &told;
        lines += &layout_text(&layout, &before);
    }
    lines
}

/// The next record, if all of it is there.
fn take_record(list: &mut &[u8]) -> Option<Record> {
    let (bytes, rest) = list.split_at_checked(RECORD)?;
    *list = rest;
    let mut record = [0; 4];
    for (number, bytes) in record.iter_mut().zip(bytes.chunks(8)) {
        *number = u64::from_le_bytes(bytes.try_into().ok()?);
    }
    Some(record)
}

/// The next chart or graph6, if all of it and of its padding is there.
fn take_bytes<'a>(list: &mut &'a [u8], length: u64) -> Option<&'a [u8]> {
    let length = usize::try_from(length).ok()?;
    let padded = length.checked_next_multiple_of(RECORD)?;
    let (bytes, rest) = list.split_at_checked(padded)?;
    *list = rest;
    Some(&bytes[..length])
}

/// Sets one field, if that is what the record asks for.
fn set_field(layout: &mut Layout, [op, a, b, c]: Record) -> bool {
    let fields = layout.fields_mut();
    let (place, other) = (a as usize, b as usize);
    match op {
        2 => fields.n = place,
        3 if place < PLACES => fields.order[place] = b as u8,
        4 if place < PLACES => fields.adjacency[place] = b,
        5 => fields.count = a,
        6 if place < PLACES && other < PLACES => fields.weights[PLACES * place + other] = c as u8,
        3 | 4 | 6 => {}
        _ => return false,
    }
    true
}

/// Plays one record that answers: its name, refusal code and answers. None if
/// it ends the list.
fn play_record(layout: &mut Layout, record: Record, list: &mut &[u8]) -> Option<String> {
    let [op, a, ..] = record;
    match op {
        0 => {
            *layout = Layout::empty();
            Some(told("empty", "", Ok(String::new())))
        }
        1 => start(layout, "chart", Layout::read_chart, list, a),
        28 => start(layout, "import", Layout::import_graph6, list, a),
        _ => change(layout, record).or_else(|| read(layout, record)),
    }
}

/// A call that changes the layout. None if the record is no such call.
fn change(layout: &mut Layout, [op, a, b, c]: Record) -> Option<String> {
    let (v, w) = (a as usize, b as usize);
    let none = |()| String::new();
    let number = |number: u64| format!(" {number}");
    Some(match op {
        16 => told("add", " 0", layout.add_vertex().map(|v| format!(" {v}"))),
        17 => {
            let added = layout.add_weighted_edge(v, w, c as u8);
            told("link", "", added.map(none))
        }
        18 => told("unlink", "", layout.remove_edge(v, w).map(none)),
        19 => told("move", "", layout.move_after(v, w).map(none)),
        20 => told("lay", " 0", layout.greedy_append(v).map(number)),
        21 => told("sift", " 0 0", sift_text(layout, v)),
        22 => told("round", " 0 0 0", round_text(layout)),
        23 => {
            let limit = u32::try_from(a).unwrap_or(u32::MAX);
            told("settle", " 0 0 no 0", converge_text(layout, limit))
        }
        _ => return None,
    })
}

/// A call that only reads the layout. None if the record is no such call.
fn read(layout: &Layout, record: Record) -> Option<String> {
    let [op, a, b, _] = record;
    Some(match op {
        24 => told("count", " 0", layout.count().map(|c| format!(" {c}"))),
        25 => {
            let mut buffer = filled(a, LONGEST_ORDER, b as u8);
            let written = layout.write_order(&mut buffer);
            told("order", "", written.map(|()| String::new())) + &buffer_text(&buffer)
        }
        26 => told("pair", " refused", crossing_text(layout)),
        27 => write(layout, "write", Layout::write_chart, record),
        29 => write(layout, "export", Layout::export_graph6, record),
        30 => edge_crossings(layout, record),
        _ => return None,
    })
}

/// Starts from a chart or graph6, and from the empty layout if that is refused.
/// None if it is cut short.
fn start(
    layout: &mut Layout,
    name: &str,
    read: Reading,
    list: &mut &[u8],
    length: u64,
) -> Option<String> {
    let bytes = take_bytes(list, length)?;
    *layout = Layout::empty();
    let accepted = read(layout, bytes).map(|()| String::new());
    Some(told(name, "", accepted))
}

/// Writes a chart or graph6.
fn write(layout: &Layout, name: &str, write: Writing, [_, a, b, _]: Record) -> String {
    let mut buffer = filled(a, LONGEST_WRITTEN, b as u8);
    let written = write(layout, &mut buffer);
    told(name, " 0", written.map(|l| format!(" {l}"))) + &buffer_text(&buffer)
}

fn edge_crossings(layout: &Layout, [_, a, b, _]: Record) -> String {
    let mut table = filled(a, LONGEST_TABLE, b);
    let edges = layout.write_edge_crossings(&mut table);
    told("perlink", " 0", edges.map(|e| format!(" {e}"))) + " table" + &numbers(&table)
}

/// A buffer or table to be lent, of at most so many elements.
fn filled<T: Clone>(length: u64, longest: u64, fill: T) -> Vec<T> {
    vec![fill; length.min(longest) as usize]
}

fn sift_text(layout: &mut Layout, u: usize) -> Result<String, Refusal> {
    let sifted = layout.sift(u)?;
    Ok(format!(" {} {}", sifted.reduction, sifted.optima))
}

fn round_text(layout: &mut Layout) -> Result<String, Refusal> {
    let round = layout.sifting_round()?;
    Ok(format!(
        " {} {} {}",
        round.reduction, round.moved, round.optima
    ))
}

fn converge_text(layout: &mut Layout, limit: u32) -> Result<String, Refusal> {
    let run = layout.converge(limit)?;
    let settled = if run.converged { "yes" } else { "no" };
    Ok(format!(
        " {} {} {settled} {}",
        run.reduction, run.rounds, run.optima
    ))
}

fn crossing_text(layout: &Layout) -> Result<String, Refusal> {
    Ok(match layout.first_crossing()? {
        Some((first, second)) => format!(
            " pair {} {} {} {}",
            first.low, first.high, second.low, second.high
        ),
        None => " none".to_string(),
    })
}

/// The name, the refusal code, and the answers of an accepted or of a refused
/// call.
fn told(name: &str, when_refused: &str, answer: Result<String, Refusal>) -> String {
    match answer {
        Ok(answers) => format!("{name} 0{answers}"),
        Err(refusal) => format!("{name} {}{when_refused}", refusal.code()),
    }
}

/// What a lent buffer holds after the call.
fn buffer_text(buffer: &[u8]) -> String {
    format!(" buffer{}", numbers(buffer))
}

/// Each number with a space before it.
fn numbers<T: Display>(values: &[T]) -> String {
    values.iter().map(|value| format!(" {value}")).collect()
}

/// The layout, with the adjacency words and weights that differ from those
/// before.
fn layout_text(layout: &Layout, before: &Layout) -> String {
    let (now, before) = (layout.fields(), before.fields());
    let words: String = (0..PLACES)
        .filter(|&v| now.adjacency[v] != before.adjacency[v])
        .map(|v| format!(" {v} {}", now.adjacency[v]))
        .collect();
    let weights: String = (0..PLACES * PLACES)
        .filter(|&i| now.weights[i] != before.weights[i])
        .map(|i| format!(" {} {} {}", i / PLACES, i % PLACES, now.weights[i]))
        .collect();
    let (n, order, count) = (now.n, numbers(&now.order), now.count);
    format!(" n {n} order{order} count {count} words{words} weights{weights}\n")
}
