//! What stands in a list of calls, read back record by record.

use crate::make::ops::*;
use crate::make::records;

/// Bytes in a record; a chart or a graph6 is padded to a multiple of it.
const RECORD: usize = 32;

/// A record of a list, or what ends it.
#[derive(Clone, Debug, PartialEq)]
pub enum Entry<'a> {
    /// A start from a chart, with the chart.
    Chart(&'a [u8]),
    /// A start from a graph6, with the graph6.
    Import(&'a [u8]),
    /// Any other record that is played.
    Record(Record),
    /// A record with an unknown op, behind which nothing is played.
    Unknown(u64),
    /// A record that is cut short.
    CutRecord,
    /// A start whose bytes, so many, are cut short, or their padding.
    CutStart(&'static str, u64),
}

/// The records of a list, up to its end.
pub fn entries(mut list: &[u8]) -> Vec<Entry<'_>> {
    let mut entries = Vec::new();
    while !list.is_empty() && !entries.last().is_some_and(Entry::ends) {
        entries.push(take(&mut list));
    }
    entries
}

fn take<'a>(list: &mut &'a [u8]) -> Entry<'a> {
    let Some((bytes, rest)) = list.split_at_checked(RECORD) else {
        return Entry::CutRecord;
    };
    *list = rest;
    let mut record: Record = [0; 4];
    for (number, bytes) in record.iter_mut().zip(bytes.chunks(8)) {
        *number = bytes
            .iter()
            .rev()
            .fold(0, |sum, &byte| sum << 8 | u64::from(byte));
    }
    match record[0] {
        CHART => take_padded(list, record[1]).map_or(cut("chart", record), Entry::Chart),
        IMPORT => take_padded(list, record[1]).map_or(cut("import", record), Entry::Import),
        EMPTY | SET_N..=SET_WEIGHT | ADD..=WRITE | EXPORT..=PERLINK => Entry::Record(record),
        op => Entry::Unknown(op),
    }
}

fn cut<'a>(name: &'static str, [_, length, ..]: Record) -> Entry<'a> {
    Entry::CutStart(name, length)
}

/// So many bytes, if all of them and of their padding are there.
fn take_padded<'a>(list: &mut &'a [u8], length: u64) -> Option<&'a [u8]> {
    let length = usize::try_from(length).ok()?;
    let padded = length.checked_next_multiple_of(RECORD)?;
    let (bytes, rest) = list.split_at_checked(padded)?;
    *list = rest;
    Some(&bytes[..length])
}

impl Entry<'_> {
    fn ends(&self) -> bool {
        !matches!(self, Entry::Chart(_) | Entry::Import(_) | Entry::Record(_))
    }

    /// Whether a line is printed for it.
    pub fn says(&self) -> bool {
        !matches!(self, Entry::Record([SET_N..=SET_WEIGHT, ..]))
    }

    /// A list of it alone. What ends a list is played as a record cut short.
    pub fn list(&self) -> Vec<u8> {
        match self {
            Entry::Chart(chart) => records::chart(chart),
            Entry::Import(graph6) => records::import(graph6),
            Entry::Record(record) => records::bytes(*record),
            _ => vec![0],
        }
    }

    /// The record in words.
    pub fn text(&self) -> String {
        match self {
            Entry::Chart(chart) => format!("chart of {} bytes", chart.len()),
            Entry::Import(graph6) => format!("import of {} bytes", graph6.len()),
            Entry::Record(record) => record_text(*record),
            Entry::Unknown(op) => format!("unknown op {op}"),
            Entry::CutRecord => "a record cut short".to_string(),
            Entry::CutStart(name, length) => format!("{name} of {length} bytes, cut short"),
        }
    }
}

fn record_text([op, a, b, c]: Record) -> String {
    match op {
        EMPTY => "empty".to_string(),
        SET_N => format!("set n to {a}"),
        SET_ORDER => format!("set place {a} of the order to {b}"),
        SET_WORD => format!("set word {a} to {b}"),
        SET_COUNT => format!("set the count to {a}"),
        SET_WEIGHT => format!("set the weight of {a} towards {b} to {c}"),
        ADD => "add".to_string(),
        LINK => format!("link {a} {b} with weight {c}"),
        UNLINK => format!("unlink {a} {b}"),
        MOVE => format!("move {a} behind {b}"),
        LAY => format!("lay from {a}"),
        SIFT => format!("sift {a}"),
        ROUND => "round".to_string(),
        SETTLE => format!("settle with limit {a}"),
        COUNT => "count".to_string(),
        ORDER => format!("order into {a} bytes of {b}"),
        PAIR => "pair".to_string(),
        WRITE => format!("write into {a} bytes of {b}"),
        EXPORT => format!("export into {a} bytes of {b}"),
        _ => format!("perlink into {a} entries of {b}"),
    }
}

#[cfg(test)]
mod tests {
    use super::*;
    use crate::make::records::{bytes, chart, import};
    use crate::make::{lists, stored};
    use crate::naive::play::play;

    fn texts(list: &[u8]) -> Vec<String> {
        entries(list).iter().map(Entry::text).collect()
    }

    #[test]
    fn records_are_told_in_words() {
        let records = [
            [LINK, 3, 7, 258],
            [ORDER, 12, 255, 0],
            [SET_ORDER, 4, 9, 0],
            [SET_WEIGHT, 4, 9, 2],
            [WRITE, 18, 0, 0],
            [EXPORT, 2, 7, 0],
            [PERLINK, 3, 7, 0],
        ];
        let mut list = records.map(bytes).concat();
        list.extend(chart(&[0x44, 0, 1]));
        list.extend(import(b"CQ"));
        list.extend(bytes([SETTLE, 1000, 0, 0]));
        let due = [
            "link 3 7 with weight 258",
            "order into 12 bytes of 255",
            "set place 4 of the order to 9",
            "set the weight of 4 towards 9 to 2",
            "write into 18 bytes of 0",
            "export into 2 bytes of 7",
            "perlink into 3 entries of 7",
            "chart of 3 bytes",
            "import of 2 bytes",
            "settle with limit 1000",
        ];
        assert_eq!(texts(&list), due);
        let says: Vec<bool> = entries(&list).iter().map(Entry::says).collect();
        let quiet = [2, 3];
        assert!((0..says.len()).all(|i| says[i] != quiet.contains(&i)));
    }

    #[test]
    fn nothing_is_read_behind_the_end() {
        let add = bytes([ADD, 0, 0, 0]);
        let unknown = bytes([31, 0, 0, 0]);
        assert_eq!(
            texts(&[&add[..], &unknown, &add].concat()),
            ["add", "unknown op 31"]
        );
        assert_eq!(texts(&add[..31]), ["a record cut short"]);
        let long = bytes([CHART, u64::MAX, 0, 0]);
        let cut = format!("chart of {} bytes, cut short", u64::MAX);
        assert_eq!(texts(&[long, add].concat()), [cut]);
        let padding = chart(&[0x44]);
        assert_eq!(texts(&padding[..63]), ["chart of 1 bytes, cut short"]);
        let padding = import(b"CQ");
        assert_eq!(texts(&padding[..63]), ["import of 2 bytes, cut short"]);
    }

    #[test]
    fn each_line_has_its_record() {
        let known = Known::all();
        let made = (0..60).map(|index| lists::list(5, index, &known));
        let mut all: Vec<Vec<u8>> = made
            .filter(|made| made.naive)
            .map(|made| made.bytes)
            .collect();
        all.push(stored::list(&known));
        for list in all {
            let lines = play(&list);
            let said: Vec<Entry> = entries(&list).into_iter().filter(Entry::says).collect();
            assert_eq!(said.len(), lines.lines().count());
            for (entry, line) in said.iter().zip(lines.lines()) {
                let name = line.split(' ').next().expect("a word");
                assert!(name == "end" && entry.ends() || entry.text().starts_with(name));
            }
        }
    }
}
