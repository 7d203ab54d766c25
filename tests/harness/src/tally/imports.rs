//! What occurs of graph6 that are imported.

use crate::entries::Entry;
use crate::followed::Step;
use crate::make::graph6::{length, padding, padding_bits, paddings};
use crate::make::ops::{Known, EXPORT, IMPORT};
use crate::naive::graph6::{long_size, size};

/// What a graph6 is, and whether it is that.
type Sort = (&'static str, fn(&[u8]) -> bool);

/// The largest size that graph6 has in three bytes.
const MOST: usize = 258_047;

/// Sorts of graph6 that are refused with 20.
const BAD_SIZES: [Sort; 14] = [
    ("no byte", |graph6| graph6.is_empty()),
    ("a first byte 62", |graph6| graph6.starts_with(&[62])),
    ("a first byte 127", |graph6| graph6.starts_with(&[127])),
    ("126 alone", |graph6| is_cut(graph6, 0)),
    ("126 and one byte", |graph6| is_cut(graph6, 1)),
    ("126 and two bytes", |graph6| is_cut(graph6, 2)),
    ("a byte 62 in three", |graph6| has_in_three(graph6, 62)),
    ("a byte 127 in three", |graph6| has_in_three(graph6, 127)),
    ("the long form of 61 or less", |graph6| {
        long_size(graph6).is_some_and(|n| n <= 61)
    }),
    ("the long form of 62", |graph6| {
        long_size(graph6) == Some(62)
    }),
    ("65 vertices", |graph6| long_size(graph6) == Some(65)),
    ("more than 65 vertices", |graph6| {
        long_size(graph6).is_some_and(|n| (66..=MOST).contains(&n))
    }),
    ("126 twice", |graph6| graph6.starts_with(&[126, 126])),
    ("a header", |graph6| graph6.starts_with(b">>graph6<<")),
];

/// Sorts of graph6 that are refused with 21.
const BAD_DATA: [Sort; 5] = [
    ("a byte too few", |graph6| longer(graph6) == Some(-1)),
    ("a byte too many", |graph6| longer(graph6) == Some(1)),
    ("a line end", |graph6| graph6.ends_with(b"\n")),
    ("a byte 62 in the data", |graph6| has_in_data(graph6, 62)),
    ("a byte 127 in the data", |graph6| has_in_data(graph6, 127)),
];

pub const EXPORTED: &str = "exported again";

/// What should occur with known calls.
pub fn due(known: &Known) -> Vec<String> {
    if !known.has(IMPORT) {
        return Vec::new();
    }
    let sorts = BAD_SIZES.iter().chain(&BAD_DATA);
    let mut due: Vec<String> = sorts.map(|(name, _)| name.to_string()).collect();
    due.extend(paddings().into_iter().map(unset));
    due.extend(padding_bits().into_iter().map(set));
    if known.has(EXPORT) {
        due.push(EXPORTED.to_string());
    }
    due
}

/// What occurs of it in a line of `import` with some refusal number.
pub fn met(step: &Step, refusal: u8) -> Vec<String> {
    let Entry::Import(graph6) = step.entry else {
        return Vec::new();
    };
    let named = |sorts: &[Sort]| -> Vec<String> {
        let named = sorts.iter().filter(|(_, is)| is(graph6));
        named.map(|(name, _)| name.to_string()).collect()
    };
    match refusal {
        0 => vec![unset(padding(step.n()))],
        20 => named(&BAD_SIZES),
        21 => named(&BAD_DATA),
        _ => set_alone(graph6).into_iter().collect(),
    }
}

fn unset(padding: usize) -> String {
    format!("{padding} padding bits, accepted")
}

fn set((padding, bit): (usize, usize)) -> String {
    format!("{padding} padding bits, bit {bit} of them set")
}

/// Whether it is 126 and so many bytes.
fn is_cut(graph6: &[u8], more: usize) -> bool {
    graph6.starts_with(&[126]) && graph6.len() == 1 + more
}

/// Whether a byte is among the three behind 126.
fn has_in_three(graph6: &[u8], byte: u8) -> bool {
    graph6.starts_with(&[126]) && graph6.get(1..4).is_some_and(|three| three.contains(&byte))
}

/// By how many bytes it is longer than its size allows.
fn longer(graph6: &[u8]) -> Option<i64> {
    let (n, _) = size(graph6)?;
    Some(graph6.len() as i64 - length(n) as i64)
}

/// Whether data of the length that is due has a byte.
fn has_in_data(graph6: &[u8], byte: u8) -> bool {
    longer(graph6) == Some(0) && size(graph6).is_some_and(|(_, data)| data.contains(&byte))
}

/// The padding bit that is set, if it is one alone.
fn set_alone(graph6: &[u8]) -> Option<String> {
    let (n, data) = size(graph6)?;
    let last = data.last()? - 63;
    let mut bits = (0..padding(n)).filter(|bit| last >> bit & 1 == 1);
    let alone = bits.next().filter(|_| bits.next().is_none())?;
    Some(set((padding(n), alone)))
}

#[cfg(test)]
mod tests {
    use super::*;
    use crate::followed::steps;
    use crate::make::graph6::SPECIALS;
    use crate::make::records;
    use crate::naive::play::play;
    use crate::rng::Rng;

    /// What occurs in the import of a graph6.
    fn sorts(graph6: &[u8]) -> Vec<String> {
        let list = records::import(graph6);
        let lines = play(&list);
        let step = steps(&list, &lines).next().expect("a line");
        let (_, refusal) = step.answer().expect("an import");
        met(&step, refusal)
    }

    #[test]
    fn each_sort_of_import_is_told() {
        for (graph6, due) in [
            (&b""[..], &["no byte"][..]),
            (b">", &["a first byte 62"]),
            (b"\x7f", &["a first byte 127"]),
            (b"~", &["126 alone"]),
            (b"~?", &["126 and one byte"]),
            (b"~?@", &["126 and two bytes"]),
            (b"~?>?", &["a byte 62 in three"]),
            (b"~?@\x7f", &["a byte 127 in three"]),
            (b"~??|", &["the long form of 61 or less"]),
            (b"~??}", &["the long form of 62"]),
            (b"~?@@", &["65 vertices"]),
            (b"~?@A", &["more than 65 vertices"]),
            (b"~}~~", &["more than 65 vertices"]),
            (b"~~?@", &["126 twice"]),
            (b">>graph6<<?", &["a first byte 62", "a header"]),
            (b"DQ", &["a byte too few"]),
            (b"DQc?", &["a byte too many"]),
            (b"DQc??", &[]),
            (b"DQc\n", &["a byte too many", "a line end"]),
            (b"D>c", &["a byte 62 in the data"]),
            (b"DQ\x7f", &["a byte 127 in the data"]),
            (b"?", &["0 padding bits, accepted"]),
            (b"DQc", &["2 padding bits, accepted"]),
            (b"DQd", &["2 padding bits, bit 0 of them set"]),
            (b"DQe", &["2 padding bits, bit 1 of them set"]),
            (b"DQf", &[]),
            (b"Bw", &["3 padding bits, accepted"]),
            (b"A_", &["5 padding bits, accepted"]),
            (b"AO", &["5 padding bits, bit 4 of them set"]),
        ] {
            assert_eq!(sorts(graph6), due, "{}", graph6.escape_ascii());
        }
    }

    /// So that a long run meets each of them.
    #[test]
    fn the_special_ones_are_of_every_sort() {
        for seed in 0..20 {
            let special = SPECIALS.iter();
            let made = special.map(|special| (special.make)(&mut Rng::new(seed, special.kind, 0)));
            let met: Vec<String> = made.flat_map(|graph6| sorts(&graph6)).collect();
            for (name, _) in BAD_SIZES.iter().chain(&BAD_DATA) {
                assert!(met.contains(&name.to_string()), "{name}");
            }
        }
    }

    #[test]
    fn all_but_what_is_exported_is_due_without_export() {
        let known = Known::parse("import,count").expect("known names");
        let all = due(&Known::all());
        assert_eq!(all[..all.len() - 1], due(&known));
        assert_eq!(all.len(), 14 + 5 + 4 + 10 + 1);
    }
}
