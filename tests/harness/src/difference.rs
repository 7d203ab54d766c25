//! Where two outputs differ, told by their differing words only, and a
//! difference planted to be found.

use crate::label::{labelled, Labelled, Output};
use crate::rng::Rng;

/// So many differing words are shown.
const SHOWN: usize = 12;

/// The first line that differs, counted from 1, and what differs in it.
#[derive(Debug, PartialEq)]
pub struct Difference {
    pub line: usize,
    /// One text for each differing word.
    pub words: Vec<String>,
}

impl Difference {
    /// The differing words, or the first of them.
    pub fn text(&self) -> String {
        let mut lines: Vec<String> = self.words.iter().take(SHOWN).cloned().collect();
        if self.words.len() > SHOWN {
            lines.push(format!("and {} more", self.words.len() - SHOWN));
        }
        lines.join("\n")
    }
}

/// Compares byte for byte.
pub fn first_difference(output: Output, one: &[u8], other: &[u8]) -> Option<Difference> {
    let mut one = one.split_inclusive(|&b| b == b'\n');
    let mut other = other.split_inclusive(|&b| b == b'\n');
    for line in 1.. {
        match (one.next(), other.next()) {
            (None, None) => break,
            (a, b) if a == b => {}
            (a, b) => {
                let words = differing(output, a, b);
                return Some(Difference { line, words });
            }
        }
    }
    None
}

/// What differs between two lines, one of which may be missing.
fn differing(output: Output, one: Option<&[u8]>, other: Option<&[u8]>) -> Vec<String> {
    let texts = [one, other].map(|line| line.map(shown));
    let [Some((one, one_end)), Some((other, other_end))] = texts else {
        let names = texts.map(|text| text.map_or("no line".to_string(), |(text, _)| name(&text)));
        return vec![format!("the line: {} against {}", names[0], names[1])];
    };
    let mut words = differing_words(output, &one, &other);
    if one_end != other_end {
        let told = |end| if end { "there" } else { "missing" };
        let (one, other) = (told(one_end), told(other_end));
        words.push(format!("the line end: {one} against {other}"));
    }
    words
}

/// A line in printable characters, and whether its line end is there.
fn shown(line: &[u8]) -> (String, bool) {
    let ended = line.strip_suffix(b"\n");
    let text = ended.unwrap_or(line).escape_ascii().to_string();
    (text, ended.is_some())
}

fn name(line: &str) -> String {
    line.split(' ').next().unwrap_or_default().to_string()
}

/// The words that differ: the name alone, or what is the same in both lines, or
/// where that shows nothing, the words with the same number.
fn differing_words(output: Output, one: &str, other: &str) -> Vec<String> {
    if name(one) != name(other) {
        return vec![format!(
            "word 1, the name: {} against {}",
            name(one),
            name(other)
        )];
    }
    let by_label = by_label(&labelled(output, one), &labelled(output, other));
    if by_label.is_empty() {
        by_number(one, other)
    } else {
        by_label
    }
}

fn by_label(one: &[Labelled], other: &[Labelled]) -> Vec<String> {
    let mut words = Vec::new();
    for a in one {
        match other.iter().find(|b| b.label == a.label) {
            Some(b) if a.word == b.word => {}
            Some(b) => words.push(against(a, a.word, b.word)),
            None => words.push(against(a, a.word, "nothing")),
        }
    }
    let missing = |b: &&Labelled| !one.iter().any(|a| a.label == b.label);
    let missing = other.iter().filter(missing);
    words.extend(missing.map(|b| against(b, "nothing", b.word)));
    words
}

fn against(at: &Labelled, one: &str, other: &str) -> String {
    format!("word {}, {}: {one} against {other}", at.number, at.label)
}

fn by_number(one: &str, other: &str) -> Vec<String> {
    let [one, other]: [Vec<&str>; 2] = [one, other].map(|line| line.split(' ').collect());
    let word = |words: &[&str], i: usize| words.get(i).map_or("nothing".to_string(), quoted);
    let numbers = (0..one.len().max(other.len())).filter(|&i| one.get(i) != other.get(i));
    let told = |i| {
        format!(
            "word {}: {} against {}",
            i + 1,
            word(&one, i),
            word(&other, i)
        )
    };
    numbers.map(told).collect()
}

fn quoted(word: &&str) -> String {
    if word.is_empty() {
        "``".to_string()
    } else {
        word.to_string()
    }
}

/// Adds 1 to one of the numbers in an output.
pub fn plant(output: &[u8], rng: &mut Rng) -> Vec<u8> {
    let text = String::from_utf8_lossy(output);
    let mut words: Vec<String> = text.split(' ').map(String::from).collect();
    let parsed = |word: &String| word.parse::<u128>().ok();
    let numbers: Vec<usize> = (0..words.len())
        .filter(|&i| parsed(&words[i]).is_some())
        .collect();
    if !numbers.is_empty() {
        let chosen = rng.pick(&numbers);
        words[chosen] = (parsed(&words[chosen]).unwrap_or(0) + 1).to_string();
    }
    words.join(" ").into_bytes()
}

#[cfg(test)]
mod tests {
    use super::*;
    use Output::{Answers, Listing};

    /// The line and the words of the first difference.
    fn found(output: Output, one: &str, other: &str) -> (usize, Vec<String>) {
        let found = first_difference(output, one.as_bytes(), other.as_bytes());
        let found = found.expect("a difference");
        (found.line, found.words)
    }

    #[test]
    fn equal_outputs_do_not_differ() {
        assert_eq!(
            first_difference(Listing, b"a 1\nb 2\n", b"a 1\nb 2\n"),
            None
        );
        assert_eq!(first_difference(Answers, b"", b""), None);
    }

    #[test]
    fn only_the_differing_words_are_told() {
        let one =
            "count 0 7 n 3 order 0 1 2 count 7 words\nlay 0 4 n 3 order 2 0 1 count 9 words\n";
        let other = one.replace("lay 0 4 n 3 order 2 0 1", "lay 0 5 n 3 order 0 2 1");
        let due = [
            "word 3, the tally: 4 against 5",
            "word 7, place 0 of the order: 2 against 0",
            "word 8, place 1 of the order: 0 against 2",
        ];
        assert_eq!(
            found(Answers, one, &other),
            (2, due.map(String::from).to_vec())
        );
        let due = vec!["word 3, place 1 of the order: 1 against 2".to_string()];
        assert_eq!(
            found(Listing, "n 3\norder 0 1\n", "n 3\norder 0 2\n"),
            (2, due)
        );
    }

    #[test]
    fn a_neighbour_word_more_does_not_move_the_others() {
        let one = "link 0 n 8 order 0 count 0 words 3 128 7 8\n";
        let other = "link 0 n 8 order 0 count 0 words 7 8\n";
        let due = vec!["word 11, neighbour word 3: 128 against nothing".to_string()];
        assert_eq!(found(Answers, one, other), (1, due));
        let due = vec!["word 11, neighbour word 3: nothing against 128".to_string()];
        assert_eq!(found(Answers, other, one), (1, due));
    }

    #[test]
    fn a_weight_more_or_another_is_told() {
        let one = "link 0 n 8 order 0 count 0 words 3 128 weights 3 7 2 7 3 2\n";
        let other = "link 0 n 8 order 0 count 0 words 3 128 weights 3 7 3 5 1 9\n";
        let due = [
            "word 15, weight of 3 towards 7: 2 against 3",
            "word 18, weight of 7 towards 3: 2 against nothing",
            "word 18, weight of 5 towards 1: nothing against 9",
        ];
        let (line, words) = found(Answers, one, other);
        assert_eq!((line, &words[..]), (1, &due.map(String::from)[..]));
        let (_, words) = found(Answers, one, &one.replace(" weights", ""));
        assert_eq!(words[0], "word 12, `weights`: weights against nothing");
    }

    #[test]
    fn a_length_and_a_byte_are_told() {
        for name in ["write", "export"] {
            let one = format!("{name} 0 10 buffer 68 0 1 0 n 0 order 0 count 0 words\n");
            let other = one.replace("10 buffer 68 0 1", "11 buffer 68 1 1");
            let due = [
                "word 3, the length: 10 against 11",
                "word 6, byte 1 of the buffer: 0 against 1",
            ];
            assert_eq!(
                found(Answers, &one, &other),
                (1, due.map(String::from).to_vec())
            );
        }
    }

    #[test]
    fn a_number_of_edges_and_an_entry_are_told() {
        let one = "perlink 0 2 table 1 1 7 n 4 order 0 1 2 3 count 1 words\n";
        let other = one.replace("2 table 1 1 7 n", "3 table 1 2 n");
        let due = [
            "word 3, the number of edges: 2 against 3",
            "word 6, entry 1 of the table: 1 against 2",
            "word 7, entry 2 of the table: 7 against nothing",
        ];
        assert_eq!(
            found(Answers, one, &other),
            (1, due.map(String::from).to_vec())
        );
    }

    #[test]
    fn another_import_is_told() {
        let one = "import 0 n 4 order 0 1 2 3 count 1 words 0 4 1 8 2 1 3 2\n";
        for (to, due) in [
            ("import 22 n", "word 2, the refusal number: 0 against 22"),
            ("import 0 m", "word 3, `n`: n against nothing"),
        ] {
            let other = one.replace("import 0 n", to);
            assert_eq!(found(Answers, one, &other).1[0], due);
        }
        let other = one.replace("0 4 1 8 2 1 3 2", "0 8 1 4 2 2 3 1");
        let due = "word 14, neighbour word 0: 4 against 8";
        assert_eq!(found(Answers, one, &other).1[0], due);
        let other = one.replace("order 0 1 2 3 count 1", "order 0 2 1 3 count 0");
        let due = [
            "word 7, place 1 of the order: 1 against 2",
            "word 8, place 2 of the order: 2 against 1",
            "word 11, count: 1 against 0",
        ];
        assert_eq!(found(Answers, one, &other).1, due);
    }

    #[test]
    fn a_missing_answer_does_not_move_the_others() {
        let one = "round 0 1 1 8 n 4 order 1 0 2 3 count 0 words\n";
        let due = vec!["word 5, the best places: 8 against nothing".to_string()];
        assert_eq!(found(Answers, one, &one.replace(" 8", "")), (1, due));
    }

    #[test]
    fn another_name_is_all_that_is_told() {
        let line = "add 0 0 n 1 order 0 count 0 words\n";
        let due = vec!["word 1, the name: add against end".to_string()];
        assert_eq!(found(Answers, line, "end\n"), (1, due));
    }

    #[test]
    fn what_has_the_same_words_in_other_places_is_told_by_number() {
        let one = "link 0 n 8 order 0 count 0 words 3 128 7 8\n";
        let other = "link 0 n 8 order 0 count 0 words 7 8 3 128\n";
        let (_, words) = found(Answers, one, other);
        assert_eq!(words.len(), 4);
        assert_eq!(words[0], "word 10: 3 against 7");
        let (_, words) = found(Listing, "links 3\n", "links  3\n");
        assert!(!words.is_empty());
    }

    #[test]
    fn a_missing_line_or_line_end_differs() {
        let due = vec!["the line: b against no line".to_string()];
        assert_eq!(found(Listing, "a\nb 1\n", "a\n"), (2, due));
        let due = vec!["the line end: there against missing".to_string()];
        assert_eq!(found(Listing, "a\n", "a"), (1, due));
        let due = vec!["the line: no line against end".to_string()];
        assert_eq!(found(Answers, "", "end\n"), (1, due));
    }

    #[test]
    fn many_differing_words_are_cut_off() {
        let bytes = " 7".repeat(20);
        let one = format!("order 18 buffer{bytes} n 3\n");
        let other = one.replace('7', "8");
        let found = first_difference(Answers, one.as_bytes(), other.as_bytes());
        let text = found.expect("a difference").text();
        assert_eq!(text.lines().count(), SHOWN + 1);
        assert!(text.ends_with("\nand 8 more"));
    }

    #[test]
    fn a_planted_difference_is_found() {
        let output = b"add 0 1 n 2\nend\n";
        for index in 0..20 {
            let planted = plant(output, &mut Rng::new(1, "plant", index));
            assert!(first_difference(Answers, output, &planted).is_some());
        }
    }

    /// Sees that these are among all that can be planted in an output.
    fn are_planted(output: &str, due: &[(usize, &str)]) {
        let mut told = Vec::new();
        for index in 0..100 {
            let planted = plant(output.as_bytes(), &mut Rng::new(1, "plant", index));
            let found = first_difference(Answers, output.as_bytes(), &planted);
            let found = found.expect("a difference");
            told.push((found.line, found.text()));
        }
        for &(line, text) in due {
            assert!(told.contains(&(line, text.to_string())), "{text}");
        }
    }

    /// The best places of each call that sifts.
    #[test]
    fn planted_best_places_are_found() {
        let output = "sift 0 1 2 n 4\nround 0 1 1 8 n 4\nsettle 0 1 2 yes 16 n 4\n";
        let due = [
            (1, "word 4, the best places: 2 against 3"),
            (2, "word 5, the best places: 8 against 9"),
            (3, "word 6, the best places: 16 against 17"),
        ];
        are_planted(output, &due);
    }

    #[test]
    fn planted_words_of_graph6_are_found() {
        let output = "import 0 n 4 order 0 1 count 1 words 0 4\nexport 0 2 buffer 67 81 n 4\n";
        let due = [
            (1, "word 2, the refusal number: 0 against 1"),
            (1, "word 4, n: 4 against 5"),
            (1, "word 9, count: 1 against 2"),
            (2, "word 2, the refusal number: 0 against 1"),
            (2, "word 3, the length: 2 against 3"),
            (2, "word 6, byte 1 of the buffer: 81 against 82"),
        ];
        are_planted(output, &due);
    }

    #[test]
    fn planted_weights_and_wide_numbers_are_found() {
        let output =
            "count 0 9 n 2 order 0 1 count 18446744073709551615 words weights 0 1 2 1 0 2\n";
        let due = [
            "word 10, count: 18446744073709551615 against 18446744073709551616",
            "word 15, weight of 0 towards 1: 2 against 3",
        ];
        are_planted(output, &due.map(|due| (1, due)));
    }

    #[test]
    fn planted_entries_of_a_table_are_found() {
        let output = "perlink 0 2 table 1 1 7 n 4\nperlink 23 0 table 9 n 4\n";
        let due = [
            (1, "word 2, the refusal number: 0 against 1"),
            (1, "word 3, the number of edges: 2 against 3"),
            (1, "word 5, entry 0 of the table: 1 against 2"),
            (1, "word 6, entry 1 of the table: 1 against 2"),
            (1, "word 7, entry 2 of the table: 7 against 8"),
            (2, "word 3, the number of edges: 0 against 1"),
            (2, "word 5, entry 0 of the table: 9 against 10"),
        ];
        are_planted(output, &due);
    }
}
