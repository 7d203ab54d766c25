//! What each word of a printed line is.

/// What a program printed.
#[derive(Clone, Copy, Debug, PartialEq)]
pub enum Output {
    /// The listing of a chart.
    Listing,
    /// The answer lines of a list of calls.
    Answers,
}

/// A word of a line, its number in it, counted from 1, and what it is.
pub struct Labelled<'a> {
    pub number: usize,
    pub label: String,
    pub word: &'a str,
}

/// The last answer of a call that sifts.
const OPTIMA: &str = "the best places";

/// The answers of each call.
const ANSWERS: [(&str, &[&str]); 10] = [
    ("add", &["the new vertex"]),
    ("lay", &["the tally"]),
    ("sift", &["the saving", OPTIMA]),
    ("round", &["the saving", "the vertices moved", OPTIMA]),
    (
        "settle",
        &["the saving", "the rounds run", "settled", OPTIMA],
    ),
    ("count", &["the count read"]),
    (
        "pair",
        &[
            "what is found",
            "the first edge's lower end",
            "the first edge's higher end",
            "the second edge's lower end",
            "the second edge's higher end",
        ],
    ),
    ("write", &["the length"]),
    ("export", &["the length"]),
    ("perlink", &["the number of edges"]),
];

/// The words of a line with what they are. The numbers of neighbour words and
/// of the vertices of weights are not among them; they stand in what those are.
pub fn labelled(output: Output, line: &str) -> Vec<Labelled<'_>> {
    let words: Vec<&str> = line.split(' ').collect();
    let mut part = match output {
        Output::Listing => words[0],
        Output::Answers => "",
    };
    let mut start = 0;
    let mut labelled = Vec::new();
    for (i, &word) in words.iter().enumerate() {
        let begins = output == Output::Answers && begins(part, i - start, word);
        if begins {
            (part, start) = (word, i);
        }
        if let Some(label) = label(&words, i, part, i - start) {
            let number = i + 1;
            labelled.push(Labelled {
                number,
                label,
                word,
            });
        }
    }
    labelled
}

/// What a word is: the name, the first word of a part, or a further one.
fn label(words: &[&str], i: usize, part: &str, in_part: usize) -> Option<String> {
    Some(match (part, in_part) {
        _ if i == 0 => "the name".to_string(),
        (part, 0) => format!("`{part}`"),
        ("", number) => answer(words[0], number - 1),
        ("words", number) if number % 2 == 1 => return None,
        ("words", _) => format!("neighbour word {}", words[i - 1]),
        ("weights", number) if number % 3 != 0 => return None,
        ("weights", _) => format!("weight of {} towards {}", words[i - 2], words[i - 1]),
        ("order", number) => format!("place {} of the order", number - 1),
        ("buffer", number) => format!("byte {} of the buffer", number - 1),
        ("table", number) => format!("entry {} of the table", number - 1),
        (part, _) => part.to_string(),
    })
}

/// Whether a word begins a further part of an answer line, so many words behind
/// the beginning of the part before.
fn begins(part: &str, behind: usize, word: &str) -> bool {
    match word {
        "buffer" | "table" => part.is_empty() && matches!(behind, 2 | 3),
        "n" => ["", "buffer", "table"].contains(&part),
        "order" => part == "n",
        "count" => part == "order",
        "words" => part == "count",
        "weights" => part == "words",
        _ => false,
    }
}

/// What an answer with some number is, the refusal number included.
fn answer(name: &str, number: usize) -> String {
    if number == 0 {
        return "the refusal number".to_string();
    }
    let known = ANSWERS.iter().find(|(known, _)| *known == name);
    let label = known.and_then(|(_, labels)| labels.get(number - 1));
    label.map_or(format!("answer {number}"), |label| label.to_string())
}

#[cfg(test)]
mod tests {
    use super::*;

    fn labels(output: Output, line: &str) -> Vec<String> {
        let words = labelled(output, line);
        words.into_iter().map(|word| word.label).collect()
    }

    #[test]
    fn the_words_of_an_answer_line() {
        let due = [
            "the name",
            "the refusal number",
            "the saving",
            "the rounds run",
            "settled",
            "the best places",
            "`n`",
            "n",
            "`order`",
            "place 0 of the order",
            "place 1 of the order",
            "`count`",
            "count",
            "`words`",
            "neighbour word 0",
            "neighbour word 7",
            "`weights`",
            "weight of 0 towards 1",
            "weight of 7 towards 0",
        ];
        let line = "settle 0 5 2 yes 4 n 2 order 1 0 count 9 words 0 2 7 1 weights 0 1 9 7 0 8";
        assert_eq!(labels(Output::Answers, line), due);
    }

    #[test]
    fn the_words_of_buffers_of_a_table_and_of_a_pair() {
        let order = labels(Output::Answers, "order 0 buffer 1 0 7 n 2 order 1 0");
        assert_eq!(
            order[2..5],
            ["`buffer`", "byte 0 of the buffer", "byte 1 of the buffer"]
        );
        assert_eq!(order[10], "place 1 of the order");
        let due = [
            "the length",
            "`buffer`",
            "byte 0 of the buffer",
            "byte 1 of the buffer",
            "`n`",
        ];
        for name in ["write", "export"] {
            let line = format!("{name} 0 1 buffer 68 7 n 2 order 1 0");
            assert_eq!(labels(Output::Answers, &line)[2..7], due);
        }
        let due = [
            "the number of edges",
            "`table`",
            "entry 0 of the table",
            "entry 1 of the table",
            "`n`",
        ];
        let table = labels(Output::Answers, "perlink 0 1 table 3 7 n 2 order 1 0");
        assert_eq!(table[2..7], due);
        let pair = labels(Output::Answers, "pair 0 pair 1 2 3 4 n 5");
        let due = ["what is found", "the first edge's lower end"];
        assert_eq!(pair[2..4], due);
        let more = labels(Output::Answers, "pair 0 pair 1 2 3 4 5 n 5");
        assert_eq!(more[7], "answer 6");
        let count = labels(Output::Answers, "count 0 9 n 0 order 0 count 9 words");
        assert_eq!((&count[2][..], &count[8][..]), ("the count read", "count"));
    }

    #[test]
    fn the_words_of_a_listing() {
        let order = labels(Output::Listing, "order 3 4");
        assert_eq!(
            order,
            ["the name", "place 0 of the order", "place 1 of the order"]
        );
        assert_eq!(labels(Output::Listing, "rounds 3"), ["the name", "rounds"]);
    }

    #[test]
    fn words_are_numbered() {
        let line = "link 0 n 2 order 1 0 count 0 words 5 8 weights 5 3 255";
        let words = labelled(Output::Answers, line);
        let last = words.last().expect("a word");
        assert_eq!((last.number, last.word), (16, "255"));
    }
}
