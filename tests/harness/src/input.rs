//! An input, given to every side, and what is said where they do not agree.

use std::path::PathBuf;
use std::thread;

use crate::difference::{first_difference, plant};
use crate::entries::{entries, Entry};
use crate::label::Output;
use crate::options::Options;
use crate::rng::Rng;
use crate::side::Side;

/// An input on which the sides do not agree.
pub struct Failure {
    /// What it is: a chart or a list.
    what: &'static str,
    index: usize,
    input: Vec<u8>,
    /// What is wrong.
    text: String,
}

impl Failure {
    /// Keeps the input in a file, and tells what is wrong.
    pub fn report(&self, options: &Options) -> String {
        let (what, seed, index) = (self.what, options.seed, self.index);
        let path = options.keep.join(format!("{what}-{seed}-{index}.bin"));
        let kept = match self.write(&path, options) {
            Ok(()) => format!("input kept in {}", path.display()),
            Err(error) => format!("input not kept: {error}"),
        };
        format!(
            "compare: seed {seed}, {what} {index}: {}\n{kept}",
            self.text
        )
    }

    fn write(&self, path: &PathBuf, options: &Options) -> std::io::Result<()> {
        std::fs::create_dir_all(&options.keep)?;
        std::fs::write(path, &self.input)
    }
}

/// What the naive model prints for an input.
pub type Model = fn(&[u8]) -> String;

const NAIVE: &str = "naive model";

/// What is given to every side.
pub struct Input<'a> {
    /// What it is: a chart or a list.
    pub what: &'static str,
    pub index: usize,
    pub bytes: &'a [u8],
    pub output: Output,
}

impl Input<'_> {
    pub fn list<'a>(what: &'static str, index: usize, bytes: &'a [u8]) -> Input<'a> {
        Input {
            what,
            index,
            bytes,
            output: Output::Answers,
        }
    }

    pub fn failure(&self, text: String) -> Failure {
        Failure {
            what: self.what,
            index: self.index,
            input: self.bytes.to_vec(),
            text,
        }
    }

    /// Compares the sides with the naive model, or with the first side where
    /// that is left out, an answer of the first side changed if one is to be
    /// planted. Gives what all of them print.
    pub fn compare(
        &self,
        sides: &[Side],
        model: Option<Model>,
        planted: Option<&mut Rng>,
    ) -> Result<String, Failure> {
        let mut outputs = self.outputs(sides, model)?;
        if let Some(rng) = planted {
            let first = outputs.len() - sides.len();
            outputs[first].1 = plant(&outputs[first].1, rng);
        }
        let (one, due) = &outputs[0];
        for (other, given) in &outputs[1..] {
            if let Some(text) = self.difference((one, due), (other, given)) {
                return Err(self.failure(text));
            }
        }
        Ok(String::from_utf8_lossy(due).into_owned())
    }

    /// What the naive model and the sides print, each with its name. They run
    /// at the same time.
    fn outputs<'a>(
        &self,
        sides: &'a [Side],
        model: Option<Model>,
    ) -> Result<Vec<(&'a str, Vec<u8>)>, Failure> {
        let mut outputs = Vec::new();
        thread::scope(|scope| {
            let naive = model.map(|model| scope.spawn(move || model(self.bytes)));
            let run = |side: &'a Side| {
                let name = &side.name[..];
                let given = side.run(self.bytes);
                given
                    .map(|given| (name, given))
                    .map_err(|error| format!("{name} {error}"))
            };
            let given: Result<Vec<_>, String> = sides.iter().map(run).collect();
            if let Some(naive) = naive {
                let lines = naive.join().map_err(|_| format!("{NAIVE} ended early"))?;
                outputs.push((NAIVE, lines.into_bytes()));
            }
            outputs.extend(given?);
            Ok(())
        })
        .map_err(|text| self.failure(text))?;
        Ok(outputs)
    }

    /// Where two outputs differ, in words.
    fn difference(&self, one: (&str, &[u8]), other: (&str, &[u8])) -> Option<String> {
        let found = first_difference(self.output, one.1, other.1)?;
        let place = match self.output {
            Output::Listing => format!("line {}", found.line),
            Output::Answers => record_of(self.bytes, found.line),
        };
        let words = found.text();
        Some(format!("{place}, {} against {}\n{words}", one.0, other.0))
    }
}

/// The record of a list for which some line is printed, with its number and in
/// words; both numbers are counted from 1.
pub fn record_of(list: &[u8], line: usize) -> String {
    let entries = entries(list);
    let mut said = entries.iter().enumerate().filter(|(_, entry)| entry.says());
    match said.nth(line - 1) {
        Some((number, entry)) => format!("record {}, {}", number + 1, Entry::text(entry)),
        None => format!("line {line}, behind the last record"),
    }
}

#[cfg(test)]
mod tests {
    use super::*;
    use crate::make::ops::{ADD, LINK, SET_N};
    use crate::make::records::bytes;
    use crate::naive;

    fn two_links() -> Vec<u8> {
        let records = [
            [SET_N, 0, 0, 0],
            [ADD, 0, 0, 0],
            [ADD, 0, 0, 0],
            [LINK, 0, 1, 1],
        ];
        records.map(bytes).concat()
    }

    #[test]
    fn the_record_of_a_line_is_found() {
        let list = two_links();
        assert_eq!(record_of(&list, 1), "record 2, add");
        assert_eq!(record_of(&list, 3), "record 4, link 0 1 with weight 1");
        assert_eq!(record_of(&list, 4), "line 4, behind the last record");
    }

    /// What is said of an input when one side prints what is due, and the other
    /// one that with something replaced.
    fn told(from: &str, to: &str) -> Result<String, String> {
        let list = two_links();
        let due = naive::play::play(&list);
        let print = |text: &str| format!("printf '%s' '{text}'");
        let sides = [&due, &due.replace(from, to)].map(|text| Side::shell(&print(text)));
        let compared = Input::list("list", 3, &list).compare(&sides, None, None);
        compared.map_err(|failure| failure.text)
    }

    #[test]
    fn sides_are_compared_among_themselves() {
        assert_eq!(told("link", "link"), Ok(naive::play::play(&two_links())));
        let text = told("link 0", "link 14").expect_err("a difference");
        assert!(
            text.starts_with("record 4, link 0 1 with weight 1, "),
            "{text}"
        );
        assert!(
            text.ends_with("\nword 2, the refusal number: 0 against 14"),
            "{text}"
        );
    }

    #[test]
    fn sides_are_compared_with_the_naive_model() {
        let list = two_links();
        let model: Model = naive::play::play;
        let silent = [Side::shell("true")];
        let failure = Input::list("list", 3, &list).compare(&silent, Some(model), None);
        let text = failure.expect_err("a difference").text;
        let due = "record 2, add, naive model against true\nthe line: add against no line";
        assert_eq!(text, due);
    }

    #[test]
    fn a_planted_answer_is_noticed_without_a_second_program() {
        let list = two_links();
        let model: Model = naive::play::play;
        let due = naive::play::play(&list);
        let side = [Side::shell(&format!("printf '%s' '{due}'"))];
        let input = Input::list("list", 3, &list);
        assert!(input.compare(&side, Some(model), None).is_ok());
        let mut rng = Rng::new(1, "plant", 0);
        assert!(input.compare(&side, Some(model), Some(&mut rng)).is_err());
    }

    #[test]
    fn a_side_that_fails_is_told() {
        let failure = Input::list("list", 0, &[]).compare(&[Side::shell("exit 3")], None, None);
        let text = failure.expect_err("a failure").text;
        assert!(text.starts_with("exit 3 ended with "), "{text}");
    }
}
