//! The command line.

use std::path::PathBuf;

use crate::make::ops::Known;
use crate::side::Side;

pub const USAGE: &str = "usage: compare SEED COUNT [--plant] [--keep DIR] \
                         [--only CALLS] [--list COMMAND].. [--play COMMAND]..\n   \
                         or: harness --stored CALLS";

pub struct Options {
    pub seed: u64,
    /// How many charts, and how many lists.
    pub count: usize,
    /// The calls that lists are to be made of, as they were named; none for
    /// lists of all calls, and charts too.
    pub only: Option<String>,
    pub known: Known,
    /// The sides that list charts.
    pub list: Vec<Side>,
    /// The sides that play lists of calls.
    pub play: Vec<Side>,
    /// Whether an answer of the first side is to be changed.
    pub plant: bool,
    /// Where an input on which sides differ is kept.
    pub keep: PathBuf,
}

/// Reads the arguments; none where they are wrong.
pub fn parse(mut arguments: impl Iterator<Item = String>) -> Option<Options> {
    let mut options = Options {
        seed: 0,
        count: 0,
        only: None,
        known: Known::all(),
        list: Vec::new(),
        play: Vec::new(),
        plant: false,
        keep: std::env::temp_dir(),
    };
    let mut numbers = Vec::new();
    while let Some(argument) = arguments.next() {
        match argument.as_str() {
            "--plant" => options.plant = true,
            "--keep" => options.keep = arguments.next()?.into(),
            "--only" => {
                let names = arguments.next()?;
                options.known = Known::parse(&names)?;
                options.only = Some(names);
            }
            "--list" => options.list.push(Side::shell(&arguments.next()?)),
            "--play" => options.play.push(Side::shell(&arguments.next()?)),
            "--second" => {
                let path = arguments.next()?;
                options.list.push(Side::program("second", &path, "list"));
                options.play.push(Side::program("second", &path, "play"));
            }
            number => numbers.push(number.parse().ok()?),
        }
    }
    let [seed, count] = numbers[..] else {
        return None;
    };
    options.seed = seed;
    options.count = usize::try_from(count).ok().filter(|&count| count > 0)?;
    Some(options)
}

/// Reads the arguments that ask for the stored list: the calls that it is to be
/// made of.
pub fn parse_stored(arguments: &[String]) -> Option<Known> {
    match arguments {
        [flag, names] if flag == "--stored" => Known::parse(names),
        _ => None,
    }
}

#[cfg(test)]
mod tests {
    use super::*;
    use crate::make::ops::{ADD, LINK};

    fn parsed(line: &str) -> Option<Options> {
        parse(line.split_whitespace().map(String::from))
    }

    #[test]
    fn sides_are_added_in_their_sequence() {
        let options = parsed("--second s 3 20 --list a --play b --play c").expect("options");
        let names = |sides: &[Side]| -> Vec<String> {
            sides.iter().map(|side| side.name.clone()).collect()
        };
        assert_eq!(names(&options.list), ["second", "a"]);
        assert_eq!(names(&options.play), ["second", "b", "c"]);
        assert_eq!((options.seed, options.count, options.plant), (3, 20, false));
    }

    #[test]
    fn calls_are_restricted() {
        let options = parsed("1 2 --only add,count").expect("options");
        assert!(options.known.has(ADD) && !options.known.has(LINK));
        assert!(parsed("1 2").expect("options").known.has(LINK));
    }

    #[test]
    fn wrong_arguments_are_told() {
        for line in [
            "",
            "1",
            "1 0",
            "1 -2",
            "1 2 3",
            "1 x",
            "1 2 --keep",
            "1 2 --any",
            "1 2 --only",
            "1 2 --only any",
        ] {
            assert!(parsed(line).is_none(), "{line}");
        }
    }
}
