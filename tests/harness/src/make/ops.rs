//! The ops of a list's records (tests/README.md), and the calls among them that
//! the programs under test know.

/// A record of a list: an op and three numbers.
pub type Record = [u64; 4];

pub const EMPTY: u64 = 0;
pub const CHART: u64 = 1;
pub const SET_N: u64 = 2;
pub const SET_ORDER: u64 = 3;
pub const SET_WORD: u64 = 4;
pub const SET_COUNT: u64 = 5;
pub const SET_WEIGHT: u64 = 6;
pub const ADD: u64 = 16;
pub const LINK: u64 = 17;
pub const UNLINK: u64 = 18;
pub const MOVE: u64 = 19;
pub const LAY: u64 = 20;
pub const SIFT: u64 = 21;
pub const ROUND: u64 = 22;
pub const SETTLE: u64 = 23;
pub const COUNT: u64 = 24;
pub const ORDER: u64 = 25;
pub const PAIR: u64 = 26;
pub const WRITE: u64 = 27;
pub const IMPORT: u64 = 28;
pub const EXPORT: u64 = 29;
pub const PERLINK: u64 = 30;

/// The starts from bytes that follow the record.
pub const READERS: [u64; 2] = [CHART, IMPORT];

/// The calls that write a layout, each before the start that reads it back.
pub const WRITERS: [(u64, u64); 2] = [(WRITE, CHART), (EXPORT, IMPORT)];

/// The calls that are lent what they fill as far as the layout needs it: those
/// that write a layout, and the one that counts each edge's crossings.
pub const LENT: [u64; 3] = [WRITE, EXPORT, PERLINK];

/// The refusal numbers of charts, in the sequence in which they are asked.
pub const CHART_REFUSALS: [u8; 10] = [1, 2, 3, 4, 5, 6, 7, 8, 24, 25];

/// A call's name, its op, and the refusal numbers that it can answer.
type Call = (&'static str, u64, &'static [u8]);

const CALLS: [Call; 16] = [
    ("chart", CHART, &CHART_REFUSALS),
    ("add", ADD, &[11, 16]),
    ("link", LINK, &[11, 12, 13, 14, 25]),
    ("unlink", UNLINK, &[11, 12, 13, 15]),
    ("move", MOVE, &[11, 12, 13]),
    ("lay", LAY, &[11, 12]),
    ("sift", SIFT, &[11, 12]),
    ("round", ROUND, &[11]),
    ("settle", SETTLE, &[11, 17]),
    ("count", COUNT, &[11]),
    ("order", ORDER, &[11, 18]),
    ("pair", PAIR, &[11]),
    ("write", WRITE, &[11, 19]),
    ("import", IMPORT, &[20, 21, 22]),
    ("export", EXPORT, &[11, 19, 26]),
    ("perlink", PERLINK, &[11, 23]),
];

/// Names for several calls at once.
const SETS: [(&str, &[&str]); 4] = [
    (
        "layout",
        &[
            "add", "link", "unlink", "move", "count", "order", "pair", "write", "perlink",
        ],
    ),
    ("sifting", &["sift", "round", "settle"]),
    ("graph6", &["import", "export"]),
    (
        "all",
        &[
            "chart", "add", "link", "unlink", "move", "lay", "sift", "round", "settle", "count",
            "order", "pair", "write", "import", "export", "perlink",
        ],
    ),
];

/// The calls that the programs under test know. Starting from the empty layout
/// and setting a field are known to all.
#[derive(Clone)]
pub struct Known(Vec<Call>);

impl Known {
    pub fn all() -> Known {
        Known(CALLS.to_vec())
    }

    /// Reads names of calls and of sets of calls, with commas between them;
    /// none where a name is unknown, or where there is no call on a layout.
    pub fn parse(names: &str) -> Option<Known> {
        let mut wanted = Vec::new();
        for name in names.split(',') {
            match SETS.iter().find(|(set, _)| *set == name) {
                Some((_, calls)) => wanted.extend_from_slice(calls),
                None => wanted.push(CALLS.iter().find(|call| call.0 == name)?.0),
            }
        }
        let mut known = CALLS.to_vec();
        known.retain(|(name, ..)| wanted.contains(name));
        known.iter().any(is_on_layout).then_some(Known(known))
    }

    /// Whether a record with this op can be played.
    pub fn has(&self, op: u64) -> bool {
        let is_start = matches!(op, EMPTY | SET_N..=SET_WEIGHT);
        is_start || self.0.iter().any(|&(_, known, _)| known == op)
    }

    /// Those of some ops that are known.
    pub fn among(&self, ops: &[u64]) -> Vec<u64> {
        ops.iter().copied().filter(|&op| self.has(op)).collect()
    }

    /// The names of the known calls, each with 0 and with the refusal numbers
    /// that it can answer.
    pub fn answers(&self) -> Vec<(&'static str, u8)> {
        let mut answers = Vec::new();
        for (name, _, numbers) in &self.0 {
            answers.push((*name, 0));
            answers.extend(numbers.iter().map(|&number| (*name, number)));
        }
        answers
    }

    /// The known calls on a layout: name, op, and each refusal number that
    /// the call can answer.
    pub fn refused(&self) -> Vec<(&'static str, u64, u8)> {
        let on_layout = self.0.iter().filter(|call| is_on_layout(call));
        let each = on_layout
            .flat_map(|&(name, op, numbers)| numbers.iter().map(move |&number| (name, op, number)));
        each.collect()
    }
}

/// Whether a call is made on a layout, and doesn't start from another one.
fn is_on_layout(&(_, op, _): &Call) -> bool {
    !READERS.contains(&op)
}

#[cfg(test)]
mod tests {
    use super::*;

    #[test]
    fn names_and_sets_are_read() {
        let known = Known::parse("layout,sift").expect("known names");
        let has_all = [MOVE, WRITE, PERLINK, SIFT, SET_N, SET_WEIGHT].map(|op| known.has(op));
        assert_eq!(has_all, [true; 6]);
        assert!(!known.has(SETTLE) && !known.has(CHART));
        assert!(Known::parse("layout,shift").is_none());
        assert!(Known::parse("").is_none());
        assert!(Known::parse("chart,import").is_none());
    }

    #[test]
    fn sets_name_every_call() {
        let all = Known::all().answers();
        for names in ["all", "chart,layout,lay,sifting,graph6"] {
            let known = Known::parse(names).expect("known names");
            assert_eq!(known.answers(), all, "{names}");
        }
    }

    #[test]
    fn all_calls_have_all_refusal_numbers() {
        let answers = Known::all().answers();
        for number in (0..=8).chain(11..=26) {
            assert!(answers.iter().any(|answer| answer.1 == number), "{number}");
        }
        assert_eq!(answers.len(), 16 + 10 + 28 + 5 + 2);
    }

    #[test]
    fn each_call_on_a_layout_is_refused_with_its_numbers() {
        let known = Known::parse("chart,add,round,import").expect("known names");
        let due = [("add", ADD, 11), ("add", ADD, 16), ("round", ROUND, 11)];
        assert_eq!(known.refused(), due);
    }
}
