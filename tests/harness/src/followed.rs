//! A layout, followed through a list of calls by its records and its answer
//! lines.

use crate::entries::{entries, Entry};
use crate::make::ops::{SET_COUNT, SET_N, SET_ORDER, SET_WEIGHT, SET_WORD};
use crate::naive::layout::{empty, is_weighted, Layout};

/// An answer line, its record, and the layout before and behind it.
pub struct Step<'a> {
    pub entry: Entry<'a>,
    pub line: &'a str,
    pub before: Layout,
    pub after: Layout,
}

/// The answer lines of a list with their records.
pub fn steps<'a>(list: &'a [u8], lines: &'a str) -> impl Iterator<Item = Step<'a>> {
    let mut lines = lines.lines();
    let mut layout = empty();
    entries(list).into_iter().filter_map(move |entry| {
        set(&mut layout, &entry);
        let line = entry.says().then(|| lines.next()).flatten()?;
        let before = layout.clone();
        take_in(&mut layout, line);
        let after = layout.clone();
        Some(Step {
            entry,
            line,
            before,
            after,
        })
    })
}

/// Puts a check to each line of a list. Tells the first line, counted from 1,
/// that fails it.
pub fn check_lines(
    list: &[u8],
    lines: &str,
    check: impl Fn(&Step) -> Result<(), String>,
) -> Result<(), (usize, String)> {
    for (i, step) in steps(list, lines).enumerate() {
        check(&step).map_err(|text| (i + 1, text))?;
    }
    Ok(())
}

/// Puts a check to each two lines of a list that follow each other. Tells the
/// first line, counted from 1, that fails it together with the one before.
pub fn check_pairs(
    list: &[u8],
    lines: &str,
    check: impl Fn(&Step, &Step) -> Result<(), String>,
) -> Result<(), (usize, String)> {
    let mut last: Option<Step> = None;
    for (i, step) in steps(list, lines).enumerate() {
        if let Some(last) = &last {
            check(last, &step).map_err(|text| (i + 1, text))?;
        }
        last = Some(step);
    }
    Ok(())
}

/// Puts a check to each four lines of a list that follow each other. Tells the
/// first line, counted from 1, that fails it together with the three before.
pub fn check_fours(
    list: &[u8],
    lines: &str,
    check: impl Fn(&[Step]) -> Result<(), String>,
) -> Result<(), (usize, String)> {
    let steps: Vec<Step> = steps(list, lines).collect();
    for (i, four) in steps.windows(4).enumerate() {
        check(four).map_err(|text| (i + 4, text))?;
    }
    Ok(())
}

/// Sees that lines which are changed once fail a check in the line named. Gives
/// what is said of it.
#[cfg(test)]
pub fn change_found(
    list: &[u8],
    lines: &str,
    check: impl Fn(&Step) -> Result<(), String>,
    (line, from, to): (usize, &str, &str),
) -> String {
    let wrong = lines.replacen(from, to, 1);
    assert_ne!(wrong, lines, "{from}");
    let (found, text) = check_lines(list, &wrong, check).expect_err(to);
    assert_eq!(found, line, "{to}");
    text
}

/// The same of several changes, each with words of what is said of it.
#[cfg(test)]
pub fn changes_found(
    list: &[u8],
    lines: &str,
    check: impl Fn(&Step) -> Result<(), String>,
    changes: &[(usize, &str, &str, &str)],
) {
    for &(line, from, to, due) in changes {
        let text = change_found(list, lines, &check, (line, from, to));
        assert!(text.contains(due), "{to}: {text}");
    }
}

impl Step<'_> {
    /// The name and the refusal number; the line `end` has none.
    pub fn answer(&self) -> Option<(&str, u8)> {
        let mut words = self.line.split(' ');
        let (name, refusal) = (words.next()?, words.next()?);
        Some((name, refusal.parse().ok()?))
    }

    /// The number of vertices behind the line.
    pub fn n(&self) -> usize {
        usize::try_from(self.after.n).unwrap_or(usize::MAX)
    }

    /// The number of edges behind the line, in a valid layout.
    pub fn m(&self) -> usize {
        edge_count(&self.after)
    }

    /// Whether the layout behind the line, a valid one, is weighted.
    pub fn is_weighted(&self) -> bool {
        is_weighted(&self.after)
    }
}

fn edge_count(layout: &Layout) -> usize {
    let ends: u32 = layout.words.iter().map(|word| word.count_ones()).sum();
    ends as usize / 2
}

/// Sets a field, if that is what the record does.
fn set(layout: &mut Layout, entry: &Entry) {
    match *entry {
        Entry::Record([SET_N, n, ..]) => layout.n = n,
        Entry::Record([SET_ORDER, place, v, _]) => put(&mut layout.order, place, v as u8),
        Entry::Record([SET_WORD, v, word, _]) => put(&mut layout.words, v, word),
        Entry::Record([SET_COUNT, count, ..]) => layout.count = count,
        Entry::Record([SET_WEIGHT, v, w, weight]) => put_weight(layout, v, w, weight),
        _ => {}
    }
}

/// Takes in what an answer line says of the layout.
fn take_in(layout: &mut Layout, line: &str) {
    if let Some(&n) = numbers(line, " n ").first() {
        layout.n = n;
    }
    for (place, v) in numbers(line, " order ").into_iter().enumerate() {
        put(&mut layout.order, place as u64, v as u8);
    }
    if let Some(&count) = numbers(line, " count ").first() {
        layout.count = count;
    }
    for changed in numbers(line, " words ").chunks_exact(2) {
        put(&mut layout.words, changed[0], changed[1]);
    }
    for changed in numbers(line, " weights ").chunks_exact(3) {
        put_weight(layout, changed[0], changed[1], changed[2]);
    }
}

/// The numbers behind a word of a line.
pub fn numbers(line: &str, word: &str) -> Vec<u64> {
    let behind = line.split_once(word).map_or("", |(_, behind)| behind);
    let numbers = behind.split(' ').map_while(|word| word.parse().ok());
    numbers.collect()
}

/// What a line shows of a lent buffer or table.
pub fn lent(line: &str) -> Vec<u64> {
    let words = [" buffer ", " table "];
    words.iter().flat_map(|word| numbers(line, word)).collect()
}

fn put<T>(places: &mut [T], place: u64, value: T) {
    let place = usize::try_from(place).unwrap_or(usize::MAX);
    if let Some(held) = places.get_mut(place) {
        *held = value;
    }
}

fn put_weight(layout: &mut Layout, v: u64, w: u64, weight: u64) {
    if v < 64 {
        put(&mut layout.weights[v as usize], w, weight as u8);
    }
}

#[cfg(test)]
mod tests {
    use super::*;
    use crate::make::lists;
    use crate::make::ops::{Known, PAIR, UNLINK};
    use crate::make::records;
    use crate::naive::play::play;

    #[test]
    fn a_layout_is_followed_by_records_and_lines() {
        let mut list = records::chart(&[0x44]);
        for record in [
            [UNLINK, 0, 2, 0],
            [SET_N, 5, 0, 0],
            [SET_WORD, 4, 3, 0],
            [SET_WORD, 64, 3, 0],
            [SET_ORDER, 4, 256 + 4, 0],
            [SET_COUNT, (1 << 32) + 9, 0, 0],
            [SET_WEIGHT, 4, 0, 256 + 7],
            [SET_WEIGHT, 64, 0, 7],
            [SET_WEIGHT, 0, 64, 7],
            [PAIR, 0, 0, 0],
        ] {
            list.extend(records::bytes(record));
        }
        let lines = "chart 0 n 4 order 0 1 2 3 count 1 \
                     words 0 4 1 8 2 1 3 2 weights 0 2 1 1 3 255 2 0 1 3 1 255\n\
                     unlink 0 n 4 order 0 1 2 3 count 0 words 0 0 2 0 weights 0 2 0 2 0 0\n\
                     end\n";
        let steps: Vec<Step> = steps(&list, lines).collect();
        let sizes: Vec<(usize, usize)> = steps.iter().map(|step| (step.n(), step.m())).collect();
        assert_eq!(sizes, [(4, 2), (4, 1), (5, 2)]);
        let layout = &steps[2].before;
        let count = (1 << 32) + 9;
        assert_eq!((layout.n, layout.words[4], layout.count), (5, 3, count));
        assert_eq!(layout.order[..6], [0, 1, 2, 3, 4, 0]);
        let weight = |v: usize, w: usize| layout.weights[v][w];
        assert_eq!([weight(0, 2), weight(1, 3), weight(3, 1)], [0, 255, 255]);
        assert_eq!((weight(4, 0), weight(0, 4)), (7, 0));
        assert!(steps.iter().all(Step::is_weighted));
        assert_eq!(*layout, steps[2].after);
        let answers: Vec<Option<(&str, u8)>> = steps.iter().map(Step::answer).collect();
        assert_eq!(answers, [Some(("chart", 0)), Some(("unlink", 0)), None]);
    }

    #[test]
    fn what_is_lent_is_found_in_its_line() {
        assert_eq!(
            lent("order 0 buffer 1 0 7 n 2 order 1 0 count 0"),
            [1, 0, 7]
        );
        assert_eq!(
            lent("perlink 0 1 table 0 18446744073709551615 n 2"),
            [0, u64::MAX]
        );
        for line in ["perlink 0 0 table n 2 order 1 0", "link 0 n 2 order 1 0"] {
            assert!(lent(line).is_empty());
        }
    }

    #[test]
    fn the_first_line_that_fails_is_told() {
        let list = [[UNLINK, 0, 2, 0], [SET_N, 5, 0, 0], [PAIR, 0, 0, 0]];
        let list = list.map(records::bytes).concat();
        let lines = "unlink 12 n 0\npair 11 refused n 5\n";
        let check = |step: &Step| match step.n() {
            0 => Ok(()),
            n => Err(format!("{n} vertices")),
        };
        let due = Err((2, "5 vertices".to_string()));
        assert_eq!(check_lines(&list, lines, check), due);
        assert_eq!(check_lines(&list, lines, |_| Ok(())), Ok(()));
    }

    /// An accepted link adds an edge, an accepted unlink takes one away.
    #[test]
    fn edges_are_followed_through_lists() {
        let made = (0..40).map(|index| lists::list(3, index, &Known::all()));
        for list in made.filter(|made| made.naive) {
            for step in steps(&list.bytes, &play(&list.bytes)) {
                let (before, after) = (edge_count(&step.before), step.m());
                match step.answer() {
                    Some(("link", 0)) => assert_eq!(after, before + 1),
                    Some(("unlink", 0)) => assert_eq!(after + 1, before),
                    Some(("chart" | "import" | "empty", _)) => {}
                    _ => assert_eq!(after, before, "{}", step.line),
                }
            }
        }
    }
}
