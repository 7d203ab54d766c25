//! Plays a list of calls; the format is in tests/README.md.

use std::fmt::Display;

use super::calls;
use super::chart;
use super::graph6;
use super::layout::{empty, Layout};

/// Plays the list from the empty layout and gives every line.
pub fn play(list: &[u8]) -> String {
    play_from(empty(), list)
}

/// The same from any layout.
pub fn play_from(layout: Layout, list: &[u8]) -> String {
    let mut player = Player {
        list,
        at: 0,
        layout,
    };
    let mut lines = Vec::new();
    while player.at < list.len() {
        let before = player.layout.clone();
        match player.step() {
            Step::Quiet => {}
            Step::Said(said) => lines.push(line(&said, &player.layout, &before)),
            Step::End => {
                lines.push("end\n".to_string());
                break;
            }
        }
    }
    lines.concat()
}

/// The layout behind one record.
pub fn after(layout: Layout, record: &[u8]) -> Layout {
    let mut player = Player {
        list: record,
        at: 0,
        layout,
    };
    player.step();
    player.layout
}

struct Player<'a> {
    list: &'a [u8],
    at: usize,
    layout: Layout,
}

/// What a record does: nothing that is shown, a line, or the end.
enum Step {
    Quiet,
    /// Name, refusal number and answers.
    Said(String),
    End,
}

impl Player<'_> {
    /// The number at some place of the record that begins at `at`.
    fn number(&self, which: usize) -> u64 {
        let start = self.at + 8 * which;
        let bytes = &self.list[start..start + 8];
        bytes
            .iter()
            .rev()
            .fold(0, |sum, &b| sum << 8 | u64::from(b))
    }

    fn step(&mut self) -> Step {
        if self.list.len() - self.at < 32 {
            return Step::End;
        }
        let [op, a, b, c] = [0, 1, 2, 3].map(|i| self.number(i));
        self.at += 32;
        match op {
            0 => {
                self.layout = empty();
                Step::Said("empty 0".to_string())
            }
            1 => self.start("chart", a, chart::read),
            28 => self.start("import", a, graph6::import),
            2..=6 => {
                self.set(op, a, b, c);
                Step::Quiet
            }
            16..=27 | 29..=30 => Step::Said(self.call(op, a, b, c)),
            _ => Step::End,
        }
    }

    /// Starts from what is read from so many bytes behind the record.
    fn start(&mut self, name: &str, length: u64, read: fn(&[u8]) -> (u8, Layout)) -> Step {
        let left = (self.list.len() - self.at) as u128;
        let padded = u128::from(length).div_ceil(32) * 32;
        if padded > left {
            return Step::End;
        }
        let bytes = &self.list[self.at..self.at + length as usize];
        let (refusal, layout) = read(bytes);
        self.at += padded as usize;
        self.layout = layout;
        Step::Said(format!("{name} {refusal}"))
    }

    fn set(&mut self, op: u64, a: u64, b: u64, c: u64) {
        if op == 2 {
            self.layout.n = a;
        } else if op == 3 && a < 64 {
            self.layout.order[a as usize] = byte(b);
        } else if op == 4 && a < 64 {
            self.layout.words[a as usize] = b;
        } else if op == 5 {
            self.layout.count = a;
        } else if op == 6 && a < 64 && b < 64 {
            self.layout.weights[a as usize][b as usize] = byte(c);
        }
    }

    fn call(&mut self, op: u64, a: u64, b: u64, c: u64) -> String {
        let layout = &mut self.layout;
        match op {
            16 => one("add", calls::add(layout)),
            17 => format!("link {}", calls::link(layout, a, b, byte(c))),
            18 => format!("unlink {}", calls::unlink(layout, a, b)),
            19 => format!("move {}", calls::move_behind(layout, a, b)),
            20 => one("lay", calls::lay(layout, a)),
            21 => {
                let (refusal, (saving, optima)) = calls::sift(layout, a);
                format!("sift {refusal} {saving} {optima}")
            }
            22 => {
                let (refusal, (saving, moves, optima)) = calls::round(layout);
                format!("round {refusal} {saving} {moves} {optima}")
            }
            23 => {
                let (refusal, (saving, rounds, settled, optima)) = calls::settle(layout, a);
                let settled = if settled { "yes" } else { "no" };
                format!("settle {refusal} {saving} {rounds} {settled} {optima}")
            }
            24 => one("count", calls::count(layout)),
            25 => order(layout, a, b),
            26 => pair(layout),
            27 => write(layout, a, b),
            29 => export(layout, a, b),
            _ => perlink(layout, a, b),
        }
    }
}

/// A call with one number for an answer.
fn one<T: Display>(name: &str, (refusal, answer): (u8, T)) -> String {
    format!("{name} {refusal} {answer}")
}

fn order(layout: &Layout, length: u64, fill: u64) -> String {
    let mut buffer = lent(length, 255, byte(fill));
    let refusal = calls::order(layout, &mut buffer);
    format!("order {refusal} {}", shown("buffer", &buffer))
}

/// What the call `write` says.
pub fn write(layout: &Layout, length: u64, fill: u64) -> String {
    let mut buffer = lent(length, 8192, byte(fill));
    let reply = calls::write(layout, &mut buffer);
    format!("{} {}", one("write", reply), shown("buffer", &buffer))
}

/// What the call `export` says.
pub fn export(layout: &Layout, length: u64, fill: u64) -> String {
    let mut buffer = lent(length, 8192, byte(fill));
    let reply = calls::export(layout, &mut buffer);
    format!("{} {}", one("export", reply), shown("buffer", &buffer))
}

/// What the call `perlink` says.
pub fn perlink(layout: &Layout, length: u64, fill: u64) -> String {
    let mut table = lent(length, 2100, fill);
    let reply = calls::edge_crossings(layout, &mut table);
    format!("{} {}", one("perlink", reply), shown("table", &table))
}

fn byte(number: u64) -> u8 {
    (number % 256) as u8
}

/// So many entries, or the most if there are more.
fn lent<E: Clone>(length: u64, most: u64, fill: E) -> Vec<E> {
    let length = if length > most { most } else { length };
    vec![fill; length as usize]
}

fn shown<E: Display>(word: &str, entries: &[E]) -> String {
    let mut shown = word.to_string();
    for entry in entries {
        shown += &format!(" {entry}");
    }
    shown
}

fn pair(layout: &Layout) -> String {
    match calls::pair(layout) {
        (0, Some(((a, b), (c, d)))) => format!("pair 0 pair {a} {b} {c} {d}"),
        (0, None) => "pair 0 none".to_string(),
        (refusal, _) => format!("pair {refusal} refused"),
    }
}

fn line(said: &str, layout: &Layout, before: &Layout) -> String {
    let mut line = format!("{said} n {} order", layout.n);
    for v in layout.order {
        line += &format!(" {v}");
    }
    line += &format!(" count {} words", layout.count);
    for (v, word) in layout.words.iter().enumerate() {
        if *word != before.words[v] {
            line += &format!(" {v} {word}");
        }
    }
    line += " weights";
    for v in 0..64 {
        for w in 0..64 {
            let weight = layout.weights[v][w];
            if weight != before.weights[v][w] {
                line += &format!(" {v} {w} {weight}");
            }
        }
    }
    line + "\n"
}
