//! The layout that a list in the making has come to, played by the naive model.

use super::ops::*;
use super::records;
use crate::naive::chart::{read, written};
use crate::naive::graph6::{exported, import};
use crate::naive::layout::{empty, is_weighted, valid, Layout};
use crate::naive::play::after;

/// What the naive model may do for it in one list.
const BUDGET: u64 = 1 << 25;

pub struct Held {
    /// None from a call on that would take too much, up to the next start.
    layout: Option<Layout>,
    left: u64,
}

impl Held {
    pub fn new() -> Held {
        Held {
            layout: Some(empty()),
            left: BUDGET,
        }
    }

    /// Takes in a record that costs the naive model so much.
    pub fn record(&mut self, record: Record, cost: u64) {
        match record[0] {
            EMPTY => self.layout = Some(empty()),
            COUNT..=WRITE | EXPORT..=PERLINK => {}
            _ if cost <= self.left => {
                self.left -= cost;
                let play = |layout| after(layout, &records::bytes(record));
                self.layout = self.layout.take().map(play);
            }
            _ => self.layout = None,
        }
    }

    /// Takes in a start from a chart or a graph6.
    pub fn start(&mut self, op: u64, bytes: &[u8]) {
        let (_, layout) = match op {
            IMPORT => import(bytes),
            _ => read(bytes),
        };
        self.layout = Some(layout);
    }

    /// What a call writes of it, if it is known and valid and, for a graph6,
    /// without weights.
    pub fn written(&self, op: u64) -> Option<Vec<u8>> {
        let layout = self.layout.as_ref().filter(|layout| valid(layout))?;
        match op {
            EXPORT if is_weighted(layout) => None,
            EXPORT => Some(exported(layout)),
            _ => Some(written(layout)),
        }
    }
}

#[cfg(test)]
mod tests {
    use super::*;

    #[test]
    fn a_layout_is_held_until_it_is_too_dear() {
        let mut held = Held::new();
        for _ in 0..3 {
            held.record([ADD, 0, 0, 0], 0);
        }
        held.record([LINK, 2, 0, 1], 1);
        held.record([MOVE, 0, 2, 0], BUDGET - 1);
        held.record([WRITE, 9, 0, 0], 1);
        held.record([EXPORT, 9, 0, 0], 1);
        held.record([PERLINK, 9, 0, 0], 1);
        let due = [0x44, 0, 1, 3, 0x4C, 0, 2, 0, 2, 0x52, 0, 3, 1, 2, 0];
        assert_eq!(held.written(WRITE), Some(due.to_vec()));
        assert_eq!(held.written(EXPORT), Some(b"BO".to_vec()));
        held.record([SIFT, 0, 0, 0], 1);
        held.record([ADD, 0, 0, 0], 0);
        assert_eq!(held.written(WRITE), None);
        held.start(CHART, &due);
        assert_eq!(held.written(WRITE), Some(due.to_vec()));
        held.record([SET_N, 2, 0, 0], 0);
        assert_eq!(held.written(WRITE), None);
        assert_eq!(held.written(EXPORT), None);
        held.start(IMPORT, b"BO");
        assert_eq!(held.written(EXPORT), Some(b"BO".to_vec()));
        held.record([LINK, 2, 1, 9], 0);
        assert_eq!(held.written(EXPORT), None);
        let due = [0x44, 0, 1, 3, 0x4C, 0, 4, 0, 2, 1, 2, 0x52, 0, 3, 0, 1, 2];
        let due = [&due[..], &[0x57, 0, 2, 1, 9]].concat();
        assert_eq!(held.written(WRITE), Some(due));
        held.record([EMPTY, 0, 0, 0], 0);
        assert_eq!(held.written(WRITE).map(|chart| chart.len()), Some(10));
    }
}
