//! Greedy append (document 01: lay): Algorithm 1 of document 004 with the
//! Connectivity insertion order, which goes by numbers of edges, and the
//! Crossings choice of an end, which goes by weight.

use std::cmp::Reverse;
use std::collections::{BTreeSet, VecDeque};

use crate::circle::{Circle, Neighbour};
use crate::crossings::prefix_sums;

/// What greedy append gives.
#[derive(Clone, Debug, PartialEq, Eq)]
pub struct Appended {
    pub order: Vec<usize>,
    /// The sum over all steps of the crossings at the end taken.
    pub tally: u64,
}

/// Places `start`, then every other vertex at the end with fewer crossings of
/// closing with open edges; on a tie, at the back. So there the isolated ones
/// go, which come last and close no edge.
pub fn greedy_append(circle: &Circle, start: usize) -> Appended {
    let mut queue = Queue::new(circle);
    let mut layout = VecDeque::from([start]);
    let mut tally = 0;
    queue.place(start);
    while let Some(v) = queue.first() {
        queue.place(v);
        let (front, back) = end_crossings(&queue, &layout, v);
        if front < back {
            layout.push_front(v);
        } else {
            layout.push_back(v);
        }
        tally += front.min(back);
    }
    Appended {
        order: layout.into(),
        tally,
    }
}

/// The crossings of the edges that v closes with open ones, v put in front and
/// v put at the back. The queue has v as placed already, so that its own edges
/// are not among the open ones.
fn end_crossings(queue: &Queue, layout: &VecDeque<usize>, v: usize) -> (u64, u64) {
    let open: Vec<u64> = layout.iter().map(|&q| queue.open[q]).collect();
    let before = prefix_sums(&open);
    let total = before[layout.len()];
    let (mut front, mut back) = (0, 0);
    for (place, &p) in layout.iter().enumerate() {
        let neighbours = queue.circle.neighbours(v).iter();
        for closing in neighbours.filter(|w| w.vertex == p) {
            front += closing.weight * before[place];
            back += closing.weight * (total - before[place + 1]);
        }
    }
    (front, back)
}

/// Isolated vertices last (Note 2 of document 02), then by most placed
/// neighbours, then fewest unplaced neighbours, then lowest number.
type Key = (bool, Reverse<u32>, u32, usize);

/// The unplaced vertices by their keys: the priority queue of Theorem 2.
struct Queue<'a> {
    circle: &'a Circle,
    /// Each vertex's number of placed neighbours.
    placed: Vec<u32>,
    /// The weights of each vertex's edges to unplaced ones, summed.
    open: Vec<u64>,
    waiting: BTreeSet<Key>,
}

impl Queue<'_> {
    fn new(circle: &Circle) -> Queue<'_> {
        let all_weights = |v| circle.neighbours(v).iter().map(|w| w.weight).sum();
        let mut queue = Queue {
            circle,
            placed: vec![0; circle.n()],
            open: (0..circle.n()).map(all_weights).collect(),
            waiting: BTreeSet::new(),
        };
        queue.waiting = (0..circle.n()).map(|v| queue.key(v)).collect();
        queue
    }

    fn first(&self) -> Option<usize> {
        self.waiting.first().map(|&(.., v)| v)
    }

    /// How many neighbours of v are unplaced.
    fn unplaced(&self, v: usize) -> u32 {
        self.circle.neighbours(v).len() as u32 - self.placed[v]
    }

    fn key(&self, v: usize) -> Key {
        let isolated = self.circle.neighbours(v).is_empty();
        (isolated, Reverse(self.placed[v]), self.unplaced(v), v)
    }

    /// Takes v out, and moves its unplaced neighbours forward.
    fn place(&mut self, v: usize) {
        self.waiting.remove(&self.key(v));
        for &Neighbour { vertex: w, weight } in self.circle.neighbours(v) {
            let was_waiting = self.waiting.remove(&self.key(w));
            self.placed[w] += 1;
            self.open[w] -= weight;
            if was_waiting {
                self.waiting.insert(self.key(w));
            }
        }
    }
}
