//! A valid layout taken apart, and sifting in it.

use second::layout::{Layout, PLACES};

use crate::answers::{Convergence, Round};
use crate::merge::{swap_change, Xs, Ys};
use crate::ranks::{Ranks, Table, Weights};
use crate::words::{move_bit, read_from, transposed, write_sorted};

/// The order, for each vertex the set of its neighbours' positions, and the
/// weights.
pub struct Circle<'a> {
    n: usize,
    order: [u8; PLACES],
    neighbours: [u64; PLACES],
    weights: &'a Table,
}

/// Places for the neighbours of a vertex, and eight to write over.
const ROOM: usize = PLACES + 8;

/// The neighbours of the vertex that is sifted.
struct Neighbours<'a> {
    set: u64,
    /// Their ranks, sorted, and again a full turn later, so that they can be read
    /// clockwise from any vertex on.
    ranks: [u8; 2 * ROOM],
    /// The weights of those before each, summed.
    sums: [i64; 2 * ROOM],
    total: i64,
    weights: Weights<'a>,
}

/// A rank beyond all others.
const BEYOND: u8 = u8::MAX;

impl<'a> Neighbours<'a> {
    fn new(set: u64, turn: usize, weights: Weights<'a>) -> Neighbours<'a> {
        let mut ranks = [0; 2 * ROOM];
        let degree = write_sorted(set, 0, &mut ranks);
        write_sorted(set, turn as u8, &mut ranks[degree..]);
        ranks[2 * degree] = BEYOND;
        let mut sums = [0; 2 * ROOM];
        let mut sum = 0;
        for (entry, &rank) in sums.iter_mut().zip(&ranks[..=2 * degree]) {
            *entry = sum;
            sum += weights.to(rank);
        }
        Neighbours {
            set,
            ranks,
            total: sums[degree],
            sums,
            weights,
        }
    }

    /// Whether the vertex of that rank is among them.
    fn has(&self, rank: usize) -> bool {
        self.set >> rank & 1 == 1
    }

    /// All but the vertex of a rank, up to which so many are passed.
    fn without(&self, rank: usize, passed: usize) -> Xs<'_> {
        Xs {
            ranks: &self.ranks[passed..],
            sums: &self.sums[passed..],
            total: self.total - self.weights.to(rank as u8),
        }
    }
}

impl<'a> Circle<'a> {
    /// Takes a valid layout apart. Read along the order, the adjacency words have
    /// a column for each vertex.
    pub fn new(layout: &'a Layout) -> Circle<'a> {
        let n = layout.n as usize;
        let mut rows = [0; PLACES];
        for (row, &v) in rows.iter_mut().zip(&layout.order[..n]) {
            *row = layout.adjacency[usize::from(v)];
        }
        Circle {
            n,
            order: layout.order,
            neighbours: transposed(rows),
            weights: &layout.weights,
        }
    }

    /// The order as a layout holds it, unused places 0.
    pub fn order(&self) -> [u8; PLACES] {
        self.order
    }

    /// Sifts u: moves it behind the first of the other vertices, clockwise, that
    /// gives least crossings, if those are fewer than now. Answers the reduction.
    pub fn sift(&mut self, u: usize) -> u64 {
        let ranks = Ranks::new(u, &self.order[..self.n], self.weights);
        let set = ranks.of(self.neighbours[u]);
        let own = Neighbours::new(set, ranks.turn, ranks.weights(u));
        let (mut change, mut least, mut best) = (0, 0, None);
        let mut passed = 0;
        for rank in 0..ranks.turn {
            passed += usize::from(own.has(rank));
            change += self.swap_change(&ranks, own.without(rank, passed), rank);
            if change < least {
                (least, best) = (change, Some(rank));
            }
        }
        debug_assert_eq!(change, 0, "a full turn changes nothing");
        if let Some(rank) = best {
            self.move_behind(ranks.place, ranks.position(rank));
        }
        least.unsigned_abs()
    }

    /// The change of the crossings when the sifted vertex passes the one of a rank.
    /// Its neighbours are given, clockwise from there: the ranks up to the last one,
    /// and then those passed before, a full turn later. Those of the other are
    /// sorted in the same way.
    fn swap_change(&self, ranks: &Ranks, xs: Xs, rank: usize) -> i64 {
        let v = ranks.vertex(rank);
        let set = ranks.of(self.neighbours[v]);
        let mut list = [0; ROOM];
        let degree = write_sorted(read_from(set, rank, ranks.turn), rank as u8, &mut list);
        let ys = Ys {
            ranks: &list[..=degree],
            weights: ranks.weights(v),
        };
        swap_change(xs, ys)
    }

    /// Takes the vertex at a position out of the list, and puts it directly after
    /// the one at another.
    fn move_behind(&mut self, place: usize, other: usize) {
        let to = if place < other { other } else { other + 1 };
        if place < to {
            self.order[place..=to].rotate_left(1);
        } else {
            self.order[to..=place].rotate_right(1);
        }
        for set in &mut self.neighbours {
            *set = move_bit(*set, place, to);
        }
    }

    /// Sifts every vertex once, in rising number.
    pub fn sifting_round(&mut self) -> Round {
        let mut round = Round::default();
        for u in 0..self.n {
            let reduction = self.sift(u);
            round.reduction += reduction;
            round.moved += u32::from(reduction > 0);
        }
        round
    }

    /// Runs sifting rounds until one moves nothing, or `limit` of them are run.
    pub fn converge(&mut self, limit: u32) -> Convergence {
        let mut run = Convergence::default();
        while !run.converged && run.rounds < limit {
            let round = self.sifting_round();
            run.reduction += round.reduction;
            run.rounds += 1;
            run.converged = round.moved == 0;
        }
        run
    }
}
