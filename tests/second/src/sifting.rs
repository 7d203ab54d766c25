//! Circular sifting: Algorithm 2 of document 004, with the places that
//! document 01 chooses, and with weights as the end of its section 4 says.

use std::cmp::Ordering;

use crate::circle::Circle;

/// What a sift answers.
#[derive(Clone, Copy, Debug, Default, PartialEq, Eq)]
pub struct Sift {
    /// The reduction (document 01: saving).
    pub reduction: u64,
    /// How many of the n - 1 candidate places have the least crossings
    /// (document 02, Note 3).
    pub optima: u32,
}

/// What a sifting round (document 01: round) answers.
#[derive(Clone, Copy, Debug, Default, PartialEq, Eq)]
pub struct Round {
    /// The summed reduction.
    pub reduction: u64,
    /// How many vertices moved.
    pub moved: u32,
    /// The sum of the sifts' optima.
    pub optima: u32,
}

/// What converging (document 01: settling) answers.
#[derive(Clone, Copy, Debug, Default, PartialEq, Eq)]
pub struct Convergence {
    pub reduction: u64,
    /// The rounds run, an unchanged last one included.
    pub rounds: u32,
    /// Whether the last round moved nothing (document 01: settled).
    pub converged: bool,
    /// The sum of the rounds' optima.
    pub optima: u32,
}

/// The change of the crossing count when u, standing directly before v, is
/// swapped with it (Lemma 1). The other vertices stand as in `circle`; where u
/// stands there does not matter. The adjacency lists, each without the other
/// one's vertex, are read clockwise from v and merged, and the weights of the
/// remaining suffix, summed, are added or subtracted as often as the edge that
/// is passed weighs.
pub fn swap_change(circle: &Circle, u: usize, v: usize) -> i64 {
    let list = |of: usize, without: usize| -> Vec<(usize, i64)> {
        let others = circle
            .neighbours_from(of, v)
            .filter(|w| w.vertex != without);
        let met = others.map(|w| (circle.distance(v, w.vertex), w.weight as i64));
        met.collect()
    };
    let (xs, ys) = (list(u, v), list(v, u));
    let weights = |list: &[(usize, i64)]| -> i64 { list.iter().map(|&(_, weight)| weight).sum() };
    let (mut left_of_u, mut left_of_v) = (weights(&xs), weights(&ys));
    let (mut i, mut j, mut change) = (0, 0, 0);
    while let (Some(&(x, weight_of_x)), Some(&(y, weight_of_y))) = (xs.get(i), ys.get(j)) {
        let order = x.cmp(&y);
        if order != Ordering::Greater {
            change -= weight_of_x * left_of_v;
        }
        if order != Ordering::Less {
            change += weight_of_y * left_of_u;
        }
        if order != Ordering::Greater {
            left_of_u -= weight_of_x;
            i += 1;
        }
        if order != Ordering::Less {
            left_of_v -= weight_of_y;
            j += 1;
        }
    }
    change
}

/// Sifts u: moves it behind the first of the other vertices, clockwise, that
/// gives least crossings, if those are fewer than now. The optima are counted
/// along the walk, afresh from each new least.
pub fn sift(circle: &mut Circle, u: usize) -> Sift {
    let (mut change, mut least, mut best, mut optima) = (0, 0, None, 0);
    for v in circle.others(u) {
        change += swap_change(circle, u, v);
        match change.cmp(&least) {
            Ordering::Less => (least, best, optima) = (change, Some(v), 1),
            Ordering::Equal => optima += 1,
            Ordering::Greater => {}
        }
    }
    debug_assert_eq!(change, 0, "a full turn changes nothing");
    if let Some(v) = best {
        circle.move_after(u, v);
    }
    Sift {
        reduction: least.unsigned_abs(),
        optima,
    }
}

/// Sifts every vertex once, in rising number.
pub fn sifting_round(circle: &mut Circle) -> Round {
    let mut round = Round::default();
    for u in 0..circle.n() {
        let sift = sift(circle, u);
        round.reduction += sift.reduction;
        round.moved += u32::from(sift.reduction > 0);
        round.optima += sift.optima;
    }
    round
}

/// Runs sifting rounds until one moves nothing, or `limit` of them are run.
pub fn converge(circle: &mut Circle, limit: u32) -> Convergence {
    let mut run = Convergence::default();
    while !run.converged && run.rounds < limit {
        let round = sifting_round(circle);
        run.reduction += round.reduction;
        run.rounds += 1;
        run.converged = round.moved == 0;
        run.optima += round.optima;
    }
    run
}
