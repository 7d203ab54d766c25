//! The change of the crossings by a swap.

use std::hint::select_unpredictable;

use crate::ranks::Weights;

/// The neighbours x of the vertex that is sifted, sorted.
pub struct Xs<'a> {
    /// Their ranks. Behind those to be read stands one beyond all y, and behind that
    /// an entry that can be anything.
    pub ranks: &'a [u8],
    /// The weights of those before each, and of any others, summed.
    pub sums: &'a [i64],
    /// The weights of those to be read, summed.
    pub total: i64,
}

/// The neighbours y of the vertex that is passed, sorted.
pub struct Ys<'a> {
    /// Their ranks, and an entry behind them that can be anything.
    pub ranks: &'a [u8],
    /// What the edges to them weigh.
    pub weights: Weights<'a>,
}

/// The change of the crossings when u, standing directly before v, is swapped with
/// it (Lemma 1, with weights as at the end of its section). Given are the neighbours
/// x of u without v and the neighbours y of v without u, both sorted clockwise from
/// v.
///
/// An edge to x and one to y cross after the swap if y is met before x, and
/// crossed before it if x is met first; that counts the product of their weights.
/// When the merge comes to a y, it knows what the x met before it weigh, and
/// whether the next x is y itself; all further ones are met behind it. Each step of
/// the merge takes the lower of the next x and the next y, or both if they are
/// equal.
pub fn swap_change(xs: Xs, ys: Ys) -> i64 {
    let sums = &xs.sums[..xs.ranks.len()];
    let (mut x, mut y) = (xs.ranks[0], ys.ranks[0]);
    // What the x behind a y weigh, less what those before it do, is
    // all - before - before_or_at.
    let mut before = sums[0];
    let all = 2 * before + xs.total;
    let (mut i, mut j) = (1, 1);
    let mut change = 0;
    while j < ys.ranks.len() {
        let (next_x, next_y, next_before) = (xs.ranks[i], ys.ranks[j], sums[i]);
        let (takes_x, takes_y) = (x <= y, y <= x);
        let weight = select_unpredictable(takes_y, ys.weights.to(y), 0);
        i += usize::from(takes_x);
        j += usize::from(takes_y);
        let before_or_at = select_unpredictable(takes_x, next_before, before);
        x = select_unpredictable(takes_x, next_x, x);
        y = select_unpredictable(takes_y, next_y, y);
        change += weight * (all - before - before_or_at);
        before = before_or_at;
    }
    change
}

#[cfg(test)]
mod tests {
    use super::*;
    use crate::ranks::{Ranks, Table};

    /// A rank beyond those of short lists.
    const BEYOND: u8 = 7;

    /// Pair by pair.
    fn change(xs: &[u8], ys: &[u8], of_u: &Weights, of_v: &Weights) -> i64 {
        let pairs = xs.iter().flat_map(|x| ys.iter().map(move |y| (x, y)));
        let change = |(x, y): (&u8, &u8)| {
            let sign = i64::from(y < x) - i64::from(x < y);
            sign * of_u.to(*x) * of_v.to(*y)
        };
        pairs.map(change).sum()
    }

    fn sorted(set: u32) -> Vec<u8> {
        (0..7).filter(|i| set >> i & 1 == 1).collect()
    }

    /// Of those before each.
    fn sums(xs: &[u8], weights: &Weights) -> Vec<i64> {
        let before = |i: usize| xs[..i].iter().map(|&x| weights.to(x)).sum();
        (0..xs.len()).map(before).collect()
    }

    #[test]
    fn all_pairs_of_short_lists() {
        let order: Vec<u8> = (0..10).collect();
        let weight = |v: usize, w: usize| 255 - (7 * v + 31 * w) as u8 % 251;
        let table: Table = std::array::from_fn(|v| std::array::from_fn(|w| weight(v, w)));
        let ranks = Ranks::new(0, &order, &table);
        let (of_u, of_v) = (&ranks.weights(0), &ranks.weights(1));
        for (a, b) in (0..128).flat_map(|a| (0..128).map(move |b| (a, b))) {
            let (xs, ys) = (sorted(a), sorted(b));
            let long_xs = [&xs[..], &[BEYOND, 0]].concat();
            let sums = sums(&long_xs, of_u);
            let result = swap_change(
                Xs {
                    ranks: &long_xs,
                    sums: &sums,
                    total: sums[xs.len()],
                },
                Ys {
                    ranks: &[&ys[..], &[0]].concat(),
                    weights: ranks.weights(1),
                },
            );
            assert_eq!(result, change(&xs, &ys, of_u, of_v), "{xs:?} {ys:?}");
        }
    }
}
