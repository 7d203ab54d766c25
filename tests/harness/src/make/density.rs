//! How dense a graph is: the quarter of all possible edges that it has.

use crate::rng::Rng;

/// Into so many parts all possible edges are divided.
pub const QUARTERS: usize = 4;

/// From so many vertices on a graph is large.
pub const LARGE: usize = 32;

/// How many edges n vertices can have.
pub fn possible(n: usize) -> usize {
    n * n.saturating_sub(1) / 2
}

/// The quarter, from 0, in which m of the possible edges stand.
pub fn quarter(n: usize, m: usize) -> usize {
    (QUARTERS * m / possible(n).max(1)).min(QUARTERS - 1)
}

/// A number of edges in a quarter: in the first one often none, few, or about
/// as many as there are vertices, in the last one often all or nearly all.
pub fn edge_count(rng: &mut Rng, n: usize, quarter: usize) -> usize {
    let all = possible(n);
    let start = |quarter: usize| (quarter * all).div_ceil(QUARTERS);
    let last = match quarter + 1 {
        QUARTERS => all,
        next => start(next).saturating_sub(1),
    };
    let first = start(quarter).min(last);
    let any = rng.within(first, last);
    let few = rng.below(n + 1);
    let nearly_all = all.saturating_sub(rng.within(1, 3));
    let chosen = match quarter {
        0 => rng.pick(&[0, few, n + few, any, any]),
        3 => rng.pick(&[all, nearly_all, any, any]),
        _ => any,
    };
    chosen.clamp(first, last)
}

#[cfg(test)]
mod tests {
    use super::*;

    #[test]
    fn quarters_are_of_all_possible_edges() {
        assert_eq!((possible(0), possible(1), possible(64)), (0, 0, 2016));
        let quarters = [0, 503, 504, 1007, 1008, 1511, 1512, 2016].map(|m| quarter(64, m));
        assert_eq!(quarters, [0, 0, 1, 1, 2, 2, 3, 3]);
    }

    #[test]
    fn a_number_of_edges_stands_in_its_quarter() {
        for n in 4..=64 {
            for wanted in 0..QUARTERS {
                let mut rng = Rng::new(1, "density", n * QUARTERS + wanted);
                let m = edge_count(&mut rng, n, wanted);
                assert_eq!(quarter(n, m), wanted, "{m} edges of {n} vertices");
            }
        }
    }

    #[test]
    fn none_all_and_any_number_of_edges_occur() {
        let counts = |quarter| -> Vec<usize> {
            let numbers = (0..300).map(|index| Rng::new(1, "density", index));
            numbers
                .map(|mut rng| edge_count(&mut rng, 64, quarter))
                .collect()
        };
        assert!(counts(0).contains(&0) && counts(0).iter().any(|m| *m > 130));
        assert!(counts(3).contains(&2016) && counts(3).iter().any(|m| *m < 1700));
    }

    #[test]
    fn few_vertices_have_few_edges() {
        for n in 0..4 {
            for wanted in 0..QUARTERS {
                assert!(edge_count(&mut Rng::new(1, "few", n), n, wanted) <= possible(n));
            }
        }
    }
}
