//! A row that somebody else printed, checked.

use crate::layout::{with_unit_weights, Layout};
use crate::refusal::Refusal;

/// A move of one vertex that lowers the crossings.
#[derive(Clone, Copy, Debug, PartialEq, Eq)]
pub struct Move {
    /// The vertex that is moved,
    pub vertex: usize,
    /// the one that it is put directly after (document 01: behind),
    pub after: usize,
    /// and how many crossings fewer there are then.
    pub reduction: u64,
}

/// What is true of an order that somebody printed.
#[derive(Clone, Copy, Debug, PartialEq, Eq)]
pub struct Checked {
    /// Its crossings.
    pub crossings: u64,
    /// Whether these are what was printed.
    pub right: bool,
    /// A move that betters it. `None`: a local minimum, no move of one vertex
    /// lowers the crossings.
    pub better: Option<Move>,
}

/// Whether printed crossings are those of a printed order, and whether a move
/// of one vertex betters it. The order holds each vertex once, the isolated ones
/// too, and each edge, of weight 1, is given once: what is refused is refused as
/// by [`Layout::from_order`]. Each vertex is sifted, in the order's own sequence,
/// and the first one that moves gives the move, to its best place.
///
/// ```
/// use rostulanda::check_row;
///
/// let checked = check_row(&[(0, 2), (1, 3)], &[0, 1, 2, 3], 1)?;
/// assert!(checked.right);
/// let better = checked.better.unwrap();
/// assert_eq!((better.vertex, better.after, better.reduction), (0, 1, 1));
/// # Ok::<(), rostulanda::Refusal>(())
/// ```
pub fn check_row(
    edges: &[(usize, usize)],
    order: &[usize],
    crossings: u64,
) -> Result<Checked, Refusal> {
    check_weighted_row(&with_unit_weights(edges), order, crossings)
}

/// The same for edges with weights, as [`Layout::from_weighted_order`] takes
/// them.
///
/// ```
/// use rostulanda::check_weighted_row;
///
/// let checked = check_weighted_row(&[(0, 2, 5), (1, 3, 4)], &[0, 1, 2, 3], 20)?;
/// assert!(checked.right);
/// assert_eq!(checked.better.unwrap().reduction, 20);
/// # Ok::<(), rostulanda::Refusal>(())
/// ```
pub fn check_weighted_row(
    edges: &[(usize, usize, u8)],
    order: &[usize],
    crossings: u64,
) -> Result<Checked, Refusal> {
    let mut layout = Layout::from_weighted_order(edges, order)?;
    let counted = layout.count()?;
    Ok(Checked {
        crossings: counted,
        right: counted == crossings,
        better: better(&mut layout, order)?,
    })
}

/// The move of the first vertex that a sift moves, if there is one. A sift that
/// moves nothing leaves the layout as it was.
fn better(layout: &mut Layout, order: &[usize]) -> Result<Option<Move>, Refusal> {
    for &vertex in order {
        let reduction = layout.sift(vertex)?.reduction;
        if reduction > 0 {
            let moved = layout.order()?;
            let pair = moved.windows(2).find(|pair| pair[1] == vertex);
            return Ok(pair.map(|pair| Move {
                vertex,
                after: pair[0],
                reduction,
            }));
        }
    }
    Ok(None)
}

#[cfg(test)]
mod tests {
    use super::*;
    use crate::scattered;

    #[test]
    fn the_first_chart() {
        let edges = [(0, 2), (1, 3)];
        let better = Some(Move {
            vertex: 0,
            after: 1,
            reduction: 1,
        });
        let checked = |crossings, right, better| {
            Ok(Checked {
                crossings,
                right,
                better,
            })
        };
        let rising = [0, 1, 2, 3];
        assert_eq!(check_row(&edges, &rising, 1), checked(1, true, better));
        assert_eq!(check_row(&edges, &rising, 0), checked(1, false, better));
        assert_eq!(check_row(&edges, &[1, 0, 2, 3], 0), checked(0, true, None));
        assert_eq!(check_row(&[], &[], 0), checked(0, true, None));
        let refused = check_row(&edges, &[0, 1, 2, 2], 1);
        assert_eq!(refused, Err(Refusal::ChartOrder));
    }

    #[test]
    fn a_move_is_the_best_of_the_first_vertex_that_has_one() {
        for (n, one_in) in [(5, 2), (9, 2), (14, 3), (20, 4)] {
            let edges = scattered(n, one_in);
            let order: Vec<usize> = (0..n).map(|i| (i * 3 + 1) % n).collect();
            let order = if n % 3 == 0 { (0..n).collect() } else { order };
            let layout = Layout::from_weighted_order(&edges, &order).unwrap();
            let crossings = layout.count().unwrap();
            let reached = |vertex, after| {
                let mut moved = layout.clone();
                moved.move_after(vertex, after).unwrap();
                moved.count().unwrap()
            };
            let fewest = |vertex: usize| {
                let others = order.iter().filter(|&&v| v != vertex);
                others.map(|&v| reached(vertex, v)).min().unwrap()
            };
            let first = order.iter().find(|&&v| fewest(v) < crossings);
            let checked = check_weighted_row(&edges, &order, crossings).unwrap();
            assert_eq!((checked.crossings, checked.right), (crossings, true));
            assert_eq!(checked.better.map(|m| m.vertex), first.copied());
            if let Some(Move {
                vertex,
                after,
                reduction,
            }) = checked.better
            {
                assert_eq!(fewest(vertex), crossings - reduction);
                assert_eq!(reached(vertex, after), crossings - reduction);
            }
        }
    }

    #[test]
    fn a_converged_row_cannot_be_bettered() {
        let edges = scattered(16, 3);
        let mut layout = Layout::from_weighted_edges(16, &edges).unwrap();
        let row = layout.row_without_limit().unwrap();
        let checked = check_weighted_row(&edges, &row.order, row.after).unwrap();
        assert!(row.converged && checked.right);
        assert_eq!(checked.better, None);
    }
}
