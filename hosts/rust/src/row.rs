//! The row of a layout: what the program `ringlist` prints.

use std::fmt;

use crate::ffi;

/// The least buffer that a listing needs.
const LISTING_BYTES: usize = 1024;

/// What sifting rounds up to a limit made of a layout. Printed, it is the seven
/// lines of `ringlist`, in document 01's words.
#[derive(Clone, Debug, PartialEq, Eq)]
pub struct Row {
    pub vertices: usize,
    pub edges: usize,
    /// The crossings before the first round.
    pub before: u64,
    /// The crossings after the last round.
    pub after: u64,
    /// The rounds run, the last one included.
    pub rounds: u32,
    /// Whether the last round moved no vertex.
    pub converged: bool,
    /// The order reached, clockwise.
    pub order: Vec<usize>,
}

impl fmt::Display for Row {
    fn fmt(&self, f: &mut fmt::Formatter) -> fmt::Result {
        let settled = if self.converged { "yes" } else { "no" };
        writeln!(f, "devices {}", self.vertices)?;
        writeln!(f, "links {}", self.edges)?;
        writeln!(f, "before {}", self.before)?;
        writeln!(f, "after {}", self.after)?;
        writeln!(f, "rounds {}", self.rounds)?;
        writeln!(f, "settled {settled}")?;
        write!(f, "order")?;
        for v in &self.order {
            write!(f, " {v}")?;
        }
        writeln!(f)
    }
}

/// What the program `ringlist` prints for a chart: seven lines, or one for a
/// refused chart.
pub fn list_chart(chart: &[u8]) -> String {
    let mut out = [0; LISTING_BYTES];
    let length = ffi::list_chart(chart, &mut out);
    String::from_utf8_lossy(&out[..length]).into_owned()
}

#[cfg(test)]
mod tests {
    use super::*;
    use crate::{Layout, Refusal, FIRST_CHART, MANY_ROUNDS_CHART, WEIGHTED_CHART};

    #[test]
    fn a_row_is_what_ringlist_prints() {
        let row = Layout::from_chart(FIRST_CHART).unwrap().row(50).unwrap();
        assert_eq!(row.to_string(), list_chart(FIRST_CHART));
        assert_eq!((row.before, row.after, row.rounds), (1, 0, 2));
    }

    #[test]
    fn a_row_has_the_limit_that_it_is_given() {
        let first = Layout::from_chart(FIRST_CHART).unwrap();
        let row = first.clone().row(1).unwrap();
        assert_eq!((row.after, row.rounds, row.converged), (0, 1, false));
        for limit in [0, 1001] {
            let refused = first.clone().row(limit);
            assert_eq!(refused, Err(Refusal::LimitOutOfRange));
        }
    }

    #[test]
    fn fifty_rounds_are_not_always_enough() {
        let layout = Layout::from_chart(MANY_ROUNDS_CHART).unwrap();
        let mut spent = layout.clone();
        let row = spent.row(50).unwrap();
        assert_eq!(row.to_string(), list_chart(MANY_ROUNDS_CHART));
        assert_eq!((row.rounds, row.converged), (50, false));
        assert_eq!((row.before, row.after), (434_951, 126_666));
        let run = layout.clone().converge_without_limit().unwrap();
        assert_eq!((run.rounds, run.converged), (52, true));
        let row = layout.clone().row_without_limit().unwrap();
        assert_eq!((row.rounds, row.converged), (52, true));
        assert_eq!((row.before, row.after), (434_951, 126_661));
        // Going on leads to the same order.
        let rest = spent.row_without_limit().unwrap();
        assert_eq!((rest.rounds, rest.after), (2, row.after));
        assert_eq!(rest.order, row.order);
    }

    #[test]
    fn a_row_goes_by_weights() {
        let layout = Layout::from_chart(WEIGHTED_CHART).unwrap();
        let row = layout.clone().row(50).unwrap();
        assert_eq!(row.to_string(), list_chart(WEIGHTED_CHART));
        assert_eq!((row.before, row.after, row.rounds), (18, 3, 2));
        assert_eq!(row.order, [1, 0, 2, 3, 4]);
        // Without weights its order cannot be bettered.
        let edges: Vec<_> = layout.edges().iter().map(|e| (e.low, e.high)).collect();
        let row = Layout::from_edges(5, &edges).unwrap().row(50).unwrap();
        assert_eq!((row.before, row.after, row.rounds), (1, 1, 1));
    }

    #[test]
    fn the_empty_layout_has_a_row() {
        let row = Layout::empty().row(50).unwrap().to_string();
        assert_eq!(row, list_chart(&[0x44, 0, 1, 0, 0x4C, 0, 0, 0x52, 0, 0]));
        assert!(row.ends_with("settled yes\norder\n"));
    }

    #[test]
    fn a_refused_chart_is_one_line() {
        assert_eq!(list_chart(&[]), "refused 3\n");
    }
}
