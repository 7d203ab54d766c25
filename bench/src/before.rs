//! The calls on a lent layout, by the library of an earlier commit and as it is
//! now. Both are loaded as shared libraries, so that both are called alike.

use layouts::{chart, layout, Weights};
use second::layout::Layout;

use crate::agreement::{both_agree, Outcome};
use crate::libraries::{Call, Declared, Library, Now};
use crate::rows::{ends, laid, of_64, settle, LIMIT, NAMES, SIFTED, VERTEX};
use crate::times::{columns, print_heading, ratio, times};

/// Prints a line for each call, by the libraries in two files, the earlier one with
/// these declarations.
pub fn print<Before: Declared>(before: &str, now: &str) -> Outcome {
    let libraries = &Libraries::<Before> {
        before: Library::load(before)?,
        now: Library::load(now)?,
    };
    println!("microseconds of a call: median and minimum, by the library of the commit and as it is now; ratio: now to before\n");
    print_heading(&["before", "now"]);
    edits(libraries, 1000)?;
    files(libraries, 1000)?;
    appending(libraries)?;
    SIFTED
        .iter()
        .try_for_each(|&edges| sifting(libraries, edges))
}

struct Libraries<Before: Declared> {
    before: Library<Before>,
    now: Library<Now>,
}

impl<Before: Declared> Libraries<Before> {
    /// Prints the times of a call on a layout, if both libraries answer alike.
    fn line(&self, name: &str, l: &Layout, call: Call) -> Outcome {
        let (before, now) = (self.before.side(l, call), self.now.side(l, call));
        both_agree(name, [("before", &before.answer), ("now", &now.answer)])?;
        let times = times(&[before.repeat, now.repeat]);
        let sides: String = times.iter().map(columns).collect();
        println!("{name:<NAMES$}{sides}{}", ratio(&times[1], &times[0], 3));
        Ok(())
    }

    /// The same for some calls on 64 vertices with so many edges.
    fn lines(&self, l: &Layout, edges: usize, calls: &[(&str, Call)]) -> Outcome {
        let mut calls = calls.iter();
        calls.try_for_each(|&(name, call)| self.line(&of_64(name, edges), l, call))
    }
}

/// Calls on 64 vertices with so many edges.
fn edits<Before: Declared>(libraries: &Libraries<Before>, edges: usize) -> Outcome {
    let l = &layout(64, edges, Before::WEIGHTS);
    let [(a, b), (c, d)] = ends(l).map(|(a, b)| (a as usize, b as usize));
    let calls = [
        ("link", Call::Link(a, b)),
        ("unlink", Call::Unlink(c, d)),
        ("move", Call::Move(c, d)),
        ("count", Call::Count),
        ("order", Call::Order),
    ];
    libraries.lines(l, edges, &calls)
}

/// Reading, writing and counting 64 vertices with so many edges.
fn files<Before: Declared>(libraries: &Libraries<Before>, edges: usize) -> Outcome {
    let l = &layout(64, edges, Before::WEIGHTS);
    let chart = &chart(l);
    let calls = [
        ("reading a chart", Call::ReadChart(chart)),
        ("writing a chart", Call::WriteChart),
        ("the crossings of every edge", Call::EdgeCrossings),
    ];
    libraries.lines(l, edges, &calls)?;
    let exported = &layout(64, edges, Weights::Ones);
    libraries.lines(
        exported,
        edges,
        &[("exporting a graph6", Call::ExportGraph6)],
    )
}

/// Laying 64 vertices.
fn appending<Before: Declared>(libraries: &Libraries<Before>) -> Outcome {
    let lay = Call::Lay(VERTEX as usize);
    laid(Before::WEIGHTS)
        .iter()
        .try_for_each(|(name, l)| libraries.line(name, l, lay))
}

/// Sifting 64 vertices with so many edges.
fn sifting<Before: Declared>(libraries: &Libraries<Before>, edges: usize) -> Outcome {
    let l = &layout(64, edges, Before::WEIGHTS);
    let calls = [
        ("sift", Call::Sift(VERTEX as usize)),
        ("round", Call::Round),
        (&settle(), Call::Settle(LIMIT)),
    ];
    libraries.lines(l, edges, &calls)
}
