//! The proved calls, as the library for hosts has them: each is lent a layout and
//! changes it in place. Here each gets a fresh copy of a layout. What it answers
//! is told in the second program's types, to be compared.

use std::fmt::Debug;

pub use rostulanda::ffi::{list_chart, play};
use rostulanda::{ffi, Fields, PLACES};
use second::calls::{Answer, Crossing};
use second::layout::Layout;
use second::sifting::{Convergence, Round, Sift};

use crate::expected::Played;

/// An answer of the library, and the same answer in the second program's types.
pub trait Told {
    type As: PartialEq + Debug;

    fn told(self) -> Self::As;
}

/// A layout as it is lent to a library.
pub trait Lent: Clone {
    fn of(l: &Layout) -> Self;

    fn told(self) -> Layout;
}

/// What a call that was lent a layout left: its report, and the layout.
pub struct Left<R, L = Fields> {
    report: R,
    layout: L,
}

/// What a call reports: the refusal number, and its value.
pub trait Report {
    type Value: PartialEq + Debug;

    fn parts(self) -> (u8, Self::Value);
}

impl<R: Report, L: Lent> Told for Left<R, L> {
    type As = Answer<R::Value>;

    fn told(self) -> Self::As {
        let (refusal, value) = self.report.parts();
        Answer {
            refusal,
            layout: self.layout.told(),
            value,
        }
    }
}

impl<A: Told, B: PartialEq + Debug> Told for (A, B) {
    type As = (A::As, B);

    fn told(self) -> Self::As {
        (self.0.told(), self.1)
    }
}

impl Lent for Fields {
    fn of(l: &Layout) -> Fields {
        let mut weights = [0; PLACES * PLACES];
        weights.copy_from_slice(l.weights.as_flattened());
        Fields {
            n: l.n as usize,
            order: l.order,
            adjacency: l.adjacency,
            weights,
            count: l.count,
        }
    }

    fn told(self) -> Layout {
        let mut weights = [[0; PLACES]; PLACES];
        weights.as_flattened_mut().copy_from_slice(&self.weights);
        Layout {
            n: self.n as u64,
            order: self.order,
            adjacency: self.adjacency,
            weights,
            count: self.count,
        }
    }
}

/// A layout of the second program, as it can be lent.
pub fn fields(l: &Layout) -> Fields {
    Fields::of(l)
}

/// Lends a copy of a layout to a call.
pub fn lend<R, L: Clone>(l: &L, call: impl FnOnce(&mut L) -> R) -> Left<R, L> {
    let mut layout = l.clone();
    let report = call(&mut layout);
    Left { report, layout }
}

pub fn empty() -> Layout {
    ffi::rl_empty().told()
}

pub fn read_chart(l: &Fields, chart: &[u8]) -> Left<u8> {
    lend(l, |l| ffi::read_chart(l, chart))
}

pub fn import_graph6(l: &Fields, graph6: &[u8]) -> Left<u8> {
    lend(l, |l| ffi::import_graph6(l, graph6))
}

pub fn add_vertex(l: &Fields) -> Left<ffi::Vertex> {
    lend(l, |l| ffi::rl_add_vertex(l))
}

pub fn add_edge(l: &Fields, a: u64, b: u64, weight: u8) -> Left<u8> {
    lend(l, |l| ffi::rl_add_edge(l, a as usize, b as usize, weight))
}

pub fn remove_edge(l: &Fields, a: u64, b: u64) -> Left<u8> {
    lend(l, |l| ffi::rl_remove_edge(l, a as usize, b as usize))
}

pub fn move_after(l: &Fields, a: u64, b: u64) -> Left<u8> {
    lend(l, |l| ffi::rl_move_after(l, a as usize, b as usize))
}

pub fn greedy_append(l: &Fields, start: u64) -> Left<ffi::Tally> {
    lend(l, |l| ffi::rl_greedy_append(l, start as usize))
}

pub fn sift(l: &Fields, u: u64) -> Left<ffi::Sifted> {
    lend(l, |l| ffi::rl_sift(l, u as usize))
}

pub fn sifting_round(l: &Fields) -> Left<ffi::Round> {
    lend(l, |l| ffi::rl_sifting_round(l))
}

pub fn converge(l: &Fields, limit: u32) -> Left<ffi::Convergence> {
    lend(l, |l| ffi::rl_converge(l, limit))
}

pub fn count(l: &Fields) -> Left<ffi::Counted> {
    lend(l, |l| ffi::rl_count(l))
}

pub fn order(l: &Fields, buffer: &mut [u8]) -> Left<u8> {
    lend(l, |l| ffi::order(l, buffer))
}

pub fn write_chart(l: &Fields, buffer: &mut [u8]) -> Left<ffi::Written> {
    lend(l, |l| ffi::write_chart(l, buffer))
}

/// Writes a chart, and reads it into another layout.
pub fn write_and_read(l: &Fields, buffer: &mut [u8], other: &Fields) -> Left<u8> {
    let length = write_chart(l, buffer).report.length;
    read_chart(other, &buffer[..length])
}

pub fn export_graph6(l: &Fields, buffer: &mut [u8]) -> Left<ffi::Written> {
    lend(l, |l| ffi::export_graph6(l, buffer))
}

/// Exports a graph6, and imports it into another layout.
pub fn export_and_import(l: &Fields, buffer: &mut [u8], other: &Fields) -> Left<u8> {
    let length = export_graph6(l, buffer).report.length;
    import_graph6(other, &buffer[..length])
}

pub fn edge_crossings(l: &Fields, table: &mut [u64]) -> Left<ffi::EdgesCounted> {
    lend(l, |l| ffi::edge_crossings(l, table))
}

pub fn first_crossing(l: &Fields) -> Left<ffi::Crossing> {
    lend(l, |l| ffi::rl_first_crossing(l))
}

pub fn is_valid(l: &Fields) -> Left<bool> {
    lend(l, |l| ffi::rl_is_valid(l))
}

impl Told for ffi::Played {
    type As = Played;

    fn told(self) -> Played {
        Played {
            refusal: self.refusal,
            layout: self.layout.told(),
            calls: self.calls,
        }
    }
}

impl Report for u8 {
    type Value = ();

    fn parts(self) -> (u8, ()) {
        (self, ())
    }
}

/// Whether a layout is valid is never refused.
impl Report for bool {
    type Value = bool;

    fn parts(self) -> (u8, bool) {
        (0, self)
    }
}

impl Report for ffi::Vertex {
    type Value = u64;

    fn parts(self) -> (u8, u64) {
        (self.refusal, self.vertex as u64)
    }
}

impl Report for ffi::Tally {
    type Value = u64;

    fn parts(self) -> (u8, u64) {
        (self.refusal, self.tally)
    }
}

impl Report for ffi::Counted {
    type Value = u64;

    fn parts(self) -> (u8, u64) {
        (self.refusal, self.count)
    }
}

impl Report for ffi::Written {
    type Value = usize;

    fn parts(self) -> (u8, usize) {
        (self.refusal, self.length)
    }
}

impl Report for ffi::EdgesCounted {
    type Value = usize;

    fn parts(self) -> (u8, usize) {
        (self.refusal, self.edges)
    }
}

impl Report for ffi::Sifted {
    type Value = Sift;

    fn parts(self) -> (u8, Sift) {
        let sift = Sift {
            reduction: self.reduction,
            optima: self.optima,
        };
        (self.refusal, sift)
    }
}

impl Report for ffi::Round {
    type Value = Round;

    fn parts(self) -> (u8, Round) {
        let round = Round {
            reduction: self.reduction,
            moved: self.moved,
            optima: self.optima,
        };
        (self.refusal, round)
    }
}

impl Report for ffi::Convergence {
    type Value = Convergence;

    fn parts(self) -> (u8, Convergence) {
        let run = Convergence {
            reduction: self.reduction,
            rounds: self.rounds,
            converged: self.converged,
            optima: self.optima,
        };
        (self.refusal, run)
    }
}

/// Where there is no pair, all four ends are 0; anything else is told as a pair,
/// which the second program doesn't answer then.
impl Report for ffi::Crossing {
    type Value = Crossing;

    fn parts(self) -> (u8, Crossing) {
        let [first, second] = [self.first, self.second].map(|edge| (edge.low, edge.high));
        let is_blank = !self.found && [first, second] == [(0, 0); 2];
        let crossing = match (self.refusal, is_blank) {
            (0, true) => Crossing::None,
            (_, true) => Crossing::Refused,
            _ => Crossing::Pair(first, second),
        };
        (self.refusal, crossing)
    }
}
