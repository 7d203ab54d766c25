//! The declarations from before edges had weights (document 02, Note 8): a layout
//! has no table of them, and numbers of crossings have 32 bits.

use std::array::from_fn;

use layouts::Weights;
use rostulanda::PLACES;
use second::layout::Layout;
use second::sifting;

use crate::libraries::{Declared, Library};
use crate::proved::{Lent, Report};

/// A library with these declarations.
pub struct Former;

impl Declared for Former {
    type Fields = Fields;
    type Tally = Tally;
    type Sifted = Sifted;
    type Round = Round;
    type Convergence = Convergence;
    type Counted = Counted;
    type Crossings = u32;
    type Link = extern "C" fn(&mut Fields, usize, usize) -> u8;

    const WEIGHTS: Weights = Weights::Ones;

    fn link(by: &Library<Former>, l: &mut Fields, a: usize, b: usize) -> u8 {
        (by.link)(l, a, b)
    }
}

#[repr(C)]
#[derive(Clone)]
pub struct Fields {
    n: usize,
    order: [u8; PLACES],
    adjacency: [u64; PLACES],
    count: u32,
}

impl Lent for Fields {
    fn of(l: &Layout) -> Fields {
        Fields {
            n: l.n as usize,
            order: l.order,
            adjacency: l.adjacency,
            count: l.count as u32,
        }
    }

    /// Each edge weighs 1.
    fn told(self) -> Layout {
        let weight = |v: usize, w: usize| (self.adjacency[v] >> w & 1) as u8;
        Layout {
            n: self.n as u64,
            order: self.order,
            adjacency: self.adjacency,
            weights: from_fn(|v| from_fn(|w| weight(v, w))),
            count: self.count.into(),
        }
    }
}

#[repr(C)]
pub struct Tally {
    refusal: u8,
    tally: u32,
}

impl Report for Tally {
    type Value = u64;

    fn parts(self) -> (u8, u64) {
        (self.refusal, self.tally.into())
    }
}

#[repr(C)]
pub struct Sifted {
    refusal: u8,
    reduction: u32,
    optima: u32,
}

impl Report for Sifted {
    type Value = sifting::Sift;

    fn parts(self) -> (u8, sifting::Sift) {
        let sift = sifting::Sift {
            reduction: self.reduction.into(),
            optima: self.optima,
        };
        (self.refusal, sift)
    }
}

#[repr(C)]
pub struct Round {
    refusal: u8,
    reduction: u32,
    moved: u32,
    optima: u32,
}

impl Report for Round {
    type Value = sifting::Round;

    fn parts(self) -> (u8, sifting::Round) {
        let round = sifting::Round {
            reduction: self.reduction.into(),
            moved: self.moved,
            optima: self.optima,
        };
        (self.refusal, round)
    }
}

#[repr(C)]
pub struct Convergence {
    refusal: u8,
    reduction: u32,
    rounds: u32,
    converged: bool,
    optima: u32,
}

impl Report for Convergence {
    type Value = sifting::Convergence;

    fn parts(self) -> (u8, sifting::Convergence) {
        let run = sifting::Convergence {
            reduction: self.reduction.into(),
            rounds: self.rounds,
            converged: self.converged,
            optima: self.optima,
        };
        (self.refusal, run)
    }
}

#[repr(C)]
pub struct Counted {
    refusal: u8,
    count: u32,
}

impl Report for Counted {
    type Value = u64;

    fn parts(self) -> (u8, u64) {
        (self.refusal, self.count.into())
    }
}
