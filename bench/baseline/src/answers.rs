//! What the calls answer: what the second program does, but for the optima
//! (document 02, Note 3), which are not counted here.

use std::fmt::Debug;

use second::calls::Answer;
use second::sifting;

/// What a round answers.
#[derive(Clone, Copy, Debug, Default, PartialEq, Eq)]
pub struct Round {
    pub reduction: u64,
    pub moved: u32,
}

/// What settling answers.
#[derive(Clone, Copy, Debug, Default, PartialEq, Eq)]
pub struct Convergence {
    pub reduction: u64,
    pub rounds: u32,
    pub converged: bool,
}

/// An answer of the second program, to be compared with the baseline's.
pub trait WithoutOptima: PartialEq + Debug {
    type Rest: PartialEq + Debug;

    fn without_optima(self) -> Self::Rest;
}

impl<T: WithoutOptima> WithoutOptima for Answer<T> {
    type Rest = Answer<T::Rest>;

    fn without_optima(self) -> Self::Rest {
        Answer {
            refusal: self.refusal,
            layout: self.layout,
            value: self.value.without_optima(),
        }
    }
}

impl WithoutOptima for sifting::Sift {
    type Rest = u64;

    fn without_optima(self) -> u64 {
        self.reduction
    }
}

impl WithoutOptima for sifting::Round {
    type Rest = Round;

    fn without_optima(self) -> Round {
        Round {
            reduction: self.reduction,
            moved: self.moved,
        }
    }
}

impl WithoutOptima for sifting::Convergence {
    type Rest = Convergence;

    fn without_optima(self) -> Convergence {
        Convergence {
            reduction: self.reduction,
            rounds: self.rounds,
            converged: self.converged,
        }
    }
}
