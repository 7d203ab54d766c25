//! Circular sifting by Algorithm 2 of document 004, made to be fast, with the
//! calls, refusals and choices of document 01 and the weights of document 02, Note
//! 8, as the end of section 4 of document 004 has them. It is what the proved calls
//! are measured against.
//!
//! A call checks its layout, takes it apart once (`circle`), sifts, and gives
//! back order and carried count. For each swap the two adjacency lists are there
//! sorted, as ranks clockwise from the vertex that is sifted (`ranks`), and are
//! merged without a branch on which list is ahead (`merge`).

mod answers;
mod checks;
mod circle;
mod merge;
mod ranks;
mod words;

use second::calls::Answer;
use second::layout::Layout;

pub use answers::{Convergence, Round, WithoutOptima};
use circle::Circle;

/// Sift. Answers the reduction (document 01: saving).
pub fn sift(layout: Layout, u: u64) -> Answer<u64> {
    let refusal = checks::first_failed(&layout, &[(u < layout.n, 12)]);
    answer(layout, refusal, |circle| {
        let reduction = circle.sift(u as usize);
        (reduction, reduction)
    })
}

/// Round.
pub fn sifting_round(layout: Layout) -> Answer<Round> {
    let refusal = checks::first_failed(&layout, &[]);
    answer(layout, refusal, |circle| {
        let round = circle.sifting_round();
        (round, round.reduction)
    })
}

/// Settle with a limit.
pub fn converge(layout: Layout, limit: u32) -> Answer<Convergence> {
    let refusal = checks::first_failed(&layout, &[((1..=1000).contains(&limit), 17)]);
    answer(layout, refusal, |circle| {
        let run = circle.converge(limit);
        (run, run.reduction)
    })
}

/// Sifts, if the call isn't refused. `sifting` gives the value to answer, and
/// the reduction, by which the carried count goes down.
fn answer<T: Default>(
    mut layout: Layout,
    refusal: u8,
    sifting: impl FnOnce(&mut Circle) -> (T, u64),
) -> Answer<T> {
    let mut value = T::default();
    if refusal == 0 {
        let mut circle = Circle::new(&layout);
        let (answered, reduction) = sifting(&mut circle);
        value = answered;
        layout.order = circle.order();
        layout.count = layout.count.wrapping_sub(reduction);
    }
    Answer {
        refusal,
        layout,
        value,
    }
}
