//! The calls of documents 01 and 02: a layout goes in and comes back as a value.

use crate::append;
use crate::chart;
use crate::circle::{Circle, Edge};
use crate::crossings;
use crate::graph6;
use crate::layout::{Layout, PLACES};
use crate::sifting::{self, Convergence, Round, Sift};

/// What a call gives back.
#[derive(Clone, Debug, PartialEq, Eq)]
pub struct Answer<T> {
    /// 0 for an accepted call.
    pub refusal: u8,
    pub layout: Layout,
    pub value: T,
}

/// The shown crossing pair.
#[derive(Clone, Copy, Debug, Default, PartialEq, Eq)]
pub enum Crossing {
    Pair(Edge, Edge),
    None,
    #[default]
    Refused,
}

/// A check (document 01: question): whether it is passed, and its number.
type Check = (bool, u8);

/// Puts the checks to a call, the layout's validity first, and makes the
/// change if all are passed.
fn answer<T: Default>(
    layout: Layout,
    checks: &[Check],
    change: impl FnOnce(&mut Layout) -> T,
) -> Answer<T> {
    let valid = (layout.is_valid(), 11);
    let mut failed = std::iter::once(&valid).chain(checks).filter(|c| !c.0);
    let mut answer = Answer {
        refusal: failed.next().map_or(0, |&(_, number)| number),
        layout,
        value: T::default(),
    };
    if answer.refusal == 0 {
        answer.value = change(&mut answer.layout);
    }
    answer
}

/// Changes the carried count by crossings after less crossings before.
fn counting<T>(layout: &mut Layout, change: impl FnOnce(&mut Layout) -> T) -> T {
    let before = crossings::crossings(&Circle::new(layout));
    let value = change(layout);
    let after = crossings::crossings(&Circle::new(layout));
    layout.count = layout.count.wrapping_add(after).wrapping_sub(before);
    value
}

/// Changes the order by way of the sorted adjacency lists.
fn reordering<T>(layout: &mut Layout, change: impl FnOnce(&mut Circle) -> T) -> T {
    counting(layout, |layout| {
        let mut circle = Circle::new(layout);
        let value = change(&mut circle);
        layout.order = circle.order_bytes();
        value
    })
}

/// Add: vertex n at the end of the order. Answers its number.
pub fn add_vertex(layout: Layout) -> Answer<u64> {
    answer(layout, &[(layout.n < PLACES as u64, 16)], |layout| {
        let v = layout.n;
        layout.order[v as usize] = v as u8;
        layout.n += 1;
        v
    })
}

/// The checks that two named vertices are there and differ.
fn two_vertices(layout: &Layout, a: u64, b: u64) -> [Check; 2] {
    [(a < layout.n && b < layout.n, 12), (a != b, 13)]
}

/// Link, with a weight.
pub fn add_edge(layout: Layout, a: u64, b: u64, weight: u8) -> Answer<()> {
    let [there, differ] = two_vertices(&layout, a, b);
    let unlinked = (!layout.has_edge(a, b), 14);
    let checks = [there, differ, unlinked, (weight != 0, 25)];
    answer(layout, &checks, |layout| {
        counting(layout, |layout| {
            layout.put_edge(a as usize, b as usize, weight)
        })
    })
}

/// Unlink.
pub fn remove_edge(layout: Layout, a: u64, b: u64) -> Answer<()> {
    let [there, differ] = two_vertices(&layout, a, b);
    let linked = (layout.has_edge(a, b), 15);
    answer(layout, &[there, differ, linked], |layout| {
        counting(layout, |layout| layout.cut_edge(a as usize, b as usize))
    })
}

/// Move a behind b.
pub fn move_after(layout: Layout, a: u64, b: u64) -> Answer<()> {
    answer(layout, &two_vertices(&layout, a, b), |layout| {
        reordering(layout, |circle| circle.move_after(a as usize, b as usize))
    })
}

/// Lay from a vertex. Answers the tally.
pub fn greedy_append(layout: Layout, start: u64) -> Answer<u64> {
    answer(layout, &[(start < layout.n, 12)], |layout| {
        reordering(layout, |circle| {
            let appended = append::greedy_append(circle, start as usize);
            circle.reorder(appended.order);
            appended.tally
        })
    })
}

/// Sift.
pub fn sift(layout: Layout, u: u64) -> Answer<Sift> {
    answer(layout, &[(u < layout.n, 12)], |layout| {
        reordering(layout, |circle| sifting::sift(circle, u as usize))
    })
}

/// Round.
pub fn sifting_round(layout: Layout) -> Answer<Round> {
    answer(layout, &[], |layout| {
        reordering(layout, sifting::sifting_round)
    })
}

/// Settle with a limit.
pub fn converge(layout: Layout, limit: u32) -> Answer<Convergence> {
    answer(layout, &[((1..=1000).contains(&limit), 17)], |layout| {
        reordering(layout, |circle| sifting::converge(circle, limit))
    })
}

/// The carried count.
pub fn count(layout: Layout) -> Answer<u64> {
    answer(layout, &[], |layout| layout.count)
}

/// The order, written to the first n bytes of a lent buffer.
pub fn order(layout: Layout, buffer: &mut [u8]) -> Answer<()> {
    let long_enough = buffer.len() as u64 >= layout.n;
    answer(layout, &[(long_enough, 18)], |layout| {
        let n = layout.n as usize;
        buffer[..n].copy_from_slice(&layout.order[..n]);
    })
}

/// What is made of a layout, written to the first entries of what is lent, if
/// it passes some checks and then has room, which is a check with a number too.
/// Answers how many are written.
fn write<E: Copy>(
    layout: Layout,
    checks: &[Check],
    (lent, number): (&mut [E], u8),
    make: fn(&Layout) -> Vec<E>,
) -> Answer<usize> {
    let made = if layout.is_valid() {
        make(&layout)
    } else {
        Vec::new()
    };
    let length = made.len();
    let room = (length <= lent.len(), number);
    answer(layout, &[checks, &[room]].concat(), |_| {
        lent[..length].copy_from_slice(&made);
        length
    })
}

/// The chart.
pub fn write_chart(layout: Layout, buffer: &mut [u8]) -> Answer<usize> {
    write(layout, &[], (buffer, 19), chart::bytes)
}

/// Export: the graph6, which has no place for weights.
pub fn write_graph6(layout: Layout, buffer: &mut [u8]) -> Answer<usize> {
    let unweighted = (!layout.is_weighted(), 26);
    write(layout, &[unweighted], (buffer, 19), graph6::bytes)
}

/// The crossings of each edge (document 02, Note 7), the edges in the sequence
/// of the chart. Answers how many edges there are.
pub fn edge_crossings(layout: Layout, table: &mut [u64]) -> Answer<usize> {
    write(layout, &[], (table, 23), |layout| {
        crossings::edge_crossings(&Circle::new(layout))
    })
}

/// The shown crossing pair.
pub fn first_crossing(layout: Layout) -> Answer<Crossing> {
    answer(layout, &[], |layout| {
        let found = crossings::first_crossing(&Circle::new(layout));
        found.map_or(Crossing::None, |(first, second)| {
            Crossing::Pair(first, second)
        })
    })
}
