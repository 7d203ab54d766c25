//! The calls of documents 01 and 02, each with its questions in their order.

use super::chart::written;
use super::graph6::exported;
use super::layout::{
    crossings, crossings_of_each, first_pair, is_weighted, isolated, join, joined, list, valid,
    weighted, Edge, Layout, Weighted,
};

/// The refusal number and the answers. Only an accepted call changes the
/// layout.
pub type Reply<T> = (u8, T);

/// Takes a out of the list and puts it directly after b.
fn moved(order: &[usize], a: usize, b: usize) -> Vec<usize> {
    let mut result: Vec<usize> = order.iter().copied().filter(|&v| v != a).collect();
    let place = result.iter().position(|&v| v == b).expect("b is listed");
    result.insert(place + 1, a);
    result
}

/// Changes a layout, and its count by crossings after less crossings before.
fn counting(layout: &mut Layout, change: impl FnOnce(&mut Layout)) {
    let before = crossings(&list(layout), &weighted(layout));
    change(layout);
    let after = crossings(&list(layout), &weighted(layout));
    layout.count = layout.count.wrapping_add(after).wrapping_sub(before);
}

/// Writes the list into the layout.
fn set_order(layout: &mut Layout, order: &[usize]) {
    counting(layout, |layout| {
        for (i, &v) in order.iter().enumerate() {
            layout.order[i] = v as u8;
        }
    });
}

pub fn add(layout: &mut Layout) -> Reply<u64> {
    if !valid(layout) {
        return (11, 0);
    }
    if layout.n >= 64 {
        return (16, 0);
    }
    layout.order[layout.n as usize] = layout.n as u8;
    layout.n += 1;
    (0, layout.n - 1)
}

/// The questions put to link, unlink and move before their own.
fn refuse_two(layout: &Layout, a: u64, b: u64) -> u8 {
    if !valid(layout) {
        11
    } else if a >= layout.n || b >= layout.n {
        12
    } else if a == b {
        13
    } else {
        0
    }
}

/// Links two vertices with a weight.
pub fn link(layout: &mut Layout, a: u64, b: u64, weight: u8) -> u8 {
    let refusal = refuse_two(layout, a, b);
    if refusal != 0 {
        return refusal;
    }
    let (a, b) = (a as usize, b as usize);
    if joined(&layout.words, a, b) {
        return 14;
    }
    if weight == 0 {
        return 25;
    }
    counting(layout, |layout| join(layout, a, b, weight));
    0
}

pub fn unlink(layout: &mut Layout, a: u64, b: u64) -> u8 {
    let refusal = refuse_two(layout, a, b);
    if refusal != 0 {
        return refusal;
    }
    let (a, b) = (a as usize, b as usize);
    if !joined(&layout.words, a, b) {
        return 15;
    }
    counting(layout, |layout| {
        layout.words[a] ^= 1 << b;
        layout.words[b] ^= 1 << a;
        layout.weights[a][b] = 0;
        layout.weights[b][a] = 0;
    });
    0
}

pub fn move_behind(layout: &mut Layout, a: u64, b: u64) -> u8 {
    let refusal = refuse_two(layout, a, b);
    if refusal == 0 {
        let order = moved(&list(layout), a as usize, b as usize);
        set_order(layout, &order);
    }
    refusal
}

/// The questions put to a call that names one vertex.
fn refuse_one(layout: &Layout, v: u64) -> u8 {
    if !valid(layout) {
        11
    } else if v >= layout.n {
        12
    } else {
        0
    }
}

/// Greedy append (lay). Answers the tally.
pub fn lay(layout: &mut Layout, s: u64) -> Reply<u64> {
    let isolated = isolated(layout);
    lay_with_last(layout, s, &isolated)
}

/// Lay as it was before Note 2 of document 02. No program is compared with it.
pub fn former_lay(layout: &mut Layout, s: u64) -> Reply<u64> {
    lay_with_last(layout, s, &[])
}

/// Places the start, then by the rule of document 01 all vertices but those
/// that are to be last, then these at the back in their sequence.
fn lay_with_last(layout: &mut Layout, s: u64, last: &[usize]) -> Reply<u64> {
    let refusal = refuse_one(layout, s);
    if refusal != 0 {
        return (refusal, 0);
    }
    let mut order = vec![s as usize];
    let mut tally = 0;
    while let Some(v) = next_to_lay(layout, &order, last) {
        let (front, back) = crossings_at_ends(layout, &order, v);
        let place = if front < back { 0 } else { order.len() };
        order.insert(place, v);
        tally += if front < back { front } else { back };
    }
    for &v in last {
        if v != s as usize {
            order.push(v);
        }
    }
    set_order(layout, &order);
    (0, tally)
}

/// The unplaced vertex with most placed, then fewest unplaced neighbours, then
/// the lowest number; none of those that are to be last.
fn next_to_lay(layout: &Layout, placed: &[usize], last: &[usize]) -> Option<usize> {
    let mut best: Option<(usize, usize, usize)> = None;
    let may_follow = |v: &usize| !placed.contains(v) && !last.contains(v);
    for v in (0..layout.n as usize).filter(may_follow) {
        let neighbours: Vec<usize> = (0..64).filter(|&w| joined(&layout.words, v, w)).collect();
        let there = neighbours.iter().filter(|w| placed.contains(w)).count();
        let missing = neighbours.len() - there;
        let better =
            best.is_none_or(|(most, fewest, _)| there > most || there == most && missing < fewest);
        if better {
            best = Some((there, missing, v));
        }
    }
    best.map(|(_, _, v)| v)
}

/// The crossings of closing with open edges, v put in front and at the back,
/// each with the product of its two weights.
fn crossings_at_ends(layout: &Layout, placed: &[usize], v: usize) -> (u64, u64) {
    let (mut front, mut back) = (0, 0);
    let weight = |v: usize, w: usize| u64::from(layout.weights[v][w]);
    let unplaced = |w: &usize| *w != v && !placed.contains(w);
    let unplaced: Vec<usize> = (0..layout.n as usize).filter(unplaced).collect();
    for (i, &p) in placed.iter().enumerate() {
        for (j, &q) in placed.iter().enumerate() {
            for &w in &unplaced {
                if joined(&layout.words, v, p) && joined(&layout.words, q, w) {
                    let product = weight(v, p) * weight(q, w);
                    front += if j < i { product } else { 0 };
                    back += if j > i { product } else { 0 };
                }
            }
        }
    }
    (front, back)
}

/// A list that has u in some place, and its crossings.
type Candidate = (Vec<usize>, u64);

/// The candidates that have u directly after each of the others, clockwise from
/// u.
fn candidates(order: &[usize], edges: &[Weighted], u: usize) -> Vec<Candidate> {
    let place = order.iter().position(|&v| v == u).expect("u is listed");
    let mut candidates = Vec::new();
    for k in 1..order.len() {
        let candidate = moved(order, u, order[(place + k) % order.len()]);
        let found = crossings(&candidate, edges);
        candidates.push((candidate, found));
    }
    candidates
}

/// Those of them that have the least crossings, in their sequence.
fn best_candidates(order: &[usize], edges: &[Weighted], u: usize) -> Vec<Candidate> {
    let mut candidates = candidates(order, edges, u);
    let least = candidates.iter().map(|&(_, found)| found).min();
    candidates.retain(|&(_, found)| Some(found) == least);
    candidates
}

/// What sifting answers: the reduction (saving), how many vertices moved, and
/// the optima, how many of the n - 1 candidate places have the least crossings
/// (document 02, Note 3), each summed over the sifts.
type Sums = (u64, u32, u32);

/// Sifts these vertices one after the other.
fn sift_all(layout: &mut Layout, vertices: impl Iterator<Item = usize>) -> Sums {
    let (mut saving, mut moves, mut optima) = (0, 0, 0);
    let edges = weighted(layout);
    for u in vertices {
        let order = list(layout);
        let best = best_candidates(&order, &edges, u);
        optima += best.len() as u32;
        let present = crossings(&order, &edges);
        if let Some((first, least)) = best.first().filter(|(_, least)| *least < present) {
            saving += present - least;
            moves += 1;
            set_order(layout, first);
        }
    }
    (saving, moves, optima)
}

/// Answers the reduction (saving) and the optima.
pub fn sift(layout: &mut Layout, u: u64) -> Reply<(u64, u32)> {
    let refusal = refuse_one(layout, u);
    if refusal != 0 {
        return (refusal, (0, 0));
    }
    let (saving, _, optima) = sift_all(layout, std::iter::once(u as usize));
    (0, (saving, optima))
}

/// A sifting round (round).
pub fn round(layout: &mut Layout) -> Reply<Sums> {
    if !valid(layout) {
        return (11, (0, 0, 0));
    }
    let n = layout.n as usize;
    (0, sift_all(layout, 0..n))
}

/// Converging (settle). Answers the reduction (saving), the rounds run, whether
/// the last one moved nothing (settled), and the optima.
pub fn settle(layout: &mut Layout, limit: u64) -> Reply<(u64, u32, bool, u32)> {
    if !valid(layout) {
        return (11, (0, 0, false, 0));
    }
    if !(1..=1000).contains(&limit) {
        return (17, (0, 0, false, 0));
    }
    let (mut saving, mut optima) = (0, 0);
    for rounds in 1.. {
        let (_, (saved, moves, found)) = round(layout);
        saving += saved;
        optima += found;
        if moves == 0 || u64::from(rounds) == limit {
            return (0, (saving, rounds, moves == 0, optima));
        }
    }
    unreachable!("the limit is at most 1000")
}

pub fn count(layout: &Layout) -> Reply<u64> {
    if valid(layout) {
        (0, layout.count)
    } else {
        (11, 0)
    }
}

pub fn order(layout: &Layout, buffer: &mut [u8]) -> u8 {
    if !valid(layout) {
        return 11;
    }
    if (buffer.len() as u64) < layout.n {
        return 18;
    }
    for (i, v) in list(layout).into_iter().enumerate() {
        buffer[i] = v as u8;
    }
    0
}

/// The shown crossing pair, none where no two edges cross.
pub fn pair(layout: &Layout) -> Reply<Option<(Edge, Edge)>> {
    if !valid(layout) {
        return (11, None);
    }
    (0, first_pair(&list(layout), &weighted(layout)))
}

/// Writes the chart into a lent buffer. Answers its length.
pub fn write(layout: &Layout, buffer: &mut [u8]) -> Reply<usize> {
    if !valid(layout) {
        return (11, 0);
    }
    put(&written(layout), buffer, 19)
}

/// Writes the graph6 into a lent buffer. Answers its length.
pub fn export(layout: &Layout, buffer: &mut [u8]) -> Reply<usize> {
    if !valid(layout) {
        return (11, 0);
    }
    if is_weighted(layout) {
        return (26, 0);
    }
    put(&exported(layout), buffer, 19)
}

/// Fills a lent table with the crossings of each edge (link), in the sequence in
/// which the chart has them. Answers how many edges there are.
pub fn edge_crossings(layout: &Layout, table: &mut [u64]) -> Reply<usize> {
    if !valid(layout) {
        return (11, 0);
    }
    let numbers = crossings_of_each(&list(layout), &weighted(layout));
    put(&numbers, table, 23)
}

/// Puts what is made of a layout into what is lent, which is refused with some
/// number if it is too short. Answers the length of what is made.
fn put<E: Copy>(made: &[E], lent: &mut [E], too_short: u8) -> Reply<usize> {
    if lent.len() < made.len() {
        return (too_short, 0);
    }
    for (i, &entry) in made.iter().enumerate() {
        lent[i] = entry;
    }
    (0, made.len())
}
