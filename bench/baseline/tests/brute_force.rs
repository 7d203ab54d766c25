//! The baseline answers as a brute force does, which counts the crossings of each
//! candidate pair by pair.

use baseline::{Convergence, Round};
use layouts::{most_edges, Random, Weights};
use second::calls::Answer;
use second::layout::Layout;

/// An edge and its weight.
type Edge = (u8, u8, u64);

fn edges(layout: &Layout) -> Vec<Edge> {
    let pairs = (0..64).flat_map(|a| (0..a).map(move |b| (a, b)));
    let weight = |a: u8, b: u8| layout.weights[usize::from(a)][usize::from(b)].into();
    let edges = pairs.map(|(a, b)| (a, b, weight(a, b)));
    edges.filter(|&(_, _, weight)| weight > 0).collect()
}

/// The products of the weights of all pairs that cross, summed.
fn crossings(order: &[u8], edges: &[Edge]) -> u64 {
    let mut position = [0; 64];
    for (place, &v) in order.iter().enumerate() {
        position[usize::from(v)] = place;
    }
    let ends = |&(a, b, weight): &Edge| {
        let (a, b) = (position[usize::from(a)], position[usize::from(b)]);
        (a.min(b), a.max(b), weight)
    };
    let edges: Vec<_> = edges.iter().map(ends).collect();
    let crossed = |&(a, b, weight): &(usize, usize, u64)| {
        let across = edges.iter().filter(|&&(c, d, _)| a < c && c < b && b < d);
        weight * across.map(|&(_, _, weight)| weight).sum::<u64>()
    };
    edges.iter().map(crossed).sum()
}

/// The order with u taken out and put behind v.
fn moved(order: &[u8], u: u8, v: u8) -> Vec<u8> {
    let others = order.iter().filter(|&&w| w != u);
    let with_u = |&w: &u8| if w == v { vec![w, u] } else { vec![w] };
    others.flat_map(with_u).collect()
}

/// The order after a sift, and the reduction.
fn sifted(order: &[u8], edges: &[Edge], u: u8) -> (Vec<u8>, u64) {
    let now = crossings(order, edges);
    let place = order.iter().position(|&v| v == u).unwrap();
    let others = order[place + 1..].iter().chain(&order[..place]);
    let orders = others.map(|&v| moved(order, u, v));
    let candidates = orders.map(|order| (crossings(&order, edges), order));
    match candidates.min_by_key(|&(crossings, _)| crossings) {
        Some((least, order)) if least < now => (order, now - least),
        _ => (order.to_vec(), 0),
    }
}

/// Puts a sift's order into the layout, and takes the reduction off its count.
fn sift(layout: &mut Layout, u: u8) -> u64 {
    let n = layout.n as usize;
    let (order, reduction) = sifted(&layout.order[..n], &edges(layout), u);
    layout.order[..n].copy_from_slice(&order);
    layout.count = layout.count.wrapping_sub(reduction);
    reduction
}

fn sifting_round(layout: &mut Layout) -> Round {
    let reductions: Vec<u64> = (0..layout.n as u8).map(|u| sift(layout, u)).collect();
    Round {
        reduction: reductions.iter().sum(),
        moved: reductions
            .iter()
            .filter(|&&reduction| reduction > 0)
            .count() as u32,
    }
}

fn converge(layout: &mut Layout, limit: u32) -> Convergence {
    let mut run = Convergence::default();
    while !run.converged && run.rounds < limit {
        let round = sifting_round(layout);
        run.reduction += round.reduction;
        run.rounds += 1;
        run.converged = round.moved == 0;
    }
    run
}

fn accepted<T>(mut layout: Layout, change: impl FnOnce(&mut Layout) -> T) -> Answer<T> {
    let value = change(&mut layout);
    Answer {
        refusal: 0,
        layout,
        value,
    }
}

fn sift_agrees(layout: Layout, u: u8) {
    let expected = accepted(layout, |layout| sift(layout, u));
    assert_eq!(baseline::sift(layout, u.into()), expected);
}

fn run_agrees(layout: Layout, limit: u32) {
    let expected = accepted(layout, |layout| converge(layout, limit));
    assert_eq!(baseline::converge(layout, limit), expected);
}

/// Layouts of small sizes and of many densities, with weights of 1 and with any,
/// and whatever carried counts.
fn small_layouts() -> impl Iterator<Item = Layout> {
    let mut random = Random(20048);
    let sizes = (0..=12).flat_map(|n| (0..=8).map(move |eighths| (n, eighths)));
    let kinds = sizes.flat_map(|size| [Weights::Ones, Weights::Any].map(|kind| (size, kind)));
    kinds.map(move |((n, eighths), weights)| {
        let mut layout = random.layout(n, most_edges(n) * eighths / 8, weights);
        layout.count = random.any();
        layout
    })
}

#[test]
fn small_layouts_sifted() {
    for layout in small_layouts() {
        (0..layout.n as u8).for_each(|u| sift_agrees(layout, u));
    }
}

#[test]
fn small_layouts_in_rounds() {
    for layout in small_layouts() {
        let expected = accepted(layout, sifting_round);
        assert_eq!(baseline::sifting_round(layout), expected);
        [1, 2, 1000]
            .into_iter()
            .for_each(|limit| run_agrees(layout, limit));
    }
}

#[test]
fn large_layouts() {
    let mut random = Random(2016);
    for n in [62, 63, 64] {
        for weights in [Weights::Ones, Weights::Any] {
            run_agrees(random.layout(n, 80, weights), 2);
            sift_agrees(random.layout(n, 500, weights), 5);
            sift_agrees(random.layout(n, most_edges(n), weights), n - 1);
        }
    }
}

/// All edges of 64 vertices weigh 255, but for those of one vertex.
#[test]
fn heaviest_edges() {
    let mut layout = Random(255).layout(64, most_edges(64), Weights::Ones);
    for (a, b) in (0..64).flat_map(|a| (0..a).map(move |b| (a, b))) {
        layout.put_edge(a, b, if a == 40 { (b + 1) as u8 } else { 255 });
    }
    sift_agrees(layout, 40);
    sift_agrees(layout, 39);
}

/// Equal weights both ways round, 0 exactly where there is no edge, and an order of
/// all vertices, with 0 in the unused places.
fn is_valid(layout: &Layout) -> bool {
    let n = layout.n.min(65) as usize;
    let weight = |v: usize, w: usize| layout.weights[v][w];
    let joined = |v: usize, w: usize| layout.adjacency[v] >> w & 1 == 1;
    let pair_is_valid = |(v, w)| {
        let there = v < n && w < n && v != w;
        weight(v, w) == weight(w, v)
            && joined(v, w) == (weight(v, w) > 0)
            && (there || !joined(v, w))
    };
    let mut pairs = (0..64).flat_map(|v| (0..64).map(move |w| (v, w)));
    let holds = |v: usize| layout.order[..n].iter().any(|&w| usize::from(w) == v);
    n <= 64
        && (0..n).all(holds)
        && layout.order[n..].iter().all(|&v| v == 0)
        && pairs.all(pair_is_valid)
}

/// One entry of the table is changed, or both that an edge has, or one and the word
/// with it.
#[test]
fn validity_of_weights() {
    let mut random = Random(11);
    for n in [0, 1, 2, 7, 31, 63, 64] {
        let layout = random.layout(n, most_edges(n) / 2, Weights::Any);
        for _ in 0..2000 {
            let [a, b] = [64, 64].map(|bound| random.below(bound));
            let by = [1, 128, layout.weights[a][b]][random.below(3)];
            let mut changed = [layout; 3];
            changed[0].weights[a][b] ^= by;
            changed[1].weights[a][b] ^= by;
            changed[1].weights[b][a] ^= by;
            changed[2].weights[a][b] ^= by;
            changed[2].adjacency[a] ^= 1 << b;
            for layout in changed {
                let refusal = if is_valid(&layout) { 17 } else { 11 };
                assert_eq!(baseline::converge(layout, 0).refusal, refusal);
            }
        }
    }
}
