//! The baseline answers as the second program does, but for the optima.

use baseline::WithoutOptima;
use layouts::{most_edges, Random, Weights};
use second::calls;
use second::layout::Layout;

/// Layouts of every size and of many densities, with weights of 1 and with any,
/// and whatever carried counts.
fn layouts() -> impl Iterator<Item = Layout> {
    let mut random = Random(20041);
    let sizes = (0..=64).flat_map(|n| (0..=8).map(move |eighths| (n, eighths)));
    sizes.map(move |(n, eighths)| {
        let weights = [Weights::Ones, Weights::Any][random.below(2)];
        let mut layout = random.layout(n, most_edges(n) * eighths / 8, weights);
        layout.count = random.any();
        layout
    })
}

fn sift_agrees(layout: Layout, u: u64) {
    let second = calls::sift(layout, u).without_optima();
    assert_eq!(baseline::sift(layout, u), second);
}

fn round_agrees(layout: Layout) {
    let second = calls::sifting_round(layout).without_optima();
    assert_eq!(baseline::sifting_round(layout), second);
}

fn run_agrees(layout: Layout, limit: u32) {
    let second = calls::converge(layout, limit).without_optima();
    assert_eq!(baseline::converge(layout, limit), second);
}

#[test]
fn sifting_any_vertex() {
    for (i, layout) in layouts().enumerate() {
        for u in (0..layout.n).skip(i % 5).step_by(5) {
            sift_agrees(layout, u);
        }
    }
}

#[test]
fn rounds() {
    for layout in layouts() {
        round_agrees(layout);
    }
}

#[test]
fn converging() {
    for (i, layout) in layouts().enumerate().filter(|(i, _)| i % 4 == 0) {
        let limit = [1, 2, 50, 1000][i / 4 % 4];
        run_agrees(layout, limit);
    }
}

/// Vertices that are joined if both are even or both odd, in rising order.
#[test]
fn reductions_of_more_than_32_bits() {
    let order: Vec<u8> = (0..64).collect();
    let mut layout = Layout::new(&order, &[]);
    for (a, b) in (0..64).flat_map(|a| (a + 2..64).step_by(2).map(move |b| (a, b))) {
        layout.put_edge(a, b, 255);
    }
    run_agrees(layout, 50);
    assert!(baseline::converge(layout, 50).value.reduction > 1 << 32);
}

#[test]
fn refused_arguments() {
    for layout in layouts() {
        for u in [layout.n, 64, u64::MAX] {
            sift_agrees(layout, u);
        }
        for limit in [0, 1001, u32::MAX] {
            run_agrees(layout, limit);
        }
    }
}

/// One entry of the layout is changed, or an edge and its weight; most of these are
/// not valid.
#[test]
fn layouts_that_are_not_valid() {
    let mut random = Random(7);
    for layout in layouts() {
        let [a, b] = [64, 64].map(|bound| random.below(bound));
        let mut changed = [layout; 7];
        changed[0].n = random.below(70) as u64;
        changed[1].order[random.below(64)] = random.below(70) as u8;
        changed[2].adjacency[a] ^= 1 << b;
        changed[3].weights[a][b] = random.below(256) as u8;
        changed[4].weights[a][b] ^= 1;
        changed[4].weights[b][a] ^= 1;
        changed[5].adjacency[a] ^= 1 << b;
        changed[5].adjacency[b] ^= 1 << a;
        changed[6].put_edge(a, b, random.below(3) as u8);
        for layout in changed {
            round_agrees(layout);
        }
    }
}
