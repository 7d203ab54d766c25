//! The incremental sums against counts from nothing, over every graph of five
//! vertices, with weights and without; tallies over random graphs too.

mod common;

use common::{all_graphs, by_pair, of_weight, order, weighted, Random};
use second::calls;
use second::circle::Circle;
use second::crossings::crossings;
use second::layout::Layout;
use second::sifting::{swap_change, Convergence, Round};

const ORDERS: [[u8; 5]; 3] = [[0, 1, 2, 3, 4], [3, 1, 4, 0, 2], [2, 0, 1, 4, 3]];

fn all_layouts() -> impl Iterator<Item = Layout> {
    let weights = [|edges: &[(u8, u8)]| of_weight(1, edges), by_pair];
    all_graphs(5).flat_map(move |edges| {
        let weighed = weights.map(|weigh| weigh(&edges)).into_iter();
        weighed.flat_map(|edges| ORDERS.map(|order| weighted(&order, &edges)))
    })
}

/// The pairs of edges whose ends alternate, one by one, each with the product
/// of its weights.
fn pairwise(circle: &Circle) -> u64 {
    let mut total = 0;
    let edges = circle.weighted_edges();
    let ends = |(a, b)| {
        let (a, b) = (circle.position(a), circle.position(b));
        (a.min(b), a.max(b))
    };
    for &(first, weight) in &edges {
        for &(second, other) in &edges {
            let ((a, b), (c, d)) = (ends(first), ends(second));
            if a < c && c < b && b < d {
                total += weight * other;
            }
        }
    }
    total
}

#[test]
fn the_sweep_counts_what_crosses() {
    for layout in all_layouts() {
        let circle = Circle::new(&layout);
        assert_eq!(crossings(&circle), pairwise(&circle), "{layout:?}");
    }
}

#[test]
fn a_swap_changes_the_count_by_its_sum() {
    for layout in all_layouts() {
        let circle = Circle::new(&layout);
        for place in 0..5 {
            let (u, v) = (circle.order()[place], circle.order()[(place + 1) % 5]);
            let mut swapped = circle.order().to_vec();
            swapped.swap(place, (place + 1) % 5);
            let mut after = circle.clone();
            after.reorder(swapped);
            let change = crossings(&after) as i64 - crossings(&circle) as i64;
            assert_eq!(swap_change(&circle, u, v), change, "{layout:?} {u} {v}");
        }
    }
}

/// Strictly fewer only, then the lowest k.
#[test]
fn a_sift_takes_the_first_best_place() {
    for layout in all_layouts() {
        for u in 0..5 {
            let others = Circle::new(&layout).others(u);
            let candidates = others.iter().map(|&v| {
                let moved = calls::move_after(layout, u as u64, v as u64);
                moved.layout
            });
            let best = candidates.min_by_key(|c| c.count).unwrap();
            let due = if best.count < layout.count {
                best
            } else {
                layout
            };
            let sifted = calls::sift(layout, u as u64);
            assert_eq!(sifted.layout, due, "{layout:?} {u}");
            assert_eq!(sifted.value.reduction, layout.count - due.count);
        }
    }
}

#[test]
fn a_round_sifts_by_number_and_settling_repeats_it() {
    for start in all_layouts() {
        let (mut layout, mut due) = (start, Convergence::default());
        while !due.converged {
            let mut round = Round::default();
            let before = layout;
            for u in 0..5 {
                let sifted = calls::sift(layout, u);
                round.reduction += sifted.value.reduction;
                round.moved += u32::from(order(&sifted.layout) != order(&layout));
                round.optima += sifted.value.optima;
                layout = sifted.layout;
            }
            let answer = calls::sifting_round(before);
            assert_eq!((answer.layout, answer.value), (layout, round));
            due.reduction += round.reduction;
            due.rounds += 1;
            due.converged = round.moved == 0;
            due.optima += round.optima;
        }
        let run = calls::converge(start, 1000);
        assert_eq!((run.layout, run.value), (layout, due));
    }
}

/// A closing and an open edge that cross at the end taken do cross in the end:
/// what is placed later stands outside of both. And of two edges that cross in
/// the end, one was closed while the other was open (document 02, Note 6).
fn tally_is_what_crosses(layout: Layout, start: u64) {
    let laid = calls::greedy_append(layout, start);
    assert!(laid.refusal == 0 && laid.layout.is_valid());
    let crossings = pairwise(&Circle::new(&laid.layout));
    assert_eq!(laid.value, crossings, "{layout:?} from {start}");
    assert_eq!(laid.layout.count, crossings, "{layout:?} from {start}");
}

#[test]
fn a_tally_is_the_crossings_laid() {
    for layout in all_layouts() {
        for start in 0..5 {
            tally_is_what_crosses(layout, start);
        }
    }
}

#[test]
fn a_tally_is_the_crossings_laid_in_random_graphs() {
    for seed in 0..400 {
        for layout in [Random::layout, Random::weighted_layout] {
            let mut random = Random(seed);
            let layout = layout(&mut random);
            let start = random.below(layout.n as usize) as u64;
            tally_is_what_crosses(layout, start);
        }
    }
}
