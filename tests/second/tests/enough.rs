//! Enough rounds: Note 9 of document 02.

mod common;

use common::{first_ring, many_layouts, many_weighted_layouts};
use second::calls;
use second::layout::Layout;
use second::sifting::Convergence;

/// An accepted settling, which does not go by the count that is carried.
fn settled(layout: Layout, limit: u32) -> Convergence {
    let right = calls::converge(layout, limit);
    assert_eq!(right.refusal, 0);
    let mut carrying = layout;
    carrying.count = 0;
    let wrong = calls::converge(carrying, limit);
    assert_eq!((wrong.refusal, wrong.value), (0, right.value));
    assert_eq!(wrong.layout.order, right.layout.order);
    right.value
}

/// What its limit says of it.
fn within_its_bounds(layout: Layout, limit: u32) -> bool {
    let crossings = layout.count;
    let run = settled(layout, limit);
    let rounds = u64::from(run.rounds);
    assert!(rounds <= crossings + 1, "{layout:?} {limit}");
    assert!(rounds <= run.reduction + 1, "{layout:?} {limit}");
    assert!(run.converged || u64::from(limit) <= run.reduction);
    assert!(run.converged || u64::from(limit) <= crossings);
    run.converged
}

#[test]
fn the_first_ring() {
    assert_eq!(first_ring().count, 1);
    assert!(!within_its_bounds(first_ring(), 1));
    assert!(within_its_bounds(first_ring(), 2));
    assert_eq!(settled(first_ring(), 1000).rounds, 2);
}

/// The sample chart that fifty rounds do not settle.
#[test]
fn many_rounds() {
    let chart = include_bytes!("../../../charts/many-rounds.chart");
    let layout = second::chart::read(chart).unwrap();
    assert!(!within_its_bounds(layout, 50));
    assert!(within_its_bounds(layout, 1000));
    assert_eq!(settled(layout, 1000).rounds, 52);
}

/// With a limit of 2, and those round about the crossings.
#[test]
fn a_limit_larger_than_the_crossings_is_enough() {
    let (mut enough, mut equal) = (0, 0);
    for layout in many_layouts().chain(many_weighted_layouts()) {
        within_its_bounds(layout, 2);
        let crossings = layout.count as u32;
        if layout.count < 1000 {
            assert!(within_its_bounds(layout, crossings + 1));
            enough += 1;
        }
        if (1..=1000).contains(&layout.count) && !within_its_bounds(layout, crossings) {
            equal += 1;
        }
    }
    assert!(enough > 1500, "{enough}");
    assert!(equal > 100, "{equal}");
}
