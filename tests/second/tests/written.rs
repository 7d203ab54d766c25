//! Charts written out again: Note 1 of document 02, and its Note 8.

mod common;

use common::{
    all_edges, complete, first_ring, heaviest, layout, many_layouts, many_weighted_layouts, rising,
    Random,
};
use second::calls;
use second::chart;
use second::circle::Circle;
use second::layout::Layout;

fn chart_of(layout: Layout) -> Vec<u8> {
    common::written(calls::write_chart, layout)
}

/// The chart is read back as the layout with its true count, whatever count it
/// carried.
fn comes_back(layout: Layout) {
    for count in [layout.count, 0, layout.count + 1, u64::MAX] {
        let carrying = Layout { count, ..layout };
        assert_eq!(chart::read(&chart_of(carrying)), Ok(layout));
    }
}

#[test]
fn the_first_ring_is_written_byte_for_byte() {
    let due = [
        0x44, 0, 1, 4, 0x4C, 0, 4, 0, 2, 1, 3, 0x52, 0, 4, 0, 1, 2, 3,
    ];
    assert_eq!(chart_of(first_ring()), due);
    assert_eq!(chart::bytes(&first_ring()), due);
}

#[test]
fn edges_in_any_sequence_either_way_round_give_the_same_bytes() {
    let due = chart_of(first_ring());
    for edges in [
        [0, 2, 1, 3],
        [0, 2, 3, 1],
        [2, 0, 1, 3],
        [2, 0, 3, 1],
        [1, 3, 0, 2],
        [1, 3, 2, 0],
        [3, 1, 0, 2],
        [3, 1, 2, 0],
    ] {
        let ring = chart::read(&common::chart(&[4], &edges, &rising(4)));
        assert_eq!(chart_of(ring.expect("a chart")), due);
    }
    let backwards: Vec<(u8, u8)> = all_edges(64).iter().rev().map(|&(a, b)| (b, a)).collect();
    let full = common::chart(&[64], &common::edge_bytes(&backwards), &rising(64));
    let ring = chart::read(&full).expect("a chart");
    assert_eq!(chart_of(ring), chart_of(complete(64)));
}

#[test]
fn edges_are_sorted_by_number_not_by_place() {
    let edges = [(0, 1), (0, 3), (1, 2), (2, 3)];
    let ring = layout(&[2, 0, 3, 1], &edges);
    let due = common::chart(&[4], &common::edge_bytes(&edges), &[2, 0, 3, 1]);
    assert_eq!(chart_of(ring), due);
}

#[test]
fn a_turned_list_is_another_chart() {
    let turned = calls::move_after(first_ring(), 0, 3).layout;
    assert_ne!(chart_of(turned), chart_of(first_ring()));
}

#[test]
fn layouts_come_back() {
    many_layouts().for_each(comes_back);
    many_weighted_layouts().for_each(comes_back);
}

/// The weights stand behind the rest, in the sequence of the edges.
#[test]
fn weights_are_written_in_the_sequence_of_the_edges() {
    let due = common::weighted_chart(&[4], &[0, 2, 1, 3], &rising(4), &[1, 255]);
    for (edges, weights) in [
        ([0, 2, 1, 3], [1, 255]),
        ([2, 0, 3, 1], [1, 255]),
        ([1, 3, 0, 2], [255, 1]),
        ([3, 1, 2, 0], [255, 1]),
    ] {
        let chart = common::weighted_chart(&[4], &edges, &rising(4), &weights);
        let ring = chart::read(&chart).expect("a chart");
        assert_eq!((ring.count, chart_of(ring)), (255, due.clone()));
    }
}

#[test]
fn weights_are_written_exactly_when_one_is_not_1() {
    for seed in 0..200 {
        let ring = Random(seed).weighted_layout();
        let weights: Vec<u8> = Circle::new(&ring)
            .weighted_edges()
            .into_iter()
            .map(|(_, weight)| weight as u8)
            .collect();
        let rest = 3 * 3 + 1 + 2 * weights.len() + ring.n as usize;
        let due = if weights.iter().any(|&weight| weight != 1) {
            common::field(0x57, &weights)
        } else {
            Vec::new()
        };
        assert_eq!(chart_of(ring)[rest..], due);
    }
}

#[test]
fn ones_are_read_and_not_written() {
    for ring in many_layouts() {
        let due = chart_of(ring);
        let m = Circle::new(&ring).edges().len();
        let ones = [due.clone(), common::field(0x57, &vec![1; m])].concat();
        assert_eq!(chart::read(&ones), Ok(ring));
        assert_eq!(chart_of(chart::read(&ones).expect("a chart")), due);
    }
}

#[test]
fn a_buffer_is_long_enough_or_untouched() {
    for (ring, length) in [
        (Layout::EMPTY, 10),
        (first_ring(), 18),
        (complete(64), 4106),
        (heaviest(64), 6125),
    ] {
        common::is_long_enough_or_untouched(calls::write_chart, ring, length, 19);
    }
}

#[test]
fn validity_is_asked_before_the_length() {
    let mut ring = first_ring();
    ring.adjacency[3] = 0;
    for length in [0, 17, 18, 8192] {
        common::is_untouched(calls::write_chart, ring, length, 11);
    }
}

#[test]
fn the_empty_layout_has_a_chart_of_ten_bytes() {
    let due = [0x44, 0, 1, 0, 0x4C, 0, 0, 0x52, 0, 0];
    assert_eq!(chart_of(Layout::EMPTY), due);
    comes_back(Layout::EMPTY);
    assert_eq!(
        chart_of(layout(&[0], &[]))[3..],
        [1, 0x4C, 0, 0, 0x52, 0, 1, 0]
    );
}

#[test]
fn from_128_edges_on_the_length_has_its_high_byte() {
    for (m, length) in [(127, [0, 254]), (128, [1, 0]), (129, [1, 2])] {
        let ring = layout(&rising(17), &all_edges(17)[..m]);
        assert_eq!(chart_of(ring)[5..7], length);
        comes_back(ring);
    }
}

#[test]
fn the_longest_chart() {
    let chart = chart_of(complete(64));
    assert_eq!(chart.len(), 4106);
    assert_eq!(chart[4..7], [0x4C, 0x0F, 0xC0]);
    let due = common::chart(&[64], &common::edge_bytes(&all_edges(64)), &rising(64));
    assert_eq!(chart, due);
    comes_back(complete(64));
    let weighted = [due, common::field(0x57, &[255; 2016])].concat();
    assert_eq!(weighted.len(), 6125);
    assert_eq!(chart_of(heaviest(64)), weighted);
    comes_back(heaviest(64));
}
