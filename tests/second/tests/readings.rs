//! The points that documents 01 and 004 leave open, as they are read here.

mod common;

use common::{all_edges, complete, first_ring, heaviest, layout, of_weight, order, rising, FIRST};
use second::calls::{self, Crossing};
use second::chart;
use second::layout::Layout;
use second::list::listing;
use second::sifting::{Convergence, Round, Sift};

fn refusal(chart: &[u8]) -> Option<u8> {
    chart::read(chart).err()
}

/// The first ring, but vertex 3 doesn't know of its edge to 1.
fn asymmetric() -> Layout {
    let mut ring = first_ring();
    ring.adjacency[3] = 0;
    ring
}

#[test]
fn every_call_refuses_a_ring_that_is_not_valid() {
    let ring = asymmetric();
    let mut buffer = [7; 4];
    let refusals = [
        calls::add_vertex(ring).refusal,
        calls::add_edge(ring, 0, 1, 1).refusal,
        calls::remove_edge(ring, 0, 2).refusal,
        calls::move_after(ring, 0, 1).refusal,
        calls::greedy_append(ring, 0).refusal,
        calls::sift(ring, 0).refusal,
        calls::sifting_round(ring).refusal,
        calls::converge(ring, 1).refusal,
        calls::count(ring).refusal,
        calls::order(ring, &mut buffer).refusal,
        calls::first_crossing(ring).refusal,
        calls::write_chart(ring, &mut buffer).refusal,
        calls::edge_crossings(ring, &mut []).refusal,
    ];
    assert_eq!(refusals, [11; 13]);
    assert_eq!(calls::count(ring).value, 0);
    assert_eq!(calls::sift(ring, 0).layout, ring);
    assert_eq!(buffer, [7; 4]);
}

#[test]
fn savings_do_not_come_from_the_carried_count() {
    let ring = Layout::new(&rising(4), &of_weight(1, &FIRST));
    let sifted = calls::sift(ring, 0);
    assert_eq!(sifted.value.reduction, 1);
    assert_eq!(sifted.layout.count, u64::MAX);
    let linked = calls::remove_edge(ring, 0, 2).layout;
    assert_eq!(linked.count, u64::MAX);
    assert_eq!(calls::add_edge(linked, 2, 0, 1).layout, ring);
}

#[test]
fn n_is_tested_before_anything_is_looked_up() {
    for n in [65, 256, 1 << 32, u64::MAX] {
        let ring = Layout { n, ..Layout::EMPTY };
        assert_eq!(calls::add_vertex(ring).refusal, 11);
        assert_eq!(calls::order(ring, &mut [0; 255]).refusal, 11);
        assert_eq!(calls::write_chart(ring, &mut [0; 8192]).refusal, 11);
        assert_eq!(calls::edge_crossings(ring, &mut [0; 2100]).refusal, 11);
    }
    assert!(complete(64).is_valid());
    assert!(complete(63).is_valid());
}

#[test]
fn validity_goes_place_by_place_and_bit_by_bit() {
    let spoilt = |spoil: fn(&mut Layout)| {
        let mut ring = first_ring();
        spoil(&mut ring);
        !ring.is_valid()
    };
    assert!(first_ring().is_valid());
    assert!(spoilt(|ring| ring.order[4] = 1));
    assert!(spoilt(|ring| ring.order[63] = 4));
    assert!(spoilt(|ring| ring.order[0] = 1));
    assert!(spoilt(|ring| ring.order[0] = 4));
    assert!(spoilt(|ring| ring.order[0] = 255));
    assert!(spoilt(|ring| ring.n = 3));
    assert!(spoilt(|ring| ring.n = 5));
    assert!(spoilt(|ring| ring.adjacency[0] ^= 1));
    assert!(spoilt(|ring| ring.adjacency[0] ^= 1 << 1));
    assert!(spoilt(|ring| ring.adjacency[0] ^= 1 << 63));
    assert!(spoilt(|ring| ring.adjacency[4] = 1));
    assert!(spoilt(|ring| ring.put_edge(0, 0, 1)));
    assert!(spoilt(|ring| ring.put_edge(0, 4, 1)));
    assert!(spoilt(|ring| ring.put_edge(62, 63, 1)));
    assert!(!spoilt(|ring| ring.put_edge(0, 1, 1)));
    assert!(!spoilt(|ring| ring.cut_edge(0, 2)));
    assert!(!spoilt(|ring| ring.count = 77));
}

/// Equal both ways round, and 0 exactly where no edge is, in every row and
/// every column.
#[test]
fn validity_goes_weight_by_weight() {
    for (v, w) in (0..64).flat_map(|v| (0..64).map(move |w| (v, w))) {
        let is_valid = |both: bool, weight: u8| {
            let mut ring = first_ring();
            ring.weights[v][w] = weight;
            if both {
                ring.weights[w][v] = weight;
            }
            ring.is_valid()
        };
        let joined = first_ring().has_edge(v as u64, w as u64);
        assert_eq!(is_valid(false, 0), !joined, "{v} {w}");
        assert_eq!(is_valid(false, 1), joined, "{v} {w}");
        assert!(!is_valid(false, 2) && !is_valid(false, 255), "{v} {w}");
        assert_eq!(is_valid(true, 0), !joined, "{v} {w}");
        for weight in [1, 2, 255] {
            assert_eq!(is_valid(true, weight), joined, "{v} {w}");
        }
    }
    assert!(heaviest(64).is_valid());
    let mut ring = heaviest(64);
    ring.weights[63][62] = 254;
    assert!(!ring.is_valid());
}

#[test]
fn any_number_from_n_on_is_no_vertex() {
    let ring = first_ring();
    for far in [4, 64, 255, 256, 1 << 32, (1 << 32) + 1, u64::MAX] {
        assert_eq!(calls::add_edge(ring, 0, far, 1).refusal, 12);
        assert_eq!(calls::remove_edge(ring, far, 2).refusal, 12);
        assert_eq!(calls::move_after(ring, far, far).refusal, 12);
        assert_eq!(calls::greedy_append(ring, far).refusal, 12);
        assert_eq!(calls::sift(ring, far).refusal, 12);
    }
}

#[test]
fn the_first_failed_check_gives_its_number() {
    let ring = layout(&rising(3), &[(0, 1)]);
    for weight in [0, 1, 255] {
        assert_eq!(calls::add_edge(asymmetric(), 5, 5, weight).refusal, 11);
        assert_eq!(calls::add_edge(ring, 5, 5, weight).refusal, 12);
        assert_eq!(calls::add_edge(ring, 2, 2, weight).refusal, 13);
        assert_eq!(calls::add_edge(ring, 1, 0, weight).refusal, 14);
    }
    assert_eq!(calls::add_edge(ring, 1, 2, 0).refusal, 25);
    assert_eq!(calls::add_edge(ring, 1, 2, 0).layout, ring);
    assert_eq!(calls::add_edge(ring, 1, 2, 1).refusal, 0);
    assert_eq!(calls::remove_edge(ring, 2, 2).refusal, 13);
    assert_eq!(calls::move_after(ring, 2, 2).refusal, 13);
    assert_eq!(calls::remove_edge(ring, 1, 2).refusal, 15);
    let mut full = complete(64);
    assert_eq!(calls::add_vertex(full).refusal, 16);
    full.adjacency[63] = 0;
    assert_eq!(calls::add_vertex(full).refusal, 11);
    assert_eq!(calls::converge(asymmetric(), 0).refusal, 11);
}

#[test]
fn a_refused_call_answers_nothing() {
    assert_eq!(calls::add_vertex(complete(64)).value, 0);
    let run = calls::converge(first_ring(), 0);
    assert_eq!((run.refusal, run.value), (17, Convergence::default()));
    assert_eq!(run.layout, first_ring());
    let sifted = calls::sift(first_ring(), 4);
    assert_eq!((sifted.refusal, sifted.value), (12, Sift::default()));
    let round = calls::sifting_round(asymmetric());
    assert_eq!((round.refusal, round.value), (11, Round::default()));
    let pair = |ring| calls::first_crossing(ring).value;
    assert_eq!(pair(asymmetric()), Crossing::Refused);
    assert_eq!(pair(Layout::EMPTY), Crossing::None);
    assert_eq!(pair(complete(4)), Crossing::Pair((0, 2), (1, 3)));
}

#[test]
fn the_empty_layout() {
    let ring = Layout::EMPTY;
    assert_eq!(calls::greedy_append(ring, 0).refusal, 12);
    assert_eq!(calls::sift(ring, 0).refusal, 12);
    let round = calls::sifting_round(ring);
    assert_eq!((round.refusal, round.value), (0, Round::default()));
    let run = calls::converge(ring, 1000).value;
    assert_eq!((run.reduction, run.rounds, run.converged), (0, 1, true));
    assert_eq!(run.optima, 0);
    assert_eq!(calls::order(ring, &mut []).refusal, 0);
    assert_eq!(calls::first_crossing(ring).value, Crossing::None);
}

#[test]
fn one_vertex() {
    let ring = layout(&[0], &[]);
    let laid = calls::greedy_append(ring, 0);
    assert_eq!((laid.refusal, laid.value), (0, 0));
    let sifted = calls::sift(ring, 0);
    assert_eq!((sifted.refusal, sifted.value), (0, Sift::default()));
    assert_eq!([laid.layout, sifted.layout], [ring, ring]);
}

#[test]
fn the_order_goes_to_the_first_bytes_of_the_buffer() {
    let ring = layout(&[0, 2, 1, 3], &FIRST);
    let mut buffer = [9; 6];
    assert_eq!(calls::order(ring, &mut buffer).refusal, 0);
    assert_eq!(buffer, [0, 2, 1, 3, 9, 9]);
    let mut short = [9; 3];
    assert_eq!(calls::order(ring, &mut short).refusal, 18);
    assert_eq!(short, [9; 3]);
}

#[test]
fn moving_the_first_vertex_behind_the_last_turns_the_list() {
    let moved = calls::move_after(layout(&rising(3), &[]), 0, 2);
    assert_eq!(moved.refusal, 0);
    assert_eq!(order(&moved.layout), [1, 2, 0]);
    let turned = calls::move_after(first_ring(), 0, 3).layout;
    assert_eq!((order(&turned), turned.count), (&[1, 2, 3, 0][..], 1));
}

#[test]
fn a_sift_that_improves_nothing_leaves_the_list() {
    let ring = layout(&[0, 1, 2], &[(0, 1)]);
    assert_eq!(calls::sift(ring, 0).layout, ring);
    assert_eq!(calls::sift(complete(5), 0).layout, complete(5));
}

#[test]
fn of_several_best_places_the_first_is_taken() {
    let ring = layout(&[3, 1, 4, 0, 2], &[(0, 3), (1, 2)]);
    let places = [4, 0, 2, 3].map(|v| calls::move_after(ring, 1, v).layout.count);
    assert_eq!(places, [1, 0, 0, 1]);
    let sifted = calls::sift(ring, 1).layout;
    assert_eq!(order(&sifted), [3, 4, 0, 1, 2]);
}

#[test]
fn a_round_goes_by_number_not_by_place() {
    let ring = layout(&[3, 1, 4, 0, 2], &[(0, 3), (1, 2)]);
    let round = calls::sifting_round(ring);
    assert_eq!((round.value.reduction, round.value.moved), (1, 1));
    assert_eq!(order(&round.layout), [3, 1, 4, 2, 0]);
    let by_place = [3, 1, 4, 0, 2]
        .iter()
        .fold(ring, |ring, &u| calls::sift(ring, u).layout);
    assert_eq!(order(&by_place), [1, 3, 4, 0, 2]);
}

#[test]
fn settling_may_take_three_rounds() {
    let edges = [(0, 1), (0, 2), (0, 3), (1, 3), (2, 4), (3, 4)];
    let run = |limit| calls::converge(layout(&rising(5), &edges), limit).value;
    assert_eq!((run(2).rounds, run(2).converged), (2, false));
    assert_eq!((run(3).rounds, run(3).converged), (3, true));
    assert_eq!(run(1000), run(3));
}

/// The order, the tally and the count after laying vertices in rising order.
fn laid(n: u8, edges: &[(u8, u8)], start: u64) -> (Vec<u8>, u64, u64) {
    let laid = calls::greedy_append(layout(&rising(n), edges), start);
    assert_eq!(laid.refusal, 0);
    (order(&laid.layout).to_vec(), laid.value, laid.layout.count)
}

#[test]
fn the_second_vertex_goes_to_the_back() {
    assert_eq!(laid(2, &[(0, 1)], 0), (vec![0, 1], 0, 0));
    assert_eq!(laid(2, &[], 1), (vec![1, 0], 0, 0));
    assert_eq!(laid(3, &all_edges(3), 1), (vec![1, 0, 2], 0, 0));
}

#[test]
fn with_nothing_placed_near_the_fewest_unplaced_neighbours_decide() {
    let edges = [(0, 1), (0, 2), (3, 4)];
    assert_eq!(laid(6, &edges, 5), (vec![5, 1, 0, 2, 3, 4], 0, 0));
}

#[test]
fn of_equally_many_placed_neighbours_fewer_unplaced_come_first() {
    let edges = [(0, 1), (0, 2), (1, 3), (1, 4)];
    assert_eq!(laid(5, &edges, 0), (vec![0, 2, 1, 3, 4], 0, 0));
}

#[test]
fn the_first_placed_is_not_the_first_in_the_list() {
    let edges = [(0, 1), (0, 2), (1, 3), (2, 3)];
    assert_eq!(laid(5, &edges, 4), (vec![2, 4, 0, 1, 3], 0, 0));
}

#[test]
fn laying_can_raise_the_crossings() {
    let edges = [(0, 1), (0, 2), (0, 4), (1, 2), (1, 3), (2, 3), (3, 4)];
    assert_eq!(layout(&rising(5), &edges).count, 1);
    assert_eq!(laid(5, &edges, 1), (vec![1, 0, 2, 3, 4], 2, 2));
}

#[test]
fn a_refused_chart_gives_the_empty_layout() {
    assert_eq!(refusal(b""), Some(3));
    let list = [&1u64.to_le_bytes()[..], &[0; 24]].concat();
    let line = second::play::play(&list);
    assert!(line.starts_with("chart 3 n 0 order 0 0"), "{line}");
    assert!(line.ends_with("count 0 words weights\n"), "{line}");
}

#[test]
fn fields_extra_missing_unknown_or_cut() {
    let good = common::chart(&[4], &[0, 2, 1, 3], &rising(4));
    assert_eq!(refusal(&good), None);
    for tag in [0, 0x44, 0x4C, 0x52, 0x56, 0x58] {
        let fourth = common::field(tag, &[1, 1]);
        assert_eq!(refusal(&[&good[..], &fourth].concat()), Some(3));
    }
    assert_eq!(refusal(&good[..11]), Some(3));
    assert_eq!(refusal(&[&good[..4], &good[..]].concat()), Some(3));
    assert_eq!(refusal(&[&good[4..], &good[..4]].concat()), Some(3));
    assert_eq!(refusal(&[&good[..], b"\n"].concat()), Some(2));
    assert_eq!(refusal(&good[..2]), Some(2));
    assert_eq!(refusal(&good[..17]), Some(2));
}

#[test]
fn the_longest_inputs() {
    let filled = |length: usize| {
        let good = common::chart(&[4], &[], &rising(4));
        let filler = common::field(0x4C, &vec![0; length - good.len() - 3]);
        [good, filler].concat()
    };
    assert_eq!(filled(8192).len(), 8192);
    assert_eq!(refusal(&filled(8192)), Some(3));
    assert_eq!(refusal(&filled(8193)), Some(1));
    assert_eq!(refusal(&[0; 8193]), Some(1));
    let longest = common::chart(&[64], &common::edge_bytes(&all_edges(64)), &rising(64));
    assert_eq!(longest.len(), 4106);
    assert_eq!(chart::read(&longest), Ok(complete(64)));
    let weighted = [longest, common::field(0x57, &[255; 2016])].concat();
    assert_eq!(weighted.len(), 6125);
    assert_eq!(chart::read(&weighted), Ok(heaviest(64)));
}

#[test]
fn each_check_is_put_to_the_whole_chart_before_the_next() {
    let refusal = |size: &[u8], edges: &[u8], order: &[u8]| {
        chart::read(&common::chart(size, edges, order)).err()
    };
    assert_eq!(refusal(&[4], &[0, 2, 2, 0, 0, 4], &rising(4)), Some(6));
    assert_eq!(refusal(&[65], &[0, 2, 1], &rising(65)), Some(4));
    assert_eq!(refusal(&[], &[], &[]), Some(4));
    assert_eq!(refusal(&[0, 0], &[], &[]), Some(4));
    assert_eq!(refusal(&[4], &[0, 2, 9], &[]), Some(5));
    assert_eq!(refusal(&[4], &[0, 2, 0, 2], &[0, 0]), Some(7));
    assert_eq!(refusal(&[0], &[0, 0], &[]), Some(6));
    assert_eq!(refusal(&[0], &[], &[0]), Some(8));
    for order in [
        &[0, 1, 2][..],
        &[0, 1, 2, 2],
        &[0, 1, 2, 4],
        &[0, 1, 2, 3, 0],
    ] {
        assert_eq!(refusal(&[4], &[], order), Some(8));
    }
}

#[test]
fn from_128_edges_on_the_length_needs_its_high_byte() {
    for m in [127, 128, 129] {
        let edges = &all_edges(17)[..m];
        let chart = common::chart(&[17], &common::edge_bytes(edges), &rising(17));
        assert_eq!(chart[5], u8::from(m >= 128));
        assert_eq!(chart::read(&chart), Ok(layout(&rising(17), edges)));
    }
}

#[test]
fn listings_without_vertices_and_of_refused_charts() {
    let due = "devices 0\nlinks 0\nbefore 0\nafter 0\nrounds 1\nsettled yes\norder\n";
    assert_eq!(listing(&common::chart(&[0], &[], &[])), due);
    assert_eq!(listing(b""), "refused 3\n");
}

#[test]
fn a_listing_may_take_more_rounds() {
    let edges = [0, 1, 0, 6, 1, 2, 1, 5, 2, 5, 2, 6, 3, 4, 3, 6];
    let text = listing(&common::chart(&[7], &edges, &rising(7)));
    let due = "before 3\nafter 0\nrounds 4\nsettled yes\norder 3 4 0 1 5 2 6\n";
    assert_eq!(text, format!("devices 7\nlinks 8\n{due}"));
}
