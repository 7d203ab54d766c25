//! graph6: Note 4 of document 02.

mod common;

use common::{all_edges, complete, first_ring, layout, many_layouts, rising, weighted};
use second::calls;
use second::circle::{Circle, Edge};
use second::graph6::read;
use second::layout::Layout;

fn graph6_of(layout: Layout) -> Vec<u8> {
    common::written(calls::write_graph6, layout)
}

/// n vertices in rising order.
fn graph(n: u8, edges: &[(u8, u8)]) -> Layout {
    layout(&rising(n), edges)
}

/// The graph6 is of the layout, both ways.
fn stands_for(graph6: &[u8], layout: Layout) {
    assert_eq!(read(graph6), Ok(layout), "{}", graph6.escape_ascii());
    assert_eq!(graph6_of(layout), graph6);
}

#[track_caller]
fn is_refused(graph6: &[u8], refusal: u8) {
    assert_eq!(read(graph6), Err(refusal), "{}", graph6.escape_ascii());
}

/// How many bits n vertices have, and how many bytes hold them.
fn bits(n: usize) -> usize {
    n * n.saturating_sub(1) / 2
}

fn data_bytes(n: usize) -> usize {
    bits(n).div_ceil(6)
}

/// The size part as it is due.
fn size(n: u8) -> Vec<u8> {
    match n {
        63 => b"~??~".to_vec(),
        64 => b"~?@?".to_vec(),
        n => vec![63 + n],
    }
}

/// The size part of three bytes behind a byte 126, for any size.
fn long_size(n: u32) -> Vec<u8> {
    let low = |n: u32| 63 + (n & 63) as u8;
    vec![126, low(n >> 12), low(n >> 6), low(n)]
}

/// A graph6 without edges behind some size part.
fn without_edges(size: Vec<u8>, n: usize) -> Vec<u8> {
    [size, vec![63; data_bytes(n)]].concat()
}

#[test]
fn few_vertices_by_hand() {
    stands_for(b"?", Layout::EMPTY);
    stands_for(b"@", graph(1, &[]));
    stands_for(b"A?", graph(2, &[]));
    stands_for(b"A_", graph(2, &[(0, 1)]));
    stands_for(b"Bw", complete(3));
    stands_for(b"BO", graph(3, &[(0, 2)]));
    stands_for(b"CQ", first_ring());
    stands_for(b"C~", complete(4));
}

/// The example in nauty's description of the format.
#[test]
fn the_example_of_five_vertices() {
    let edges = [(0, 2), (0, 4), (1, 3), (3, 4)];
    stands_for(b"DQc", graph(5, &edges));
    assert_eq!(graph(5, &edges).count, 1);
}

/// Bit by bit, each alone: the pairs 0-1, 0-2, 1-2, 0-3 and so on.
#[test]
fn pairs_go_by_rising_higher_end() {
    for n in [2, 5, 9, 62, 63, 64] {
        let mut pairs = all_edges(n);
        pairs.sort_by_key(|&(low, high)| (high, low));
        for (bit, &pair) in pairs.iter().enumerate() {
            let mut graph6 = without_edges(size(n), n.into());
            graph6[size(n).len() + bit / 6] += 32 >> (bit % 6);
            stands_for(&graph6, graph(n, &[pair]));
        }
    }
}

#[test]
fn sizes_about_the_long_form() {
    for n in [61, 62, 63, 64] {
        stands_for(&without_edges(size(n), n.into()), graph(n, &[]));
        let graph6 = graph6_of(complete(n));
        stands_for(&graph6, complete(n));
        let padding = 6 * data_bytes(n.into()) - bits(n.into());
        assert_eq!(padding, [0, 5, 3, 0][usize::from(n) - 61]);
        assert_eq!(graph6.last(), Some(&(126 - (1 << padding) + 1)));
        assert!(graph6[size(n).len()..graph6.len() - 1]
            .iter()
            .all(|&byte| byte == 126));
    }
    assert_eq!(graph6_of(complete(62)).len(), 1 + 316);
    assert_eq!(graph6_of(complete(63)).len(), 4 + 326);
    assert_eq!(graph6_of(complete(64)).len(), 4 + 336);
}

#[test]
fn over_64_vertices() {
    for n in [65, 66, 127, 128, 4095, 4096, 4159, 4160, 258_047] {
        let most = if n < 300 { n as usize } else { 0 };
        is_refused(&without_edges(long_size(n), most), 20);
        is_refused(&long_size(n), 20);
    }
}

#[test]
fn the_long_form_of_a_smaller_size() {
    for n in 0..=62 {
        is_refused(&without_edges(long_size(n), n as usize), 20);
    }
    for n in [63, 64] {
        assert_eq!(long_size(n), size(n as u8));
    }
}

#[test]
fn the_form_of_still_larger_sizes() {
    for graph6 in [
        &b"~~"[..],
        b"~~?",
        b"~~??",
        b"~~????@?",
        b"~~?????@",
        b"~~?@?",
    ] {
        is_refused(graph6, 20);
        is_refused(&[graph6, &[63; 336]].concat(), 20);
    }
}

#[test]
fn a_size_part_that_is_cut_short() {
    for graph6 in [&b""[..], b"~", b"~?", b"~?@"] {
        is_refused(graph6, 20);
    }
}

#[test]
fn bytes_about_63_and_126_in_the_size_part() {
    for byte in [0, 10, 32, 62, 127, 128, 255] {
        is_refused(&[byte], 20);
        for n in [63, 64] {
            for place in 1..4 {
                let mut graph6 = without_edges(size(n), n.into());
                graph6[place] = byte;
                is_refused(&graph6, 20);
            }
        }
    }
}

#[test]
fn bytes_about_63_and_126_in_the_data() {
    for n in [2, 9, 16, 62, 63, 64] {
        let graph6 = without_edges(size(n), n.into());
        for place in size(n).len()..graph6.len() {
            for byte in [0, 10, 32, 62, 127, 128, 255] {
                let mut graph6 = graph6.clone();
                graph6[place] = byte;
                is_refused(&graph6, 21);
            }
            let mut graph6 = graph6.clone();
            graph6[place] = 126;
            let padded = place == graph6.len() - 1 && !bits(n.into()).is_multiple_of(6);
            assert_eq!(read(&graph6).err(), padded.then_some(22));
        }
    }
}

#[test]
fn a_header_or_a_line_end() {
    is_refused(b">>graph6<<DQc", 20);
    is_refused(b"DQc\n", 21);
    is_refused(b"DQc\r\n", 21);
    is_refused(b"?\n", 21);
    is_refused(b"\n", 20);
    is_refused(b"DQc\nDQc", 21);
}

#[test]
fn each_length_off_by_one() {
    for n in 0..=64 {
        let mut graph6 = without_edges(size(n), n.into());
        stands_for(&graph6, graph(n, &[]));
        for byte in [63, 126] {
            is_refused(&[&graph6[..], &[byte]].concat(), 21);
        }
        graph6.pop();
        is_refused(&graph6, if n < 2 { 20 } else { 21 });
    }
}

/// A byte that is none is asked before a padding bit.
#[test]
fn each_padding_bit() {
    let mut met = Vec::new();
    for n in 2..64 {
        let graph6 = graph6_of(complete(n));
        let padding = 6 * data_bytes(n.into()) - bits(n.into());
        for bit in 0..padding {
            let mut graph6 = graph6.clone();
            *graph6.last_mut().expect("a byte") += 1 << bit;
            is_refused(&graph6, 22);
            if data_bytes(n.into()) > 1 {
                graph6[size(n).len()] = 127;
                is_refused(&graph6, 21);
            }
        }
        met.push(padding);
    }
    met.sort_unstable();
    met.dedup();
    assert_eq!(met, [0, 2, 3, 5]);
}

#[test]
fn the_number_of_bits_is_that_of_the_size() {
    is_refused(b"DQ", 21);
    is_refused(b"EQc", 21);
    is_refused(b"CQc", 21);
    is_refused(&[&size(63)[..], &[63; 336]].concat(), 21);
    is_refused(&[&size(64)[..], &[63; 326]].concat(), 21);
    is_refused(&vec![63; 20_000], 21);
    is_refused(&vec![126; 20_000], 20);
}

/// The edges, lower end first.
fn edges(layout: &Layout) -> Vec<Edge> {
    Circle::new(layout).edges()
}

/// Export drops the order and the carried count, import gives the rising order
/// and the true count.
fn comes_back(layout: Layout) {
    let graph6 = graph6_of(layout);
    let back = read(&graph6).expect("a graph6");
    assert_eq!((back.n, edges(&back)), (layout.n, edges(&layout)));
    let pairs = edges(&layout).into_iter();
    let pairs: Vec<(u8, u8)> = pairs.map(|(v, w)| (v as u8, w as u8)).collect();
    stands_for(&graph6, graph(layout.n as u8, &pairs));
    let count = layout.count + 1;
    assert_eq!(graph6_of(Layout { count, ..layout }), graph6);
}

#[test]
fn layouts_come_back() {
    many_layouts().for_each(comes_back);
}

#[test]
fn a_buffer_is_long_enough_or_untouched() {
    for (ring, length) in [
        (Layout::EMPTY, 1),
        (first_ring(), 2),
        (complete(62), 317),
        (complete(63), 330),
        (complete(64), 340),
    ] {
        common::is_long_enough_or_untouched(calls::write_graph6, ring, length, 19);
    }
}

#[test]
fn validity_is_asked_before_the_length() {
    let mut ring = first_ring();
    ring.adjacency[3] = 0;
    for length in [0, 1, 2, 8192] {
        common::is_untouched(calls::write_graph6, ring, length, 11);
    }
}

/// Validity first, then weights, then the length (document 02, Note 8).
#[test]
fn a_weight_other_than_1_is_refused_before_the_length() {
    for weights in [[1, 2], [2, 1], [255, 255], [3, 7]] {
        let edges = [(0, 2, weights[0]), (1, 3, weights[1])];
        let mut ring = weighted(&rising(4), &edges);
        for length in [0, 1, 2, 8192] {
            common::is_untouched(calls::write_graph6, ring, length, 26);
        }
        ring.weights[0][2] = 9;
        for length in [0, 2] {
            common::is_untouched(calls::write_graph6, ring, length, 11);
        }
    }
    assert_eq!(
        graph6_of(weighted(&rising(4), &[(0, 2, 1), (1, 3, 1)])),
        b"CQ"
    );
}

#[test]
fn what_is_imported_has_weights_of_1() {
    let ring = read(b"DQc").expect("a graph6");
    let weights = Circle::new(&ring).weighted_edges();
    assert_eq!(weights.len(), 4);
    assert!(weights.iter().all(|&(_, weight)| weight == 1));
}
