//! graph6: of any graph, and those that are special: each refusal number, each
//! boundary, and spoilt bytes.

use std::collections::BTreeSet;

use super::density::possible;
use super::graph::{all_pairs, vertices, Graph};
use super::special::{accepted, any, refused, Special};
use crate::naive::graph6::exported;
use crate::naive::layout::{empty, Layout};
use crate::rng::Rng;

/// The two parts of a graph6, whatever they hold.
pub struct Graph6 {
    size: Vec<u8>,
    data: Vec<u8>,
}

impl Graph6 {
    pub fn of(graph: &Graph) -> Graph6 {
        let layout = Layout {
            n: graph.n() as u64,
            words: graph.words(),
            ..empty()
        };
        let mut size = exported(&layout);
        let data = size.split_off(size_length(graph.n()));
        Graph6 { size, data }
    }

    pub fn bytes(&self) -> Vec<u8> {
        [&self.size[..], &self.data].concat()
    }

    /// Its bytes with some bits set in the last one, if it has data.
    pub fn with_last_bits(mut self, bits: u8) -> Vec<u8> {
        if let Some(last) = self.data.last_mut() {
            *last = 63 + ((*last - 63) | bits);
        }
        self.bytes()
    }
}

fn size_length(n: usize) -> usize {
    match n {
        63.. => 4,
        _ => 1,
    }
}

fn data_length(n: usize) -> usize {
    possible(n).div_ceil(6)
}

/// The length of a graph6 of n vertices.
pub fn length(n: usize) -> u64 {
    (size_length(n) + data_length(n)) as u64
}

/// How many bits of the last byte are padding.
pub fn padding(n: usize) -> usize {
    6 * data_length(n) - possible(n)
}

/// The numbers of padding bits that occur, the lowest first.
pub fn paddings() -> BTreeSet<usize> {
    (0..=64).map(padding).collect()
}

/// Each padding bit of each number of them.
pub fn padding_bits() -> Vec<(usize, usize)> {
    let bits = |padding| (0..padding).map(move |bit| (padding, bit));
    paddings().into_iter().flat_map(bits).collect()
}

/// Sizes in three bytes that are over 65.
const OVER: [usize; 7] = [66, 127, 128, 4095, 4096, 4096 + 63, 258_047];

/// Bytes that stand for no bits.
const OUTSIDE: [u8; 7] = [0, b'\n', b' ', 62, 127, 128, 255];

pub const SPECIALS: [Special; 35] = [
    refused(20, "no byte", |_| Vec::new()),
    refused(20, "a first byte 62", |rng| with_first(rng, 62)),
    refused(20, "a first byte 127", |rng| with_first(rng, 127)),
    refused(20, "a first byte that is none", |rng| {
        let byte = rng.pick(&OUTSIDE);
        with_first(rng, byte)
    }),
    refused(20, "126 alone", |_| vec![126]),
    refused(20, "126 and one byte", |rng| cut_size(rng, 1)),
    refused(20, "126 and two bytes", |rng| cut_size(rng, 2)),
    refused(20, "a byte 62 in three", |rng| with_one_of_three(rng, 62)),
    refused(20, "a byte 127 in three", |rng| with_one_of_three(rng, 127)),
    refused(20, "three bytes with one that is none", |rng| {
        let byte = rng.pick(&OUTSIDE);
        with_one_of_three(rng, byte)
    }),
    refused(20, "the long form of a smaller size", |rng| {
        let n = rng.below(62);
        long_form(rng, n)
    }),
    refused(20, "the long form of 62", |rng| long_form(rng, 62)),
    refused(20, "65 vertices", |rng| {
        let data = vec![rng.within(63, 126) as u8; data_length(65)];
        [long_size(65), data].concat()
    }),
    refused(20, "more than 65 vertices", |rng| {
        let size = long_size(rng.pick(&OVER));
        let more = rng.pick(&[0, 1, 336, 347]);
        [size, vec![63; more]].concat()
    }),
    refused(20, "126 twice", |rng| {
        let more = rng.pick(&[0, 1, 2, 6, 336, 342]);
        [vec![126; 2], vec![63; more]].concat()
    }),
    refused(20, "a header", |rng| {
        [b">>graph6<<".to_vec(), base(rng).bytes()].concat()
    }),
    refused(20, "a bad size and bad data", |rng| {
        changed(rng, |rng, graph6| {
            graph6.size = rng.pick(&[&[62][..], b"~?@@", b"~??}"]).to_vec();
            graph6.data = vec![rng.pick(&OUTSIDE); graph6.data.len() + 1];
        })
    }),
    refused(21, "one byte too few", |rng| {
        changed(rng, |_, graph6| graph6.data.truncate(graph6.data.len() - 1))
    }),
    refused(21, "one byte too many", |rng| {
        changed(rng, |rng, graph6| graph6.data.push(rng.pick(&[63, 126])))
    }),
    refused(21, "a size without data", |rng| {
        changed(rng, |_, graph6| graph6.data.clear())
    }),
    refused(21, "a line end", |rng| {
        changed(rng, |rng, graph6| {
            graph6.data.extend(rng.pick(&[&b"\n"[..], b"\r\n"]))
        })
    }),
    refused(21, "another graph behind", |rng| {
        [base(rng), base(rng)].map(|graph6| graph6.bytes()).concat()
    }),
    refused(21, "more than 8,192 bytes", |rng| {
        let more = rng.within(8192, 20_000);
        [base(rng).bytes(), vec![63; more]].concat()
    }),
    refused(21, "a byte 62 in the data", |rng| with_one_of_data(rng, 62)),
    refused(21, "a byte 127 in the data", |rng| {
        with_one_of_data(rng, 127)
    }),
    refused(21, "a byte of the data that is none", |rng| {
        let byte = rng.pick(&OUTSIDE);
        with_one_of_data(rng, byte)
    }),
    refused(21, "a byte that is none and a padding bit", |rng| {
        let mut graph6 = with_size(rng, 11);
        graph6.data[rng.below(9)] = rng.pick(&OUTSIDE);
        graph6.with_last_bits(1)
    }),
    refused(22, "all padding bits", |rng| {
        let (padding, _) = rng.pick(&padding_bits());
        with_padding(rng, padding).with_last_bits((1 << padding) - 1)
    }),
    accepted("no vertex or one", |rng| {
        let n = rng.below(2);
        with_size(rng, n).bytes()
    }),
    accepted("all edges", |rng| {
        let n = rng.pick(&[2, 3, 4, 5, 61, 62, 63, 64]);
        Graph6::of(&Graph::of(all_pairs(n), vertices(n))).bytes()
    }),
    accepted("one edge", |rng| {
        let n = rng.pick(&[2, 3, 4, 5, 61, 62, 63, 64]);
        Graph6::of(&Graph::with_edges(rng, n, 1)).bytes()
    }),
    any("a bit flipped", |rng| {
        let bytes = base(rng).bytes();
        rng.flip(bytes)
    }),
    any("bytes at random", |rng| rng.few_bytes(80)),
    any("bytes from 63 to 126 at random", |rng| {
        let length = rng.below(12);
        six_bits(rng, length)
    }),
    any("a size and bytes from 63 to 126 at random", |rng| {
        let n = rng.below(65);
        let data = six_bits(rng, data_length(n));
        [with_size(rng, n).size, data].concat()
    }),
];

/// The special graph6 with some number; they take turns.
pub fn special(number: usize) -> &'static Special {
    &SPECIALS[number % SPECIALS.len()]
}

/// The graph6 of any graph of n vertices.
fn with_size(rng: &mut Rng, n: usize) -> Graph6 {
    Graph6::of(&Graph::random(rng, n, usize::MAX))
}

/// The graph6 of any graph with so many padding bits.
pub fn with_padding(rng: &mut Rng, padding_bits: usize) -> Graph6 {
    let mut sizes: Vec<usize> = (0..=64).collect();
    sizes.retain(|&n| padding(n) == padding_bits);
    let n = rng.pick(&sizes);
    with_size(rng, n)
}

/// The graph6 of any graph with two vertices or more, so that it has data.
fn base(rng: &mut Rng) -> Graph6 {
    let n = rng.within(2, 64);
    with_size(rng, n)
}

/// A graph6, changed.
fn changed(rng: &mut Rng, change: fn(&mut Rng, &mut Graph6)) -> Vec<u8> {
    let mut graph6 = base(rng);
    change(rng, &mut graph6);
    graph6.bytes()
}

/// A graph6 with another first byte.
fn with_first(rng: &mut Rng, byte: u8) -> Vec<u8> {
    [vec![byte], base(rng).data].concat()
}

/// A size of three bytes that is cut short.
fn cut_size(rng: &mut Rng, more: usize) -> Vec<u8> {
    [vec![126], six_bits(rng, more)].concat()
}

/// A graph6 with another byte in its size of three bytes.
fn with_one_of_three(rng: &mut Rng, byte: u8) -> Vec<u8> {
    let n = rng.pick(&[63, 64]);
    let mut graph6 = with_size(rng, n);
    graph6.size[rng.within(1, 3)] = byte;
    graph6.bytes()
}

/// A graph6 with another byte in its data.
fn with_one_of_data(rng: &mut Rng, byte: u8) -> Vec<u8> {
    let mut graph6 = base(rng);
    let place = rng.below(graph6.data.len());
    graph6.data[place] = byte;
    graph6.bytes()
}

/// A size in three bytes behind a byte 126.
fn long_size(n: usize) -> Vec<u8> {
    let six = |shift: usize| 63 + (n >> shift & 63) as u8;
    vec![126, six(12), six(6), six(0)]
}

/// A graph of a size that is due in one byte, with its size in three.
fn long_form(rng: &mut Rng, n: usize) -> Vec<u8> {
    [long_size(n), with_size(rng, n).data].concat()
}

fn six_bits(rng: &mut Rng, length: usize) -> Vec<u8> {
    (0..length).map(|_| rng.within(63, 126) as u8).collect()
}

#[cfg(test)]
mod tests {
    use super::*;
    use crate::make::special::numbers_are_due;
    use crate::naive::graph6::import;

    #[test]
    fn each_special_one_gets_its_refusal_number() {
        numbers_are_due(&SPECIALS, |graph6| import(graph6).0);
    }

    /// What is made at random gets every number.
    #[test]
    fn what_has_no_known_number_gets_several() {
        let mut met = BTreeSet::new();
        for special in SPECIALS.iter().filter(|special| special.refusal.is_none()) {
            let mut of_this = BTreeSet::new();
            for index in 0..200 {
                let graph6 = (special.make)(&mut Rng::new(1, special.kind, index));
                of_this.insert(import(&graph6).0);
            }
            assert!(of_this.len() > 1, "{}", special.kind);
            met.extend(of_this);
        }
        assert!(met.into_iter().eq([0, 20, 21, 22]));
    }

    #[test]
    fn graphs_have_their_length_and_padding() {
        for n in 0..=64 {
            let graph6 = with_size(&mut Rng::new(1, "length", n), n);
            assert_eq!(graph6.bytes().len() as u64, length(n));
            for bits in 0..1 << padding(n) {
                let graph6 = with_size(&mut Rng::new(1, "padding", n), n);
                let refusal = import(&graph6.with_last_bits(bits)).0;
                assert_eq!(refusal, if bits == 0 { 0 } else { 22 });
            }
        }
        assert_eq!([0, 1, 62, 63, 64].map(length), [1, 1, 317, 330, 340]);
        assert!(paddings().into_iter().eq([0, 2, 3, 5]));
        assert_eq!(padding_bits().len(), 2 + 3 + 5);
    }

    #[test]
    fn long_sizes_are_right_for_63_and_64() {
        for n in [63, 64] {
            let graph6 = with_size(&mut Rng::new(1, "long", n), n);
            assert_eq!(graph6.size, long_size(n));
        }
        assert_eq!(long_size(258_047), [126, 125, 126, 126]);
    }
}
