//! graph6 that are imported where their turn comes.

use super::graph::Graph;
use super::graph6::{self, padding_bits, with_padding, Graph6};
use super::maker::Maker;
use super::ops::*;

impl Maker {
    /// Imports a graph and exports it, imports its graph6 with a byte less and
    /// with one more, one of which a padding bit is set, and a special one.
    pub fn import_in_turn(&mut self, graph: &Graph, index: usize) {
        if !self.known.has(IMPORT) {
            return;
        }
        self.write_graph6(graph);
        self.emit(EXPORT, graph6::length(graph.n()), 0);
        let bytes = Graph6::of(graph).bytes();
        self.import_and_count(&bytes[..bytes.len() - 1]);
        self.import_and_count(&[&bytes[..], &[63]].concat());
        let padded = self.padded_in_turn(index);
        self.import_and_count(&padded);
        let special = (graph6::special(index).make)(&mut self.rng);
        self.import_and_count(&special);
    }

    /// Imports what may be refused.
    fn import_and_count(&mut self, graph6: &[u8]) {
        self.read(IMPORT, graph6);
        self.forget();
        self.emit(COUNT, 0, 0);
    }

    /// A graph6 with one padding bit set, which takes its turn among those of
    /// each number of padding bits.
    fn padded_in_turn(&mut self, index: usize) -> Vec<u8> {
        let bits = padding_bits();
        let (padding, bit) = bits[index % bits.len()];
        with_padding(&mut self.rng, padding).with_last_bits(1 << bit)
    }
}

#[cfg(test)]
mod tests {
    use super::*;
    use crate::entries::{entries, Entry};
    use crate::followed::{steps, Step};
    use crate::naive::graph6::{import, size};
    use crate::naive::play::play;
    use crate::rng::Rng;
    use std::collections::BTreeSet;

    /// What takes its turn, with a graph of n vertices.
    fn in_turn(n: usize, index: usize) -> Vec<u8> {
        let mut maker = Maker::new(Rng::new(1, "imported", index), &Known::all());
        let graph = Graph::in_quarter(&mut maker.rng, n, index % 4);
        maker.import_in_turn(&graph, index);
        maker.bytes
    }

    #[test]
    fn each_size_is_imported_and_exported_and_has_its_length() {
        for n in 0..=64 {
            let list = in_turn(n, n);
            let lines = play(&list);
            let steps: Vec<Step> = steps(&list, &lines).collect();
            assert_eq!(steps[0].n(), n);
            let answers: Vec<(&str, u8)> = steps.iter().filter_map(Step::answer).collect();
            let shorter = if n < 2 { 20 } else { 21 };
            assert_eq!(answers[..2], [("import", 0), ("export", 0)]);
            assert_eq!(answers[2], ("import", shorter));
            assert_eq!(answers[4], ("import", 21));
            assert_eq!(answers[6], ("import", 22));
        }
    }

    /// The number of padding bits, and those that are set.
    fn set_bits(graph6: &[u8]) -> Option<(usize, u8)> {
        let (n, data) = size(graph6).filter(|_| import(graph6).0 == 22)?;
        let padding = graph6::padding(n);
        Some((padding, (data.last()? - 63) & ((1 << padding) - 1)))
    }

    #[test]
    fn each_padding_bit_takes_its_turn() {
        let mut met = BTreeSet::new();
        for index in 0..10 {
            for entry in entries(&in_turn(0, index)) {
                if let Entry::Import(graph6) = entry {
                    met.extend(set_bits(graph6));
                }
            }
        }
        let due = [2, 3, 5].map(|padding| (0..padding).map(move |bit| (padding, 1 << bit)));
        let due: BTreeSet<(usize, u8)> = due.into_iter().flatten().collect();
        assert_eq!(met, due);
    }
}
