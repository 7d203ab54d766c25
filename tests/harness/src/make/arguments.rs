//! The numbers that calls of a list are made with.

use super::graph::{all_pairs, vertices, Edge};
use super::maker::Maker;
use super::ops::*;

impl Maker {
    /// Numbers for a call, now and then such that it refuses.
    pub fn arguments(&mut self, op: u64) -> (u64, u64) {
        match op {
            LINK if self.rng.once_in(6) => self.known_edge(),
            LINK => self.unknown_edge(),
            UNLINK if !self.rng.once_in(4) => self.known_edge(),
            UNLINK | MOVE => self.two_vertices(),
            LAY | SIFT => (self.vertex(), 0),
            SETTLE => (self.limit(), 0),
            ORDER => (self.buffer(), self.fill(op)),
            WRITE | EXPORT | PERLINK => (self.any_length(op), self.fill(op)),
            _ => (0, 0),
        }
    }

    /// A vertex, now and then one that isn't there.
    pub fn vertex(&mut self) -> u64 {
        let v = self.rng.below(self.n.max(1)) as u64;
        if self.rng.once_in(12) {
            self.far_vertex(v)
        } else {
            v
        }
    }

    /// The isolated vertices.
    pub fn isolated(&self) -> Vec<u64> {
        let linked = |v: &u8| self.edges.iter().any(|(a, b)| v == a || v == b);
        let isolated = vertices(self.n).into_iter().filter(|v| !linked(v));
        isolated.map(u64::from).collect()
    }

    /// What is no vertex, unless there are 64.
    pub fn far_vertex(&mut self, v: u64) -> u64 {
        let n = self.n as u64;
        let near = [n, n + 1, 63, 64, 255, 256, 256 + v, 65_536 + v];
        let far = [1 << 32, (1 << 32) + v, (1 << 63) + v, u64::MAX];
        let from = if self.rng.once_in(2) { &near[..] } else { &far };
        self.rng.pick(from)
    }

    /// Two vertices, now and then the same.
    pub fn two_vertices(&mut self) -> (u64, u64) {
        let a = self.vertex();
        let b = if self.rng.once_in(12) {
            a
        } else {
            self.vertex()
        };
        (a, b)
    }

    /// An edge that is there, either way round.
    fn known_edge(&mut self) -> (u64, u64) {
        if self.edges.is_empty() {
            return self.two_vertices();
        }
        let (a, b) = self.rng.pick(&self.edges);
        let ends = (u64::from(a), u64::from(b));
        self.rng.pick(&[ends, (ends.1, ends.0)])
    }

    /// Two vertices, in a dense graph too nearly always such that aren't joined,
    /// if there are any.
    fn unknown_edge(&mut self) -> (u64, u64) {
        let named = self.two_vertices();
        let joined =
            |edge: &Edge| self.edges.contains(edge) || self.edges.contains(&(edge.1, edge.0));
        if !joined(&(named.0 as u8, named.1 as u8)) || self.rng.once_in(6) {
            return named;
        }
        let mut others = all_pairs(self.n);
        others.retain(|pair| !joined(pair));
        if others.is_empty() {
            return named;
        }
        let (a, b) = self.rng.pick(&others);
        self.rng.pick(&[(a.into(), b.into()), (b.into(), a.into())])
    }

    /// A weight for a link: in a list with weights any byte, in others 1; now and
    /// then 0, or a larger number that stands for the same byte.
    pub fn weight(&mut self) -> u64 {
        let any = self.rng.within(1, 255) as u64;
        let byte = match self.rng.below(10) {
            0 => 0,
            1..=6 if self.weighs => self.rng.pick(&[2, 255, any]),
            _ => 1,
        };
        let over = self.rng.pick(&[1, 2, 255, 1 << 24, (1 << 56) - 1]);
        if self.rng.once_in(8) {
            byte + 256 * over
        } else {
            byte
        }
    }

    fn limit(&mut self) -> u64 {
        let any = self.rng.within(1, 1000) as u64;
        let wide = 1 << 32;
        self.rng.pick(&[
            0,
            1,
            1,
            2,
            2,
            3,
            50,
            50,
            50,
            any,
            any,
            1000,
            1000,
            1001,
            wide - 1,
            wide,
            wide + 1,
            u64::MAX,
        ])
    }

    fn buffer(&mut self) -> u64 {
        let n = self.n as u64;
        let any = self.rng.below(66) as u64;
        let odd = self.rng.pick(&[64, 255, 256, 1 << 32, u64::MAX]);
        let lengths = [n, n + 1, n.saturating_sub(1), any, any, odd];
        self.rng.pick(&lengths)
    }
}

#[cfg(test)]
mod tests {
    use super::*;
    use crate::rng::Rng;
    use std::collections::BTreeSet;

    /// The bytes that the weights of links in a list stand for, and whether a
    /// larger number does.
    fn bytes(weighs: bool) -> (BTreeSet<u64>, bool) {
        let mut maker = Maker::new(Rng::new(1, "weights of links", 0), &Known::all());
        maker.weighs = weighs;
        let numbers: Vec<u64> = (0..20_000).map(|_| maker.weight()).collect();
        let bytes = numbers.iter().map(|number| number % 256).collect();
        (bytes, numbers.iter().any(|&number| number > 255))
    }

    #[test]
    fn links_have_every_weight_or_1_and_now_and_then_0() {
        let (all, over) = bytes(true);
        assert!(over && all.into_iter().eq(0..256));
        let (ones, over) = bytes(false);
        assert!(over && ones.into_iter().eq([0, 1]));
    }
}
