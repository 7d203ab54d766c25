//! Lists of mixed calls, alike in every run.

use layouts::Random;
use rostulanda::ffi::CALL_NUMBERS;

/// A call: its op (tests/README.md), two numbers, and the weight of an edge.
pub type Call = [u64; CALL_NUMBERS];

pub const ADD: u64 = 16;
pub const LINK: u64 = 17;
pub const UNLINK: u64 = 18;
pub const MOVE: u64 = 19;
pub const LAY: u64 = 20;
pub const SIFT: u64 = 21;
pub const ROUND: u64 = 22;
pub const SETTLE: u64 = 23;

/// Whether the number is that of a call.
pub fn is_call([op, ..]: &Call) -> bool {
    (ADD..=SETTLE).contains(op)
}

/// How many of forty calls each call is, behind the first ones.
const MIX: [(u64, usize); 8] = [
    (ADD, 1),
    (LINK, 12),
    (UNLINK, 5),
    (MOVE, 7),
    (LAY, 5),
    (SIFT, 6),
    (ROUND, 2),
    (SETTLE, 2),
];

/// So many vertices are added before anything else.
const FIRST: usize = 8;

/// So many calls from the empty layout, from a seed. One vertex in twenty that is
/// named isn't there, and one weight in twenty is 0. The weights are beyond a byte,
/// and other calls than links have them too.
pub fn mixed(seed: u64, length: usize) -> Vec<Call> {
    let mut maker = Maker {
        random: Random(seed),
        weights: Random(!seed),
        n: 0,
        edges: Vec::new(),
    };
    let ops: Vec<u64> = MIX
        .iter()
        .flat_map(|&(op, times)| vec![op; times])
        .collect();
    let mut list = Vec::new();
    while list.len() < length {
        let any = ops[maker.random.below(ops.len())];
        let op = if list.len() < FIRST { ADD } else { any };
        list.push(maker.call(op));
    }
    list
}

/// A list in the making: the vertices and the edges that there are by now.
struct Maker {
    random: Random,
    weights: Random,
    n: u64,
    edges: Vec<(u64, u64)>,
}

impl Maker {
    fn call(&mut self, op: u64) -> Call {
        let (a, b) = match op {
            LINK => self.link(),
            UNLINK => self.unlink(),
            MOVE => (self.vertex(), self.vertex()),
            LAY | SIFT => (self.vertex(), 0),
            SETTLE => (50, 0),
            _ => (0, 0),
        };
        self.n += u64::from(op == ADD);
        [op, a, b, self.weight()]
    }

    fn weight(&mut self) -> u64 {
        match self.weights.below(20) {
            0 => 0,
            _ => self.weights.any(),
        }
    }

    fn vertex(&mut self) -> u64 {
        match self.random.below(20) {
            0 => self.n,
            _ => self.random.below(self.n as usize) as u64,
        }
    }

    /// Two vertices that are held to be linked hereafter, if they can be; with the
    /// weight 0 they aren't.
    fn link(&mut self) -> (u64, u64) {
        let (a, b) = (self.vertex(), self.vertex());
        let edge = (a.min(b), a.max(b));
        if edge.0 < edge.1 && edge.1 < self.n && !self.edges.contains(&edge) {
            self.edges.push(edge);
        }
        (a, b)
    }

    /// An edge, or two vertices if there is none.
    fn unlink(&mut self) -> (u64, u64) {
        if self.edges.is_empty() {
            return (self.vertex(), self.vertex());
        }
        let chosen = self.random.below(self.edges.len());
        self.edges.swap_remove(chosen)
    }
}
