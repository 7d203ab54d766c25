//! What the programs and the naive model have to do. A run's time is kept down
//! by it.

/// Rounds that settling is reckoned to run.
const ROUNDS: u64 = 6;

/// What the naive model may do for one chart or list; above it, it is left out.
pub const NAIVE: u64 = 1 << 31;

/// The naive model: pairs of edges looked at, or what takes as long. Counting
/// the crossings of m edges once, with finding their places.
pub fn count(m: usize) -> u64 {
    (m * m / 2 + 64 * m + 4096) as u64
}

/// Counting those of each of m edges.
pub fn count_each(m: usize) -> u64 {
    2 * count(m)
}

/// Reading a chart of m edges, each of which is compared with those before it.
pub fn read(m: usize) -> u64 {
    2 * count(m)
}

/// Greedy append, without the counts before and after.
pub fn lay(n: usize, m: usize) -> u64 {
    (n * n * (4 * m + 512)) as u64
}

pub fn sift(n: usize, m: usize) -> u64 {
    n as u64 * count(m)
}

pub fn rounds(n: usize, m: usize, limit: u64) -> u64 {
    limit.min(ROUNDS) * n as u64 * sift(n, m)
}

/// Settling with a high limit.
pub fn settle(n: usize, m: usize) -> u64 {
    rounds(n, m, ROUNDS)
}

/// The most edges with which n vertices can be settled for so much.
pub fn most_edges(n: usize, budget: u64) -> usize {
    let dear = |m: &usize| settle(n, *m) > budget;
    (0..=2016).find(dear).map_or(2016, |m| m.saturating_sub(1))
}

/// The second program, which is slower than the proved one, in nanoseconds: so
/// many sifts with all edges, roughly. Its other calls aren't reckoned.
pub fn second_sifts(n: usize, sifts: u64) -> u64 {
    2 * (n as u64).pow(3) * sifts
}

/// As many sifts as so many rounds are reckoned to have.
pub fn sifts(n: usize, limit: u64) -> u64 {
    limit.min(ROUNDS) * n as u64
}
