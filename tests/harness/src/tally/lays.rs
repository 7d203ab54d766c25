//! What occurs of isolated vertices and of crossings in accepted lays.

use crate::entries::Entry;
use crate::followed::Step;
use crate::laid::formerly;
use crate::make::graph::component_count;
use crate::make::ops::{Known, LAY};
use crate::naive::layout::isolated;

const SORTS: [&str; 8] = [
    "half of the vertices isolated or more, but not all",
    "an isolated start beside linked vertices",
    "two vertices or more, all isolated",
    "one component with two isolated vertices or more",
    "several components with two isolated vertices or more",
    "another order by the former rule",
    "a tally of 1 or more",
    "a tally of 1 or more with an isolated vertex at the back",
];

/// What should occur with known calls.
pub fn due(known: &Known) -> &'static [&'static str] {
    if known.has(LAY) {
        &SORTS
    } else {
        &[]
    }
}

/// What occurs of it in a line of an accepted `lay`.
pub fn met(step: &Step) -> Vec<&'static str> {
    let Entry::Record([_, start, ..]) = step.entry else {
        return Vec::new();
    };
    let isolated = isolated(&step.before);
    let two_isolated = isolated.len() >= 2;
    let components = component_count(&step.before.words);
    let crosses = step.line.split(' ').nth(2) != Some("0");
    let former = formerly(step).map(|(_, former)| former.order);
    let occurs = [
        components > 0 && 2 * isolated.len() >= step.n(),
        components > 0 && isolated.contains(&(start as usize)),
        components == 0 && two_isolated,
        components == 1 && two_isolated,
        components > 1 && two_isolated,
        former.is_some_and(|order| order != step.after.order),
        crosses,
        crosses && isolated.iter().any(|&v| v as u64 != start),
    ];
    let sorts = SORTS.into_iter().zip(occurs);
    sorts
        .filter(|(_, occurs)| *occurs)
        .map(|(sort, _)| sort)
        .collect()
}

#[cfg(test)]
mod tests {
    use super::*;
    use crate::followed::steps;
    use crate::make::charts::Chart;
    use crate::make::graph::{all_pairs, vertices, Graph};
    use crate::make::records;
    use crate::naive::play::play;

    /// The numbers of the sorts that a lay is of.
    fn sorts(n: usize, edges: &[(u8, u8)], start: u64) -> Vec<usize> {
        let (edges, order) = (edges.to_vec(), vertices(n));
        let chart = Chart::of(&Graph::of(edges, order)).bytes();
        let lay = records::bytes([LAY, start, 0, 0]);
        let list = [records::chart(&chart), lay].concat();
        let lines = play(&list);
        let met = steps(&list, &lines).nth(1).map(|step| met(&step));
        let met = met.expect("a line of lay");
        (0..SORTS.len())
            .filter(|&sort| met.contains(&SORTS[sort]))
            .collect()
    }

    #[test]
    fn each_sort_of_lay_is_told() {
        let square = [(1, 2), (1, 3), (2, 4), (3, 4)];
        assert_eq!(sorts(6, &square, 5), [1, 3, 5]);
        assert_eq!(sorts(6, &square, 1), [3]);
        assert_eq!(sorts(8, &square, 1), [0, 3]);
        let two = [(0, 1), (3, 4)];
        assert_eq!(sorts(6, &two, 0), [4, 5]);
        assert_eq!(sorts(5, &two, 2), [1]);
        assert_eq!(sorts(5, &two, 0), [5]);
        assert_eq!(sorts(2, &[], 1), [2]);
        let all = all_pairs(4);
        assert_eq!(sorts(4, &all, 0), [6]);
        assert_eq!(sorts(5, &all, 4), [1, 6]);
        assert_eq!(sorts(5, &all, 0), [6, 7]);
        assert!(sorts(1, &[], 0).is_empty());
        assert!(sorts(2, &[(0, 1)], 0).is_empty());
    }
}
