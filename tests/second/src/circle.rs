//! A valid layout with adjacency lists sorted along the order, as the proof of
//! Theorem 3 of document 004 keeps them, each neighbour with its edge's weight.

use crate::layout::{Layout, PLACES};

/// An edge (document 01: link), lower end first.
pub type Edge = (usize, usize);

/// A neighbour of some vertex, and the weight of the edge that leads to it.
#[derive(Clone, Copy, Debug, PartialEq, Eq)]
pub struct Neighbour {
    pub vertex: usize,
    pub weight: u64,
}

/// The order, its inverse, and each vertex's neighbours by rising position.
#[derive(Clone, Debug)]
pub struct Circle {
    order: Vec<usize>,
    position: Vec<usize>,
    adjacency: Vec<Vec<Neighbour>>,
}

impl Circle {
    /// Takes a valid layout apart.
    pub fn new(layout: &Layout) -> Circle {
        let n = layout.n as usize;
        let neighbours = |v: usize| {
            let joined = (0..n).filter(|&w| layout.has_edge(v as u64, w as u64));
            let with_weight = |vertex| Neighbour {
                vertex,
                weight: layout.weights[v][vertex].into(),
            };
            joined.map(with_weight).collect()
        };
        let mut circle = Circle {
            order: Vec::new(),
            position: vec![0; n],
            adjacency: (0..n).map(neighbours).collect(),
        };
        circle.reorder(layout.order[..n].iter().map(|&v| usize::from(v)).collect());
        circle
    }

    /// Takes on another order of the same vertices and sorts the adjacency
    /// lists: the vertices are traversed in order, and each is added to the
    /// lists of its neighbours.
    pub fn reorder(&mut self, order: Vec<usize>) {
        let empty = vec![Vec::new(); order.len()];
        let unsorted = std::mem::replace(&mut self.adjacency, empty);
        for (place, &vertex) in order.iter().enumerate() {
            self.position[vertex] = place;
            for &Neighbour { vertex: w, weight } in &unsorted[vertex] {
                self.adjacency[w].push(Neighbour { vertex, weight });
            }
        }
        self.order = order;
    }

    /// Takes u out of the list and puts it directly after v.
    pub fn move_after(&mut self, u: usize, v: usize) {
        let mut order = Vec::with_capacity(self.n());
        for &w in self.order.iter().filter(|&&w| w != u) {
            order.push(w);
            if w == v {
                order.push(u);
            }
        }
        self.reorder(order);
    }

    pub fn n(&self) -> usize {
        self.order.len()
    }

    pub fn order(&self) -> &[usize] {
        &self.order
    }

    /// The order as a layout holds it, unused places 0.
    pub fn order_bytes(&self) -> [u8; PLACES] {
        let mut bytes = [0; PLACES];
        for (byte, &v) in bytes.iter_mut().zip(&self.order) {
            *byte = v as u8;
        }
        bytes
    }

    pub fn position(&self, v: usize) -> usize {
        self.position[v]
    }

    /// The neighbours of v by rising position.
    pub fn neighbours(&self, v: usize) -> &[Neighbour] {
        &self.adjacency[v]
    }

    /// How many steps clockwise lead from one vertex to another.
    pub fn distance(&self, from: usize, to: usize) -> usize {
        let (from, to) = (self.position[from], self.position[to]);
        if from <= to {
            to - from
        } else {
            to + self.n() - from
        }
    }

    /// The neighbours of v in the sequence in which they are met clockwise
    /// from the vertex `head`: the sorted list, read cyclically.
    pub fn neighbours_from(&self, v: usize, head: usize) -> impl Iterator<Item = Neighbour> + '_ {
        let list = &self.adjacency[v];
        let start = list.partition_point(|w| self.position[w.vertex] < self.position[head]);
        list[start..].iter().chain(&list[..start]).copied()
    }

    /// The vertices other than u, clockwise from u.
    pub fn others(&self, u: usize) -> Vec<usize> {
        let place = self.position[u];
        [&self.order[place + 1..], &self.order[..place]].concat()
    }

    /// The edges, sorted by lower, then by higher end.
    pub fn edges(&self) -> Vec<Edge> {
        let edges = self.weighted_edges().into_iter();
        edges.map(|(edge, _)| edge).collect()
    }

    /// The same, each with its weight.
    pub fn weighted_edges(&self) -> Vec<(Edge, u64)> {
        let mut edges = Vec::new();
        for (v, list) in self.adjacency.iter().enumerate() {
            let higher = list.iter().filter(|w| v < w.vertex);
            edges.extend(higher.map(|w| ((v, w.vertex), w.weight)));
        }
        edges.sort_unstable();
        edges
    }
}
