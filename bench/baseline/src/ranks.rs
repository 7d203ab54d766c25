//! The others around a vertex that is sifted.

use second::layout::PLACES;

use crate::words::bits_below;

/// The weights of each vertex towards each other.
pub type Table = [[u8; PLACES]; PLACES];

/// The others have the ranks 0, 1, 2 and so on, clockwise from the vertex.
pub struct Ranks<'a> {
    /// Where the vertex stands.
    pub place: usize,
    /// How many others there are: what a full turn adds to a rank.
    pub turn: usize,
    /// Where in the table, taken as one list, the row of each begins, and again a
    /// full turn later.
    rows: [u16; 256],
    table: &'a Table,
}

impl<'a> Ranks<'a> {
    /// Around u, which is in the order.
    pub fn new(u: usize, order: &[u8], table: &'a Table) -> Ranks<'a> {
        let place = order.iter().position(|&v| usize::from(v) == u);
        let place = place.unwrap_or(0);
        let (before, behind) = (&order[..place], &order[place + 1..]);
        let turn = order.len() - 1;
        let mut rows = [0; 256];
        write_rows(behind, &mut rows);
        write_rows(before, &mut rows[behind.len()..]);
        rows.copy_within(..turn, turn);
        Ranks {
            place,
            turn,
            rows,
            table,
        }
    }

    /// A set of positions as one of ranks, without that of the vertex itself.
    pub fn of(&self, positions: u64) -> u64 {
        let behind = positions >> self.place >> 1;
        let before = positions & bits_below(self.place);
        behind | before << (self.turn - self.place)
    }

    /// The vertex of a rank.
    pub fn vertex(&self, rank: usize) -> usize {
        usize::from(self.rows[rank]) / PLACES
    }

    /// The position of a rank.
    pub fn position(&self, rank: usize) -> usize {
        let position = self.place + 1 + rank;
        if position <= self.turn {
            position
        } else {
            position - self.turn - 1
        }
    }

    /// The weights of v.
    pub fn weights(&self, v: usize) -> Weights<'_> {
        Weights {
            rows: &self.rows,
            column: &self.table.as_flattened()[v..],
        }
    }
}

fn write_rows(vertices: &[u8], rows: &mut [u16]) {
    for (row, &v) in rows.iter_mut().zip(vertices) {
        *row = u16::from(v) * PLACES as u16;
    }
}

/// The weights of a vertex, read from the rows of the others.
pub struct Weights<'a> {
    rows: &'a [u16; 256],
    /// The table as one list, from where its first row has the vertex on.
    column: &'a [u8],
}

impl Weights<'_> {
    /// That of the edge to the vertex of a rank.
    pub fn to(&self, rank: u8) -> i64 {
        let row = self.rows[usize::from(rank)];
        self.column[usize::from(row)].into()
    }
}
