//! The functions of the library, as `hosts/c/rostulanda.h` declares them.
//!
//! A reference is a pointer that is aligned and not null, also that of an empty
//! slice, and two that are lent to one call do not overlap unless both only
//! read: just what the library asks for. So the functions that take no slice
//! are safe to call.

use crate::{Edge, Fields, Start};

/// The most vertices, and the places of an order.
pub const PLACES: usize = 64;

/// The most bytes that a written chart has.
pub const WRITTEN_CHART_BYTES: usize = 6125;

/// The most bytes that a graph6 has.
pub const GRAPH6_BYTES: usize = 340;

/// The most edges.
pub const MOST_EDGES: usize = 2016;

/// The largest limit of sifting rounds.
pub const MOST_ROUNDS: u32 = 1000;

/// The numbers of each call of a list: which it is, and what it names.
pub const CALL_NUMBERS: usize = 4;

/// The numbers of each answer of a list of calls: the refusal code, and four
/// more.
pub const ANSWER_NUMBERS: usize = 5;

#[repr(C)]
pub struct Vertex {
    pub refusal: u8,
    pub vertex: usize,
}

#[repr(C)]
pub struct Tally {
    pub refusal: u8,
    pub tally: u64,
}

#[repr(C)]
pub struct Sifted {
    pub refusal: u8,
    pub reduction: u64,
    pub optima: u32,
}

#[repr(C)]
pub struct Round {
    pub refusal: u8,
    pub reduction: u64,
    pub moved: u32,
    pub optima: u32,
}

#[repr(C)]
pub struct Convergence {
    pub refusal: u8,
    pub reduction: u64,
    pub rounds: u32,
    pub converged: bool,
    pub optima: u32,
}

#[repr(C)]
pub struct Counted {
    pub refusal: u8,
    pub count: u64,
}

#[repr(C)]
pub struct Crossing {
    pub refusal: u8,
    pub found: bool,
    pub first: Edge,
    pub second: Edge,
}

#[repr(C)]
pub struct Written {
    pub refusal: u8,
    pub length: usize,
}

#[repr(C)]
pub struct EdgesCounted {
    pub refusal: u8,
    pub edges: usize,
}

#[repr(C)]
pub struct Played {
    pub refusal: u8,
    pub layout: Fields,
    pub calls: usize,
}

unsafe extern "C" {
    pub safe fn rl_empty() -> Fields;
    pub safe fn rl_add_vertex(l: &mut Fields) -> Vertex;
    pub safe fn rl_add_edge(l: &mut Fields, a: usize, b: usize, weight: u8) -> u8;
    pub safe fn rl_remove_edge(l: &mut Fields, a: usize, b: usize) -> u8;
    pub safe fn rl_move_after(l: &mut Fields, a: usize, b: usize) -> u8;
    pub safe fn rl_greedy_append(l: &mut Fields, start: usize) -> Tally;
    pub safe fn rl_sift(l: &mut Fields, u: usize) -> Sifted;
    pub safe fn rl_sifting_round(l: &mut Fields) -> Round;
    pub safe fn rl_converge(l: &mut Fields, limit: u32) -> Convergence;
    pub safe fn rl_count(l: &Fields) -> Counted;
    pub safe fn rl_first_crossing(l: &Fields) -> Crossing;
    pub safe fn rl_is_valid(l: &Fields) -> bool;

    pub unsafe fn rl_read_chart(l: &mut Fields, chart: *const u8, length: usize) -> u8;
    unsafe fn rl_import_graph6(l: &mut Fields, graph6: *const u8, length: usize) -> u8;
    pub unsafe fn rl_order(l: &Fields, buffer: *mut u8, length: usize) -> u8;
    pub unsafe fn rl_write_chart(l: &Fields, buffer: *mut u8, length: usize) -> Written;
    pub unsafe fn rl_export_graph6(l: &Fields, buffer: *mut u8, length: usize) -> Written;
    pub unsafe fn rl_edge_crossings(l: &Fields, table: *mut u64, length: usize) -> EdgesCounted;
    unsafe fn rl_list_chart(
        chart: *const u8,
        length: usize,
        out: *mut u8,
        out_length: usize,
    ) -> usize;
    unsafe fn rl_play(
        origin: u8,
        start: *const u8,
        start_length: usize,
        calls: *const u64,
        calls_length: usize,
        answers: *mut u64,
        answers_length: usize,
    ) -> Played;
}

/// A refused chart leaves the empty layout.
pub fn read_chart(l: &mut Fields, chart: &[u8]) -> u8 {
    // SAFETY: pointer and length are those of a slice.
    unsafe { rl_read_chart(l, chart.as_ptr(), chart.len()) }
}

/// A refused graph6 leaves the empty layout.
pub fn import_graph6(l: &mut Fields, graph6: &[u8]) -> u8 {
    // SAFETY: pointer and length are those of a slice.
    unsafe { rl_import_graph6(l, graph6.as_ptr(), graph6.len()) }
}

pub fn order(l: &Fields, buffer: &mut [u8]) -> u8 {
    // SAFETY: pointer and length are those of a slice.
    unsafe { rl_order(l, buffer.as_mut_ptr(), buffer.len()) }
}

pub fn write_chart(l: &Fields, buffer: &mut [u8]) -> Written {
    // SAFETY: pointer and length are those of a slice.
    unsafe { rl_write_chart(l, buffer.as_mut_ptr(), buffer.len()) }
}

pub fn export_graph6(l: &Fields, buffer: &mut [u8]) -> Written {
    // SAFETY: pointer and length are those of a slice.
    unsafe { rl_export_graph6(l, buffer.as_mut_ptr(), buffer.len()) }
}

pub fn edge_crossings(l: &Fields, table: &mut [u64]) -> EdgesCounted {
    // SAFETY: pointer and length are those of a slice.
    unsafe { rl_edge_crossings(l, table.as_mut_ptr(), table.len()) }
}

pub fn list_chart(chart: &[u8], out: &mut [u8]) -> usize {
    // SAFETY: pointers and lengths are those of slices.
    unsafe { rl_list_chart(chart.as_ptr(), chart.len(), out.as_mut_ptr(), out.len()) }
}

pub fn play(start: Start, calls: &[u64], answers: &mut [u64]) -> Played {
    // The numbers of rl_origin.
    let (origin, bytes): (u8, &[u8]) = match start {
        Start::Empty => (0, &[]),
        Start::Chart(chart) => (1, chart),
        Start::Graph6(graph6) => (2, graph6),
    };
    // SAFETY: pointers and lengths are those of slices.
    unsafe {
        rl_play(
            origin,
            bytes.as_ptr(),
            bytes.len(),
            calls.as_ptr(),
            calls.len(),
            answers.as_mut_ptr(),
            answers.len(),
        )
    }
}
