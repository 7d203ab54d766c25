//! What crosses the boundary as Rust sees it, in the lines that
//! `hosts/c/boundary.c` prints.

use std::fmt::Write;
use std::mem::{offset_of, size_of};

use crate::ffi::{
    Convergence, Counted, Crossing, EdgesCounted, Played, Round, Sifted, Tally, Vertex, Written,
};
use crate::refusal::REFUSALS;
use crate::{Edge, Fields};

/// The lines of a struct: its size, and the offset of each field.
macro_rules! lines_of {
    ($lines:ident, $name:literal, $type:ty, $($field:ident)*) => {
        $lines += &format!("{} {}\n", $name, size_of::<$type>());
        $(
            let (field, offset) = (stringify!($field), offset_of!($type, $field));
            $lines += &format!("{}.{field} {offset}\n", $name);
        )*
    };
}

/// All lines.
pub fn text() -> String {
    let mut lines = String::new();
    lines_of!(lines, "rl_layout", Fields, n order adjacency weights count);
    lines_of!(lines, "rl_edge", Edge, low high);
    lines_of!(lines, "rl_vertex", Vertex, refusal vertex);
    lines_of!(lines, "rl_tally", Tally, refusal tally);
    lines_of!(lines, "rl_sifted", Sifted, refusal reduction optima);
    lines_of!(lines, "rl_round", Round, refusal reduction moved optima);
    lines_of!(lines, "rl_convergence", Convergence, refusal reduction rounds converged optima);
    lines_of!(lines, "rl_counted", Counted, refusal count);
    lines_of!(lines, "rl_crossing", Crossing, refusal found first second);
    lines_of!(lines, "rl_written", Written, refusal length);
    lines_of!(lines, "rl_edges_counted", EdgesCounted, refusal edges);
    lines_of!(lines, "rl_played", Played, refusal layout calls);
    for refusal in REFUSALS {
        let name = c_name(&format!("{refusal:?}"));
        lines += &format!("{} {name} {}\n", refusal.code(), refusal.question());
    }
    lines
}

/// ChartTooLong as CHART_TOO_LONG.
fn c_name(name: &str) -> String {
    let mut written = String::new();
    for letter in name.chars() {
        if letter.is_uppercase() && !written.is_empty() {
            written.push('_');
        }
        let _ = write!(written, "{}", letter.to_uppercase());
    }
    written
}
