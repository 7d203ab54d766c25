//! What the program `ringlist` prints for a chart.

use crate::calls;
use crate::chart::{self, MAX_BYTES};
use crate::circle::Circle;

/// At most so many bytes are read, the last only to tell that the chart is too
/// long.
pub const READ_BYTES: u64 = MAX_BYTES as u64 + 1;

const LIMIT: u32 = 50;

/// The lines for a chart, or the one for a refused chart.
pub fn listing(input: &[u8]) -> String {
    let layout = match chart::read(input) {
        Ok(layout) => layout,
        Err(number) => return format!("refused {number}\n"),
    };
    let edges = Circle::new(&layout).edges().len();
    let run = calls::converge(layout, LIMIT);
    let order: String = run.layout.order[..layout.n as usize]
        .iter()
        .map(|v| format!(" {v}"))
        .collect();
    let lines = [
        format!("devices {}", layout.n),
        format!("links {edges}"),
        format!("before {}", layout.count),
        format!("after {}", run.layout.count),
        format!("rounds {}", run.value.rounds),
        format!("settled {}", yes_or_no(run.value.converged)),
        format!("order{order}\n"),
    ];
    lines.join("\n")
}

pub fn yes_or_no(value: bool) -> &'static str {
    if value {
        "yes"
    } else {
        "no"
    }
}
