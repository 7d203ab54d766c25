//! Whether two sides answer alike.

use std::fmt::{Debug, Display};

/// Nothing, or what went wrong.
pub type Outcome = Result<(), String>;

/// Compares what a side answers with what the second program does.
pub fn agree<A: PartialEq + Debug>(
    call: impl Display,
    side: &str,
    answer: &A,
    second: &A,
) -> Outcome {
    both_agree(call, [(side, answer), ("second", second)])
}

/// Compares what two sides answer, each by its name.
pub fn both_agree<A: PartialEq + Debug>(call: impl Display, sides: [(&str, &A); 2]) -> Outcome {
    let [(one, answer), (other, expected)] = sides;
    if answer == expected {
        return Ok(());
    }
    Err(format!(
        "{call}: the answers differ\n{one}: {answer:?}\n{other}: {expected:?}"
    ))
}
