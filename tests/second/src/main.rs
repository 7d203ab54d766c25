//! `second list` lists a chart as `ringlist` does; `second play` plays a list
//! of calls. Both read standard input.

use std::io::{self, Read, Write};
use std::process::ExitCode;

use second::{list, play};

fn main() -> ExitCode {
    let arguments: Vec<String> = std::env::args().skip(1).collect();
    let arguments: Vec<&str> = arguments.iter().map(String::as_str).collect();
    let done = match arguments[..] {
        ["list"] => run(list::READ_BYTES, list::listing),
        ["play"] => run(u64::MAX, play::play),
        _ => {
            eprintln!("usage: second list < CHART, or second play < LIST");
            return ExitCode::from(2);
        }
    };
    match done {
        Ok(()) => ExitCode::SUCCESS,
        Err(error) => {
            eprintln!("second: {error}");
            ExitCode::FAILURE
        }
    }
}

/// Reads at most so many bytes of standard input and prints the text for them.
fn run(most: u64, text: fn(&[u8]) -> String) -> io::Result<()> {
    let mut input = Vec::new();
    io::stdin().lock().take(most).read_to_end(&mut input)?;
    io::stdout().lock().write_all(text(&input).as_bytes())
}
