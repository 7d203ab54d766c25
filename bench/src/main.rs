//! The proved calls beside the same calls in Rust, on the same layouts and in one
//! run: their times, their instructions, or only their answers. Or beside the same
//! calls by the library of an earlier commit. Nothing is asserted of a time; that
//! all sides answer alike is. See bench/README.md.

mod agreement;
mod answers;
mod before;
mod expected;
mod former;
mod instructions;
mod lent;
mod libraries;
mod lists;
mod proved;
mod rows;
mod shared;
mod times;

use std::process::ExitCode;

use former::Former;
use libraries::Now;

fn main() -> ExitCode {
    let arguments: Vec<String> = std::env::args().skip(1).collect();
    let arguments: Vec<&str> = arguments.iter().map(String::as_str).collect();
    let done = match arguments[..] {
        [] => answers::print().and_then(|()| times::print()),
        ["--answers"] => answers::print(),
        ["--instructions"] => instructions::print(),
        ["--before", "same", before, now] => before::print::<Now>(before, now),
        ["--before", "former", before, now] => before::print::<Former>(before, now),
        [instructions::EACH_ONCE] => instructions::each_once(),
        [instructions::LENT_ONCE] => instructions::lent_once(),
        _ => {
            eprintln!("usage: bench/run [--answers | --instructions | --before COMMIT]");
            return ExitCode::from(2);
        }
    };
    match done {
        Ok(()) => ExitCode::SUCCESS,
        Err(message) => {
            eprintln!("bench: {message}");
            ExitCode::FAILURE
        }
    }
}
