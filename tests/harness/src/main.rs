//! Makes charts and lists of calls from a seed, gives them to programs and
//! compares what they print with what a naive model of document 01 gives.

mod collected;
mod counted;
mod difference;
mod entries;
mod followed;
mod imported;
mod input;
mod label;
mod laid;
mod make;
mod naive;
mod options;
mod rng;
mod run;
mod side;
mod sifted;
mod tally;
mod written;

use std::io::Write;
use std::process::ExitCode;

use make::{collections, five, stored};
use options::Options;
use tally::{Tally, ENOUGH};

fn main() -> ExitCode {
    let arguments: Vec<String> = std::env::args().skip(1).collect();
    if let Some(known) = options::parse_stored(&arguments) {
        return match std::io::stdout().write_all(&stored::list(&known)) {
            Ok(()) => ExitCode::SUCCESS,
            Err(_) => ExitCode::FAILURE,
        };
    }
    let Some(options) = options::parse(arguments.into_iter()) else {
        eprintln!("{}", options::USAGE);
        return ExitCode::from(2);
    };
    match run::compare(&options) {
        Ok(tally) => finish(&options, &tally),
        Err(failure) => {
            println!("{}", failure.report(&options));
            ExitCode::FAILURE
        }
    }
}

/// Prints the tally, and whether a long run has met everything.
fn finish(options: &Options, tally: &Tally) -> ExitCode {
    print!("{}", tally.text());
    let missing = tally.missing(&options.known, options.only.is_none());
    let (seed, count) = (options.seed, options.count);
    if count >= ENOUGH && !missing.is_empty() {
        println!("compare: seed {seed}, never met: {}", missing.join(", "));
        return ExitCode::FAILURE;
    }
    println!("{}", without_naive(options, tally));
    let calls = tally.calls();
    let inputs = match &options.only {
        None => format!("{count} charts and {count} lists ({calls} calls)"),
        Some(names) => format!("{count} lists of {names} ({calls} calls)"),
    };
    let always = always(options);
    println!("compare: seed {seed}, {inputs}{always} agree");
    ExitCode::SUCCESS
}

/// The graphs that every run has, if its calls allow it.
fn always(options: &Options) -> String {
    let mut always = String::new();
    if five::open(&options.known) {
        always += &format!(" and all {} graphs on five vertices", five::GRAPHS);
    }
    if collections::open(&options.known) {
        let graphs = collections::graph_count();
        always += &format!(" and {graphs} graphs of the collections");
    }
    always
}

/// How much the naive model left to the programs, but for counting crossings
/// and for single calls.
fn without_naive(options: &Options, tally: &Tally) -> String {
    let (charts, lists) = tally.without_naive();
    let told = |name: &str, times: usize, sides: usize| match sides {
        0 | 1 => format!("{times} {name} of one program only"),
        sides => format!("{times} {name} compared among {sides} programs"),
    };
    let charts = told("charts", charts, options.list.len());
    let lists = told("lists", lists, options.play.len());
    format!("without the naive model, but for its counts and single calls: {charts}, {lists}")
}
