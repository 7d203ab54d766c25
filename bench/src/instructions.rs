//! The instructions of the calls on all sides, counted by callgrind, a tool of
//! valgrind. The program runs itself under it.

use std::fs;
use std::hint::black_box;
use std::path::{Path, PathBuf};
use std::process::{Command, Output};

use crate::agreement::Outcome;
use crate::lent;
use crate::rows::{self, three_columns, Repeat, Row, NAMES};

/// The arguments with which the program runs itself.
pub const EACH_ONCE: &str = "--each-once";
pub const LENT_ONCE: &str = "--lent-once";

/// What is counted, as callgrind names it: each call of `counted` on its own.
const COUNTED: &str = "bench::instructions::counted";

/// Prints a line for each call, and then what being lent costs.
pub fn print() -> Outcome {
    print_rows()?;
    print_lent()
}

fn print_rows() -> Outcome {
    println!(
        "instructions of a call; ratio: proved to baseline, or to second where there is none\n"
    );
    println!(
        "{:<NAMES$}{:>14}{:>14}{:>14}{:>10}",
        "", "proved", "baseline", "second", "ratio"
    );
    for (name, counts) in counts(EACH_ONCE)? {
        println!("{}", text(&name, &counts));
    }
    Ok(())
}

fn print_lent() -> Outcome {
    println!("\ninstructions of a call on one lent layout, and of the same call by value\n");
    for (name, counts) in counts(LENT_ONCE)? {
        let [in_place, by_value] = lent::of_a_call([0, 1, 2].map(|side| counts[side] as f64));
        println!("{:<NAMES$}{in_place:>9.0}", format!("{name}, in place"));
        println!(
            "{:<NAMES$}{by_value:>9.0}",
            "the same by value, within a list"
        );
        let more = in_place - by_value;
        println!("lent, not by value: {more:+.0} instructions a call");
    }
    Ok(())
}

/// The instructions of each row that the program makes once with this argument,
/// of each of its sides.
fn counts(argument: &str) -> Result<Vec<(String, Vec<u64>)>, String> {
    let directory = Directory::new()?;
    let output = run_under_callgrind(&directory.0, argument)?;
    let names = String::from_utf8_lossy(&output.stdout);
    let mut parts = 1..;
    let mut row = |line: &str| {
        let (name, sides) = line.split_once('\t').ok_or("a line without sides")?;
        let counts = parts.by_ref().take(sides.len());
        let counts: Result<_, String> = counts.map(|i| read_part(&directory.0, i)).collect();
        Ok((name.to_string(), counts?))
    };
    names.lines().map(&mut row).collect()
}

fn text(name: &str, counts: &[u64]) -> String {
    let columns: Vec<String> = counts.iter().map(u64::to_string).collect();
    let columns = three_columns(&columns, 14);
    let ratio = counts[0] as f64 / counts[1] as f64;
    format!("{name:<NAMES$}{columns}{ratio:>10.2}")
}

/// Makes each call once on each of its sides, to be counted.
pub fn each_once() -> Outcome {
    rows::for_each(once)
}

/// Makes the calls that are lent a layout, and the same by value, to be counted.
pub fn lent_once() -> Outcome {
    lent::for_each(once)
}

/// Prints a line for the row: its name, and a stroke for each side.
fn once(row: &Row) {
    println!("{}\t{}", row.name, "|".repeat(row.sides.len()));
    row.sides.iter().for_each(counted);
}

/// Makes a call once. It is made from here, and from nowhere else, while
/// callgrind counts.
#[inline(never)]
fn counted(side: &Repeat) {
    side(black_box(1));
    black_box(side);
}

/// The program writes the names of the rows, callgrind a file for each call.
/// There is no environment: its length moves the stack, and copying depends on
/// where things lie.
fn run_under_callgrind(directory: &Path, argument: &str) -> Result<Output, String> {
    let program = std::env::current_exe().map_err(|error| error.to_string())?;
    let files = directory.join("part");
    let run = Command::new(valgrind()?)
        .env_clear()
        .args(["--tool=callgrind", "--quiet"])
        .arg(format!("--toggle-collect={COUNTED}"))
        .arg(format!("--dump-after={COUNTED}"))
        .arg(format!("--callgrind-out-file={}", files.display()))
        .arg(program)
        .arg(argument)
        .output();
    let output = run.map_err(|error| format!("valgrind: {error}"))?;
    match output.status.success() {
        true => Ok(output),
        false => Err(String::from_utf8_lossy(&output.stderr).into_owned()),
    }
}

/// Where valgrind is.
fn valgrind() -> Result<PathBuf, String> {
    let path = std::env::var_os("PATH").unwrap_or_default();
    let mut places = std::env::split_paths(&path).map(|place| place.join("valgrind"));
    let found = places.find(|place| place.is_file());
    found.ok_or("valgrind isn't there to count instructions".to_string())
}

/// The instructions in one of callgrind's files.
fn read_part(directory: &Path, number: usize) -> Result<u64, String> {
    let file = format!("part.{number}");
    let text = fs::read_to_string(directory.join(&file));
    let text = text.map_err(|error| format!("callgrind's {file}: {error}"))?;
    let total = text.lines().find_map(|line| line.strip_prefix("totals: "));
    let total = total.and_then(|total| total.trim().parse().ok());
    total.ok_or(format!("callgrind's {file} has no total"))
}

/// A directory for callgrind's files, removed in the end.
struct Directory(PathBuf);

impl Directory {
    fn new() -> Result<Directory, String> {
        let name = format!("bench-{}", std::process::id());
        let directory = Directory(std::env::temp_dir().join(name));
        fs::create_dir(&directory.0).map_err(|error| error.to_string())?;
        Ok(directory)
    }
}

impl Drop for Directory {
    fn drop(&mut self) {
        let _ = fs::remove_dir_all(&self.0);
    }
}
