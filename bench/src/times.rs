//! The times of the calls on all sides, by turns.

use std::time::{Duration, Instant};

use crate::agreement::Outcome;
use crate::lent;
use crate::rows::{self, three_columns, Repeat, Row, NAMES};

/// Batches of calls on each side: as many as go into the time for a side, from a
/// few up.
const FEWEST: f64 = 5.0;
const MOST: f64 = 1001.0;
const FOR_A_SIDE: Duration = Duration::from_secs(2);

/// What a batch is to take, unless one call takes more.
const BATCH: Duration = Duration::from_micros(200);

/// The time of a call, in microseconds.
pub struct Time {
    median: f64,
    minimum: f64,
}

/// Prints a line for each call, and then what being lent costs.
pub fn print() -> Outcome {
    print_rows()?;
    print_lent()
}

fn print_rows() -> Outcome {
    println!("\nmicroseconds of a call: median and minimum; ratio: proved to baseline, or to second where there is none\n");
    print_heading(&["proved", "baseline", "second"]);
    rows::for_each(line)
}

/// What stands above the times of these sides and a ratio of them.
pub fn print_heading(sides: &[&str]) {
    let names: String = sides.iter().map(|side| format!("{side:>18}")).collect();
    println!("{:<NAMES$}{names}{:>14}", "", "ratio");
    let pairs = format!("{:>9}{:>9}", "median", "min").repeat(sides.len());
    println!("{:<NAMES$}{pairs}{:>8}{:>6}", "", "median", "min");
}

fn line(row: &Row) {
    let times = times(&row.sides);
    let columns: Vec<String> = times.iter().map(columns).collect();
    println!(
        "{:<NAMES$}{}{}",
        row.name,
        three_columns(&columns, 18),
        ratio(&times[0], &times[1], 2),
    );
}

fn print_lent() -> Outcome {
    println!("\nmicroseconds of a call on one lent layout, and of the same call by value\n");
    println!("{:<NAMES$}{:>9}{:>9}", "", "median", "min");
    lent::for_each(lent_lines)
}

fn lent_lines(row: &Row) {
    let times = times(&row.sides);
    let figure = |of: fn(&Time) -> f64| lent::of_a_call([0, 1, 2].map(|side| of(&times[side])));
    let medians = figure(|time| time.median);
    let minimums = figure(|time| time.minimum);
    let names = [
        format!("{}, in place", row.name),
        "the same by value, within a list".to_string(),
    ];
    for (name, (median, minimum)) in names.iter().zip(medians.iter().zip(minimums)) {
        println!("{name:<NAMES$}{median:>9.3}{minimum:>9.3}");
    }
    let [median, minimum] = [medians, minimums].map(|[in_place, by_value]| in_place - by_value);
    println!("lent, not by value: {median:+.3} us a call, by the minimums {minimum:+.3} us");
}

/// The columns of a side's time.
pub fn columns(time: &Time) -> String {
    let number = |micros| match micros {
        0.0..1000.0 => format!("{micros:>9.3}"),
        _ => format!("{micros:>9.1}"),
    };
    number(time.median) + &number(time.minimum)
}

/// The columns of the ratio of two times, with so many decimals.
pub fn ratio(time: &Time, to: &Time, decimals: usize) -> String {
    let medians = time.median / to.median;
    let minimums = time.minimum / to.minimum;
    format!("{medians:>8.decimals$}{minimums:>6.decimals$}")
}

/// The time of a call on each side. The sides take turns, batch by batch, so that
/// all see the same machine.
pub fn times(sides: &[Repeat]) -> Vec<Time> {
    let once: Vec<f64> = sides.iter().map(|side| batch(side, 1)).collect();
    let calls: Vec<u32> = once.iter().map(|&once| calls_in_a_batch(once)).collect();
    let turn = once.iter().zip(&calls);
    let turn: f64 = turn.map(|(once, &calls)| once * f64::from(calls)).sum();
    let turns = sides.len() as f64 * micros(FOR_A_SIDE) / turn;
    let mut batches = vec![Vec::new(); sides.len()];
    for _ in 0..turns.clamp(FEWEST, MOST) as usize {
        for (side, times) in batches.iter_mut().enumerate() {
            times.push(batch(&sides[side], calls[side]));
        }
    }
    batches.into_iter().map(time).collect()
}

fn calls_in_a_batch(once: f64) -> u32 {
    (micros(BATCH) / once).clamp(1.0, 1e4) as u32
}

fn micros(time: Duration) -> f64 {
    time.as_secs_f64() * 1e6
}

/// The time of a call in a batch of so many, in microseconds.
fn batch(side: &Repeat, calls: u32) -> f64 {
    let start = Instant::now();
    side(calls);
    micros(start.elapsed()) / f64::from(calls)
}

fn time(mut batches: Vec<f64>) -> Time {
    batches.sort_by(f64::total_cmp);
    Time {
        median: batches[batches.len() / 2],
        minimum: batches[0],
    }
}
