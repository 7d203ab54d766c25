//! A run: makes every chart and list, and compares the sides on it.

use crate::collected;
use crate::counted::{self, check_listing};
use crate::followed::{check_fours, check_lines, check_pairs, Step};
use crate::imported;
use crate::input::{record_of, Failure, Input, Model};
use crate::label::Output;
use crate::laid;
use crate::make::collections::{self, Collection, COLLECTIONS};
use crate::make::{charts, five, lists};
use crate::naive;
use crate::options::Options;
use crate::rng::Rng;
use crate::sifted;
use crate::tally::Tally;
use crate::written;

/// Compares all sides on all charts, unless lists are to be of some calls only,
/// on all lists, on all graphs on five vertices, and on the collections.
pub fn compare(options: &Options) -> Result<Tally, Failure> {
    let mut tally = Tally::default();
    if options.only.is_none() {
        for index in 0..options.count {
            compare_chart(options, index, &mut tally)?;
        }
    }
    let mut rng = Rng::new(options.seed, "plant", 0);
    let planted = options.plant.then(|| list_to_plant(options, &mut rng));
    for index in 0..options.count {
        let plant = (planted == Some(index)).then_some(&mut rng);
        compare_list(options, index, &mut tally, plant)?;
    }
    if five::open(&options.known) {
        for number in 0..five::LISTS {
            compare_five(options, number)?;
        }
    }
    if collections::open(&options.known) {
        for (number, file) in COLLECTIONS.iter().enumerate() {
            compare_collection(options, number, file)?;
        }
    }
    Ok(tally)
}

/// A list in which an answer is to be changed: any that the naive model plays,
/// so that it is noticed with one program too.
fn list_to_plant(options: &Options, rng: &mut Rng) -> usize {
    let first = rng.below(options.count);
    let mut indices = (first..options.count).chain(0..first);
    let naive = |&index: &usize| lists::list(options.seed, index, &options.known).naive;
    indices.find(naive).unwrap_or(first)
}

fn compare_chart(options: &Options, index: usize, tally: &mut Tally) -> Result<(), Failure> {
    let made = charts::chart(options.seed, index);
    let input = Input {
        what: "chart",
        index,
        bytes: &made.bytes,
        output: Output::Listing,
    };
    let model = made.naive.then_some(naive::list::listing as Model);
    let listing = input.compare(&options.list, model, None)?;
    tally.chart(&made, &listing);
    if !made.naive {
        check_listing(&made.bytes, &listing).map_err(|text| input.failure(text))?;
    }
    check_refusal(made.refusal, &listing).map_err(|text| input.failure(text))
}

/// Whether a chart of a known kind got the refusal number due to it.
fn check_refusal(refusal: Option<u8>, listing: &str) -> Result<(), String> {
    let start = match refusal {
        None => return Ok(()),
        Some(0) => "devices ".to_string(),
        Some(number) => format!("refused {number}\n"),
    };
    if listing.starts_with(&start) {
        Ok(())
    } else {
        Err(format!("listed: {listing}due: {start}"))
    }
}

fn compare_list(
    options: &Options,
    index: usize,
    tally: &mut Tally,
    plant: Option<&mut Rng>,
) -> Result<(), Failure> {
    let made = lists::list(options.seed, index, &options.known);
    let input = Input::list("list", index, &made.bytes);
    let naive = made.naive || plant.is_some();
    let model = naive.then_some(naive::play::play as Model);
    let lines = input.compare(&options.play, model, plant)?;
    let check = |step: &Step| {
        written::check_line(step)?;
        imported::check_line(step)?;
        if !naive {
            counted::check_line(step)?;
        }
        laid::check_tally(step)?;
        laid::check_line(step)?;
        sifted::check_line(step)
    };
    let check_pair = |last: &Step, step: &Step| {
        sifted::check_again(last, step)?;
        imported::check_again(last, step)
    };
    let checked = check_lines(&made.bytes, &lines, check)
        .and_then(|()| check_pairs(&made.bytes, &lines, check_pair))
        .and_then(|()| check_fours(&made.bytes, &lines, written::check_alike));
    checked.map_err(|found| failed(&input, found))?;
    tally.list(&made, &lines);
    Ok(())
}

/// The failure of a check in a line of a list.
fn failed(input: &Input, (line, text): (usize, String)) -> Failure {
    let record = record_of(input.bytes, line);
    input.failure(format!("{record}: {text}"))
}

fn compare_five(options: &Options, number: usize) -> Result<(), Failure> {
    let list = five::list(number);
    let input = Input::list("list-of-five-vertices", number, &list);
    let model: Model = naive::play::play;
    input.compare(&options.play, Some(model), None)?;
    Ok(())
}

fn compare_collection(options: &Options, number: usize, file: &Collection) -> Result<(), Failure> {
    let list = file.list();
    let input = Input::list(file.name, number, &list);
    let model: Model = naive::play::play;
    let lines = input.compare(&options.play, Some(model), None)?;
    collected::check(file, &list, &lines).map_err(|found| failed(&input, found))
}
