//! How often each thing occurred in a run.

mod imports;
mod lays;
mod missing;
mod sifts;
mod weights;
mod writes;

use std::collections::{BTreeMap, BTreeSet};

use crate::entries::Entry;
use crate::followed::{numbers, steps, Step};
use crate::imported::exported_again;
use crate::make::charts;
use crate::make::density::{quarter, LARGE, QUARTERS};
use crate::make::lists;
use crate::make::ops::{EXPORT, PERLINK, WRITE};
use crate::written::is_read_back;

/// From so many charts and lists on, everything must have occurred.
pub const ENOUGH: usize = 100;

type Counts = BTreeMap<String, usize>;

/// The refusal number of a call on a layout that isn't valid, and of an export
/// of one with weights other than 1.
const NOT_VALID: u8 = 11;
const WEIGHTED: u8 = 26;

/// How often each quarter of all possible edges occurred in large graphs.
type Quarters = [usize; QUARTERS];

#[derive(Default)]
pub struct Tally {
    charts: Counts,
    chart_graphs: Counts,
    chart_weights: Counts,
    lists: Counts,
    starts: Counts,
    list_graphs: Counts,
    list_weights: Counts,
    /// How often each call answered with each refusal number.
    answers: BTreeMap<String, BTreeMap<u8, usize>>,
    /// The same of the listings of charts.
    listings: BTreeMap<u8, usize>,
    /// The numbers of vertices in accepted charts, and in valid layouts that
    /// calls were made on.
    chart_sizes: BTreeSet<usize>,
    list_sizes: BTreeSet<usize>,
    /// The densities of large graphs in accepted charts, and with each call
    /// where it was accepted.
    chart_quarters: Quarters,
    call_quarters: BTreeMap<String, Quarters>,
    /// The lengths of buffers lent for an order.
    buffers: BTreeSet<usize>,
    /// What occurred of isolated vertices in accepted lays.
    lays: Counts,
    /// What occurred of best places in accepted sifts, and of last rounds in
    /// accepted settlings.
    sifts: Counts,
    settles: Counts,
    /// What occurred of weights and of wide numbers.
    weights: Counts,
    /// Charts that were written, graph6 that were exported and imported, and
    /// tables that were filled.
    writes: Transfers,
    exports: Transfers,
    imports: Transfers,
    tables: Transfers,
    /// How many charts and lists were too dear for the naive model.
    charts_without_naive: usize,
    lists_without_naive: usize,
}

/// What occurred of layouts that were written or imported, or of which a table
/// was filled, and their numbers of vertices.
#[derive(Default)]
struct Transfers {
    met: Counts,
    sizes: BTreeSet<usize>,
}

impl Transfers {
    /// Takes in a line and what occurs in it.
    fn line(&mut self, step: &Step, refusal: u8, met: Vec<String>) {
        add_all(&mut self.met, met);
        if refusal == 0 {
            self.sizes.insert(step.n());
        }
    }
}

impl Tally {
    /// Takes in a chart and its listing.
    pub fn chart(&mut self, made: &charts::Made, listing: &str) {
        add(&mut self.charts, made.kind);
        add_all(&mut self.chart_graphs, made.family);
        add_all(&mut self.chart_weights, made.weights);
        self.charts_without_naive += usize::from(!made.naive);
        let numbers: Vec<usize> = listing.lines().take(2).filter_map(last_number).collect();
        match (listing.starts_with("refused"), &numbers[..]) {
            (true, [number]) => *self.listings.entry(*number as u8).or_default() += 1,
            (false, &[n, m]) => {
                *self.listings.entry(0).or_default() += 1;
                self.chart_sizes.insert(n);
                add_quarter(&mut self.chart_quarters, n, m);
            }
            _ => {}
        }
    }

    /// Takes in a list and its answer lines.
    pub fn list(&mut self, made: &lists::Made, lines: &str) {
        add(&mut self.lists, made.kind);
        self.lists_without_naive += usize::from(!made.naive);
        add_all(&mut self.starts, &made.starts);
        add_all(&mut self.list_graphs, &made.graphs);
        add_all(&mut self.list_weights, &made.weights);
        let steps: Vec<Step> = steps(&made.bytes, lines).collect();
        for step in &steps {
            self.line(step);
        }
        for pair in steps.windows(2) {
            self.pair(&pair[0], &pair[1]);
        }
        let alike = steps.windows(4).filter(|four| weights::is_alike(four));
        add_all(&mut self.weights, alike.map(|_| weights::ALIKE));
    }

    /// Takes in what an answer line is to the one before it.
    fn pair(&mut self, last: &Step, step: &Step) {
        if is_read_back(last, step) {
            let transfers = match step.entry {
                Entry::Import(_) => &mut self.exports,
                _ => &mut self.writes,
            };
            add(&mut transfers.met, writes::READ_BACK);
            if step.is_weighted() {
                add(&mut self.weights, weights::READ_BACK);
            }
        }
        if exported_again(last, step).is_some() {
            add(&mut self.imports.met, imports::EXPORTED);
        }
        if sifts::is_again_behind_a_move(last, step) {
            add(&mut self.sifts, sifts::AGAIN);
        }
    }

    /// Takes in an answer line and the layout behind it.
    fn line(&mut self, step: &Step) {
        let Some((name, refusal)) = step.answer() else {
            return;
        };
        let answers = self.answers.entry(name.to_string()).or_default();
        *answers.entry(refusal).or_default() += 1;
        if refusal != NOT_VALID {
            self.list_sizes.insert(step.n());
        }
        add_all(&mut self.weights, weights::met(step, name, refusal));
        if refusal == 0 {
            let quarters = self.call_quarters.entry(name.to_string()).or_default();
            add_quarter(quarters, step.n(), step.m());
        }
        match name {
            "order" => {
                self.buffers.insert(numbers(step.line, " buffer ").len());
            }
            "lay" if refusal == 0 => add_all(&mut self.lays, lays::met(step)),
            "sift" if refusal == 0 => add_all(&mut self.sifts, sifts::met(step)),
            "settle" if refusal == 0 => add_all(&mut self.settles, sifts::met_by_settle(step)),
            "write" => self
                .writes
                .line(step, refusal, writes::met(step, WRITE, refusal)),
            "export" => self
                .exports
                .line(step, refusal, writes::met(step, EXPORT, refusal)),
            "perlink" => self
                .tables
                .line(step, refusal, writes::met(step, PERLINK, refusal)),
            "import" => self
                .imports
                .line(step, refusal, imports::met(step, refusal)),
            _ => {}
        }
    }

    /// How many calls there were; starts are none.
    pub fn calls(&self) -> usize {
        let calls = self.answers.iter().filter(|(name, _)| is_call(name));
        calls.flat_map(|(_, answers)| answers.values()).sum()
    }

    /// How many charts and lists were compared without the naive model.
    pub fn without_naive(&self) -> (usize, usize) {
        (self.charts_without_naive, self.lists_without_naive)
    }

    /// The lines to print.
    pub fn text(&self) -> String {
        let mut text = String::new();
        for (title, counts) in [
            ("chart", &self.charts),
            ("graph in charts", &self.chart_graphs),
            ("weights in charts", &self.chart_weights),
            ("list", &self.lists),
            ("start", &self.starts),
            ("graph in lists", &self.list_graphs),
            ("weights in lists", &self.list_weights),
            ("lay", &self.lays),
            ("sift", &self.sifts),
            ("settle", &self.settles),
            ("weights", &self.weights),
            ("write", &self.writes.met),
            ("export", &self.exports.met),
            ("import", &self.imports.met),
            ("perlink", &self.tables.met),
        ] {
            for (name, times) in counts {
                text += &format!("{title}, {name}: {times}\n");
            }
        }
        text += &self.answer_table();
        text += &self.quarter_table();
        for (title, met) in [
            ("sizes of accepted charts", &self.chart_sizes),
            ("sizes of valid layouts in lists", &self.list_sizes),
            ("sizes of written layouts", &self.writes.sizes),
            ("sizes of exported layouts", &self.exports.sizes),
            ("sizes of imported layouts", &self.imports.sizes),
            ("sizes of layouts with a table", &self.tables.sizes),
            ("lengths of buffers for an order", &self.buffers),
        ] {
            text += &format!("{title}: {}\n", met.len());
        }
        text
    }

    /// A line for each call: how often it was accepted, and refused with each
    /// number.
    fn answer_table(&self) -> String {
        let mut table = answer_line("listing", &self.listings);
        for (name, answers) in &self.answers {
            table += &answer_line(name, answers);
        }
        table
    }

    /// A line for charts and one for each call: how often a large graph had
    /// edges in each quarter of all.
    fn quarter_table(&self) -> String {
        let mut table = quarter_line("accepted chart", &self.chart_quarters);
        for (name, quarters) in self.call_quarters.iter().filter(|(name, _)| is_call(name)) {
            table += &quarter_line(&format!("accepted {name}"), quarters);
        }
        table
    }
}

fn is_call(name: &str) -> bool {
    !["empty", "chart", "import"].contains(&name)
}

fn last_number(line: &str) -> Option<usize> {
    line.rsplit(' ').next()?.parse().ok()
}

fn answer_line(name: &str, answers: &BTreeMap<u8, usize>) -> String {
    let mut line = format!("answers of {name}:");
    for (number, times) in answers {
        line += &match number {
            0 => format!(" accepted {times}"),
            number => format!(", {number} {times}"),
        };
    }
    line + "\n"
}

fn quarter_line(title: &str, quarters: &Quarters) -> String {
    let [first, second, third, last] = quarters;
    format!(
        "{title}, {LARGE} vertices or more, by quarter of all edges: \
         {first} {second} {third} {last}\n"
    )
}

fn add_quarter(quarters: &mut Quarters, n: usize, m: usize) {
    if n >= LARGE {
        quarters[quarter(n, m)] += 1;
    }
}

fn add(counts: &mut Counts, name: &str) {
    *counts.entry(name.to_string()).or_default() += 1;
}

fn add_all<N: AsRef<str>>(counts: &mut Counts, names: impl IntoIterator<Item = N>) {
    for name in names {
        add(counts, name.as_ref());
    }
}
