//! The calls that are measured, each with the sides that it is measured on. The
//! edges have weights from 1 to 255, but where a row's name says otherwise.

use std::fmt::Debug;
use std::hint::black_box;

use baseline::WithoutOptima;
use layouts::{chart, fan, graph6, layout, pairs, with_isolated, Weights};
use rostulanda::ffi::ANSWER_NUMBERS;
use rostulanda::{Fields, Start, GRAPH6_BYTES, MOST_EDGES, PLACES, WRITTEN_CHART_BYTES};
use second::calls;
use second::layout::Layout;

use crate::agreement::{agree, Outcome};
use crate::proved::{self, fields, Told};
use crate::{expected, lists};

/// How wide the column of the names is.
pub const NAMES: usize = 63;

/// The calls of a list that is measured.
pub const CALLS: usize = 1000;

/// The vertex that is sifted, and from which laying starts.
pub const VERTEX: u64 = 5;

/// The weight of an edge that is linked.
pub const WEIGHT: u8 = 100;

/// The most rounds of a settling.
pub const LIMIT: u32 = 50;

/// How many edges the layouts have that are sifted, few to all.
pub const SIFTED: [usize; 3] = [200, 1000, 2016];

/// Makes a call so many times.
pub type Repeat<'a> = Box<dyn Fn(u32) + 'a>;

/// A call, to be measured on its sides: the proved one, the baseline if it has
/// the call, and the second program.
pub struct Row<'a> {
    pub name: &'a str,
    pub sides: Vec<Repeat<'a>>,
}

/// The columns of a row, so wide each. Where there is no baseline its column is
/// blank.
pub fn three_columns(sides: &[String], width: usize) -> String {
    let blank = if sides.len() < 3 { width } else { 0 };
    let right = |side: &String| format!("{side:>width$}");
    let (proved, others) = sides.split_at(1);
    let columns = |sides: &[String]| sides.iter().map(right).collect::<String>();
    columns(proved) + &" ".repeat(blank) + &columns(others)
}

/// Does something with each row.
pub fn for_each(mut does: impl FnMut(&Row)) -> Outcome {
    let rows = &mut Rows { does: &mut does };
    for edges in [1000, 2015] {
        accepted(rows, edges)?;
    }
    no_pair(rows)?;
    charts(rows)?;
    written_charts(rows)?;
    graph6s(rows)?;
    edge_crossings(rows)?;
    appending(rows)?;
    for weights in [Weights::Any, Weights::Ones] {
        sifting(rows, weights)?;
    }
    settling(rows)?;
    playing(rows)?;
    refused(rows)
}

/// Where the rows go, if their sides answer alike.
struct Rows<'a> {
    does: &'a mut dyn FnMut(&Row),
}

impl Rows<'_> {
    fn two<P: Told>(
        &mut self,
        name: &str,
        proved: impl Fn() -> P,
        second: impl Fn() -> P::As,
    ) -> Outcome {
        agree(name, "proved", &proved().told(), &second())?;
        let sides = vec![repeated(proved), repeated(second)];
        (self.does)(&Row { name, sides });
        Ok(())
    }

    fn three<P: Told<As: WithoutOptima>>(
        &mut self,
        name: &str,
        proved: impl Fn() -> P,
        baseline: impl Fn() -> <P::As as WithoutOptima>::Rest,
        second: impl Fn() -> P::As,
    ) -> Outcome {
        let expected = second();
        agree(name, "proved", &proved().told(), &expected)?;
        agree(name, "baseline", &baseline(), &expected.without_optima())?;
        let sides = vec![repeated(proved), repeated(baseline), repeated(second)];
        (self.does)(&Row { name, sides });
        Ok(())
    }

    /// Bytes read into the empty layout.
    fn reading<P: Told>(
        &mut self,
        name: &str,
        bytes: &[u8],
        proved: impl Fn(&Fields, &[u8]) -> P,
        second: impl Fn(Layout, &[u8]) -> P::As,
    ) -> Outcome {
        let empty = fields(&Layout::EMPTY);
        self.two(
            name,
            || proved(&empty, bytes),
            || second(Layout::EMPTY, bytes),
        )
    }

    /// What a layout has, written to a buffer of so many elements.
    fn writing<const LENGTH: usize, T, P>(
        &mut self,
        name: &str,
        l: Layout,
        proved: impl Fn(&Fields, &mut [T]) -> P,
        second: impl Fn(Layout, &mut [T]) -> P::As,
    ) -> Outcome
    where
        T: Copy + Default + PartialEq + Debug,
        P: Told,
    {
        let lent = fields(&l);
        self.two(
            name,
            || into_buffer::<LENGTH, _, _>(|buffer| proved(&lent, buffer)),
            || into_buffer(|buffer| second(l, buffer)),
        )
    }
}

/// Each time the call is made, from inputs and for an answer that the compiler
/// knows nothing about.
pub fn repeated<'a, A>(call: impl Fn() -> A + 'a) -> Repeat<'a> {
    Box::new(move |times| {
        for _ in 0..times {
            black_box(black_box(&call)());
        }
    })
}

/// The name of a call on 64 vertices with so many edges.
pub fn of_64(call: &str, edges: usize) -> String {
    format!("{call}, 64 vertices, {edges} edges")
}

/// The same where the edges have these weights.
fn of_64_with(call: &str, edges: usize, weights: Weights) -> String {
    match weights {
        Weights::Any => of_64(call, edges),
        Weights::Ones => of_64(call, edges) + " of weight 1",
    }
}

/// The layouts of 64 vertices with 1,000 edges and with all, with these weights.
fn many_edges(weights: Weights) -> [(usize, Layout); 2] {
    [1000, 2016].map(|edges| (edges, layout(64, edges, weights)))
}

/// Two vertices that are linked, and two that are unlinked, or the one moved behind
/// the other.
pub fn ends(l: &Layout) -> [(u64, u64); 2] {
    let edges = pairs(l, true);
    [pairs(l, false)[0], edges[edges.len() / 2]]
}

/// The layouts of 64 vertices that are laid: with 1,000 edges, and half of them
/// without edges.
pub fn laid(weights: Weights) -> [(String, Layout); 2] {
    [
        (of_64("lay", 1000), layout(64, 1000, weights)),
        (
            "lay, 64 vertices, 250 edges between 32".to_string(),
            with_isolated(layout(32, 250, weights)),
        ),
    ]
}

/// The name of a settling.
pub fn settle() -> String {
    format!("settle with limit {LIMIT}")
}

/// Calls on 64 vertices with so many edges, one of all 2,016 missing at least.
fn accepted(rows: &mut Rows, edges: usize) -> Outcome {
    let l = layout(64, edges, Weights::Any);
    let lent = fields(&l);
    let [(a, b), (c, d)] = ends(&l);
    let name = |call| of_64(call, edges);
    rows.two(
        &name("link"),
        || proved::add_edge(&lent, a, b, WEIGHT),
        || calls::add_edge(l, a, b, WEIGHT),
    )?;
    rows.two(
        &name("unlink"),
        || proved::remove_edge(&lent, c, d),
        || calls::remove_edge(l, c, d),
    )?;
    rows.two(
        &name("move"),
        || proved::move_after(&lent, c, d),
        || calls::move_after(l, c, d),
    )?;
    rows.two(&name("count"), || proved::count(&lent), || calls::count(l))?;
    rows.writing::<PLACES, _, _>(&name("order"), l, proved::order, calls::order)?;
    rows.two(
        &name("pair"),
        || proved::first_crossing(&lent),
        || calls::first_crossing(l),
    )?;
    let fewer = layout(63, edges.min(1953), Weights::Any);
    let lent = fields(&fewer);
    rows.two(
        &format!("add, 63 vertices, {} edges", edges.min(1953)),
        || proved::add_vertex(&lent),
        || calls::add_vertex(fewer),
    )
}

/// The most edges of 64 vertices of which no two cross.
fn no_pair(rows: &mut Rows) -> Outcome {
    let l = fan();
    let lent = fields(&l);
    rows.two(
        "pair, 64 vertices, 125 edges, none",
        || proved::first_crossing(&lent),
        || calls::first_crossing(l),
    )
}

/// Charts read.
fn charts(rows: &mut Rows) -> Outcome {
    for (edges, l) in many_edges(Weights::Any) {
        rows.reading(
            &of_64("reading a chart", edges),
            &chart(&l),
            proved::read_chart,
            expected::read_chart,
        )?;
    }
    let weights_twice = [
        &chart(&layout(64, 2016, Weights::Any))[..],
        &[0x57, 0, 1, 1],
    ];
    rows.reading(
        "reading a chart refused 3, a fifth field",
        &weights_twice.concat(),
        proved::read_chart,
        expected::read_chart,
    )
}

/// Charts written, and read back into the empty layout.
fn written_charts(rows: &mut Rows) -> Outcome {
    let empty = fields(&Layout::EMPTY);
    let layouts = many_edges(Weights::Any);
    for (edges, l) in layouts {
        rows.writing::<WRITTEN_CHART_BYTES, _, _>(
            &of_64("writing a chart", edges),
            l,
            proved::write_chart,
            calls::write_chart,
        )?;
    }
    for (edges, l) in layouts {
        rows.writing::<WRITTEN_CHART_BYTES, _, _>(
            &of_64("writing a chart and reading it back", edges),
            l,
            |l, buffer| proved::write_and_read(l, buffer, &empty),
            |l, buffer| expected::write_and_read(l, buffer, Layout::EMPTY),
        )?;
    }
    Ok(())
}

/// Graph6 imported and exported. All weights are 1.
fn graph6s(rows: &mut Rows) -> Outcome {
    let layouts = many_edges(Weights::Ones);
    let name = |call, edges| of_64_with(call, edges, Weights::Ones);
    for (edges, l) in layouts {
        rows.reading(
            &name("importing a graph6", edges),
            &graph6(&l),
            proved::import_graph6,
            expected::import_graph6,
        )?;
    }
    rows.reading(
        "importing a graph6 refused 21, a line end",
        &[graph6(&layout(64, 2016, Weights::Ones)), b"\n".to_vec()].concat(),
        proved::import_graph6,
        expected::import_graph6,
    )?;
    for (edges, l) in layouts {
        rows.writing::<GRAPH6_BYTES, _, _>(
            &name("exporting a graph6", edges),
            l,
            proved::export_graph6,
            calls::write_graph6,
        )?;
    }
    Ok(())
}

/// The crossings of every edge of 64 vertices.
fn edge_crossings(rows: &mut Rows) -> Outcome {
    for (edges, l) in many_edges(Weights::Any) {
        rows.writing::<MOST_EDGES, _, _>(
            &of_64("crossings of every edge", edges),
            l,
            proved::edge_crossings,
            calls::edge_crossings,
        )?;
    }
    Ok(())
}

/// Laying 64 vertices.
fn appending(rows: &mut Rows) -> Outcome {
    for (name, l) in laid(Weights::Any) {
        let lent = fields(&l);
        rows.two(
            &name,
            || proved::greedy_append(&lent, VERTEX),
            || calls::greedy_append(l, VERTEX),
        )?;
    }
    Ok(())
}

/// Sifting one of 64 vertices, and each.
fn sifting(rows: &mut Rows, weights: Weights) -> Outcome {
    for edges in SIFTED {
        let l = layout(64, edges, weights);
        let lent = fields(&l);
        let name = |call| of_64_with(call, edges, weights);
        rows.three(
            &name("sift"),
            || proved::sift(&lent, VERTEX),
            || baseline::sift(l, VERTEX),
            || calls::sift(l, VERTEX),
        )?;
        rows.three(
            &name("round"),
            || proved::sifting_round(&lent),
            || baseline::sifting_round(l),
            || calls::sifting_round(l),
        )?;
    }
    Ok(())
}

/// Settling 64 vertices.
fn settling(rows: &mut Rows) -> Outcome {
    for edges in SIFTED {
        let l = layout(64, edges, Weights::Any);
        let lent = fields(&l);
        rows.three(
            &of_64(&settle(), edges),
            || proved::converge(&lent, LIMIT),
            || baseline::converge(l, LIMIT),
            || calls::converge(l, LIMIT),
        )?;
    }
    Ok(())
}

/// A list of calls, each on what the one before it left.
fn playing(rows: &mut Rows) -> Outcome {
    let list = lists::mixed(1, CALLS);
    let numbers = list.as_flattened();
    rows.two(
        "1000 mixed calls from the empty layout",
        || into_table(|table| proved::play(Start::Empty, numbers, table)),
        || into_table(|table| expected::play(Start::Empty, numbers, table)),
    )
}

/// With a buffer of so many elements.
fn into_buffer<const LENGTH: usize, T: Copy + Default, A>(
    write: impl Fn(&mut [T]) -> A,
) -> (A, [T; LENGTH]) {
    let mut buffer = [T::default(); LENGTH];
    (write(&mut buffer), buffer)
}

/// With a table for the answers of the list.
fn into_table<A>(play: impl Fn(&mut [u64]) -> A) -> (A, Vec<u64>) {
    let mut table = vec![0; ANSWER_NUMBERS * CALLS];
    (play(&mut table), table)
}

fn refused(rows: &mut Rows) -> Outcome {
    let l = layout(64, 2016, Weights::Any);
    let mut link = |name: &str, l: Layout, (a, b): (u64, u64), weight: u8| {
        let lent = fields(&l);
        rows.two(
            &format!("link refused {name}"),
            || proved::add_edge(&lent, a, b, weight),
            || calls::add_edge(l, a, b, weight),
        )
    };
    link("12, 64 vertices, 2016 edges", l, (0, 64), WEIGHT)?;
    link("14, 64 vertices, 2016 edges", l, (0, 1), WEIGHT)?;
    let fewer = layout(64, 2015, Weights::Any);
    let [missing, _] = ends(&fewer);
    link("25, 64 vertices, 2015 edges", fewer, missing, 0)?;
    let mut last = l;
    last.adjacency[63] |= 1 << 63;
    link("11, the last vertex joined to itself", last, (0, 1), WEIGHT)?;
    let mut last = l;
    last.weights[63][62] ^= 128;
    link("11, the last weight not both ways", last, (0, 1), WEIGHT)?;
    link("11, n is 65", Layout { n: 65, ..l }, (0, 1), WEIGHT)
}
