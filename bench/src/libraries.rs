//! A library that is loaded, with the functions that it declares.

use layouts::Weights;
use rostulanda::ffi::{self, EdgesCounted, Written};
use rostulanda::{Fields, MOST_EDGES, PLACES, WRITTEN_CHART_BYTES};
use second::layout::Layout;
use second::sifting::{Convergence, Round, Sift};

use crate::proved::{lend, Lent, Report, Told};
use crate::rows::{repeated, Repeat};
use crate::shared::Shared;

/// What a library declares, where libraries differ.
pub trait Declared: Sized + 'static {
    type Fields: Lent;
    type Tally: Report<Value = u64>;
    type Sifted: Report<Value = Sift>;
    type Round: Report<Value = Round>;
    type Convergence: Report<Value = Convergence>;
    type Counted: Report<Value = u64>;
    /// The crossings of an edge.
    type Crossings: Copy + Default;
    /// The type of its function that links.
    type Link;

    /// The weights that its layouts can have.
    const WEIGHTS: Weights;

    /// Links two vertices by an edge of weight 1.
    fn link(by: &Library<Self>, l: &mut Self::Fields, a: usize, b: usize) -> u8;
}

/// The declarations as they are now.
pub struct Now;

impl Declared for Now {
    type Fields = Fields;
    type Tally = ffi::Tally;
    type Sifted = ffi::Sifted;
    type Round = ffi::Round;
    type Convergence = ffi::Convergence;
    type Counted = ffi::Counted;
    type Crossings = u64;
    type Link = extern "C" fn(&mut Fields, usize, usize, u8) -> u8;

    const WEIGHTS: Weights = Weights::Any;

    fn link(by: &Library<Now>, l: &mut Fields, a: usize, b: usize) -> u8 {
        (by.link)(l, a, b, 1)
    }
}

/// The functions of a library.
pub struct Library<D: Declared> {
    pub link: D::Link,
    unlink: extern "C" fn(&mut D::Fields, usize, usize) -> u8,
    move_after: extern "C" fn(&mut D::Fields, usize, usize) -> u8,
    lay: extern "C" fn(&mut D::Fields, usize) -> D::Tally,
    sift: extern "C" fn(&mut D::Fields, usize) -> D::Sifted,
    round: extern "C" fn(&mut D::Fields) -> D::Round,
    settle: extern "C" fn(&mut D::Fields, u32) -> D::Convergence,
    count: extern "C" fn(&D::Fields) -> D::Counted,
    order: unsafe extern "C" fn(&D::Fields, *mut u8, usize) -> u8,
    read_chart: unsafe extern "C" fn(&mut D::Fields, *const u8, usize) -> u8,
    write_chart: Writer<D>,
    export_graph6: Writer<D>,
    edge_crossings: unsafe extern "C" fn(&D::Fields, *mut D::Crossings, usize) -> EdgesCounted,
}

/// A call that writes a layout into a lent buffer.
type Writer<D> = unsafe extern "C" fn(&<D as Declared>::Fields, *mut u8, usize) -> Written;

/// The types above are those of the Rust host, or this does not compile.
const _: Library<Now> = Library {
    link: ffi::rl_add_edge,
    unlink: ffi::rl_remove_edge,
    move_after: ffi::rl_move_after,
    lay: ffi::rl_greedy_append,
    sift: ffi::rl_sift,
    round: ffi::rl_sifting_round,
    settle: ffi::rl_converge,
    count: ffi::rl_count,
    order: ffi::rl_order,
    read_chart: ffi::rl_read_chart,
    write_chart: ffi::rl_write_chart,
    export_graph6: ffi::rl_export_graph6,
    edge_crossings: ffi::rl_edge_crossings,
};

/// A call, with what it names.
#[derive(Clone, Copy)]
pub enum Call<'a> {
    Link(usize, usize),
    Unlink(usize, usize),
    Move(usize, usize),
    Count,
    Order,
    ReadChart(&'a [u8]),
    WriteChart,
    ExportGraph6,
    EdgeCrossings,
    Lay(usize),
    Sift(usize),
    Round,
    Settle(u32),
}

/// A call by a library: what it answers, told to be compared, and how it is made again.
pub struct Side<'a> {
    pub answer: String,
    pub repeat: Repeat<'a>,
}

impl<D: Declared> Library<D> {
    pub fn load(path: &str) -> Result<Library<D>, String> {
        let shared = Shared::load(path)?;
        // SAFETY: each is a pointer to a function. That the library has it with
        // this type is asked of the commit (bench/README.md).
        unsafe {
            Ok(Library {
                link: shared.function(c"rl_add_edge")?,
                unlink: shared.function(c"rl_remove_edge")?,
                move_after: shared.function(c"rl_move_after")?,
                lay: shared.function(c"rl_greedy_append")?,
                sift: shared.function(c"rl_sift")?,
                round: shared.function(c"rl_sifting_round")?,
                settle: shared.function(c"rl_converge")?,
                count: shared.function(c"rl_count")?,
                order: shared.function(c"rl_order")?,
                read_chart: shared.function(c"rl_read_chart")?,
                write_chart: shared.function(c"rl_write_chart")?,
                export_graph6: shared.function(c"rl_export_graph6")?,
                edge_crossings: shared.function(c"rl_edge_crossings")?,
            })
        }
    }

    /// A call on a layout.
    pub fn side<'a>(&'a self, l: &Layout, call: Call<'a>) -> Side<'a> {
        let l = D::Fields::of(l);
        match call {
            Call::Link(a, b) => side(l, move |l| D::link(self, l, a, b)),
            Call::Unlink(a, b) => side(l, move |l| (self.unlink)(l, a, b)),
            Call::Move(a, b) => side(l, move |l| (self.move_after)(l, a, b)),
            Call::Count => side(l, |l| (self.count)(l)),
            Call::Order => side(l, |l| self.order(l)),
            Call::ReadChart(chart) => side(l, |l| self.read_chart(l, chart)),
            Call::WriteChart => side(l, |l| self.written(self.write_chart, l)),
            Call::ExportGraph6 => side(l, |l| self.written(self.export_graph6, l)),
            Call::EdgeCrossings => side(l, |l| self.edge_crossings(l)),
            Call::Lay(start) => side(l, move |l| (self.lay)(l, start)),
            Call::Sift(u) => side(l, move |l| (self.sift)(l, u)),
            Call::Round => side(l, |l| (self.round)(l)),
            Call::Settle(limit) => side(l, move |l| (self.settle)(l, limit)),
        }
    }

    /// Writes the order into a buffer that has room for any.
    fn order(&self, l: &D::Fields) -> u8 {
        let mut buffer = [0; PLACES];
        // SAFETY: the buffer is there as long as the call, and nothing else uses it.
        unsafe { (self.order)(l, buffer.as_mut_ptr(), buffer.len()) }
    }

    fn read_chart(&self, l: &mut D::Fields, chart: &[u8]) -> u8 {
        // SAFETY: the bytes are there as long as the call.
        unsafe { (self.read_chart)(l, chart.as_ptr(), chart.len()) }
    }

    /// Writes into a buffer that has room for any chart.
    fn written(&self, writer: Writer<D>, l: &D::Fields) -> Written {
        let mut buffer = [0; WRITTEN_CHART_BYTES];
        // SAFETY: the buffer is there as long as the call, and nothing else uses it.
        unsafe { writer(l, buffer.as_mut_ptr(), buffer.len()) }
    }

    fn edge_crossings(&self, l: &D::Fields) -> EdgesCounted {
        let mut table = [D::Crossings::default(); MOST_EDGES];
        // SAFETY: the table is there as long as the call, and nothing else uses it.
        unsafe { (self.edge_crossings)(l, table.as_mut_ptr(), table.len()) }
    }
}

/// A call on a fresh copy of a layout each time.
fn side<'a, L: Lent + 'a, R: Report>(l: L, call: impl Fn(&mut L) -> R + 'a) -> Side<'a> {
    let made = move || lend(&l, &call);
    Side {
        answer: format!("{:?}", made().told()),
        repeat: repeated(made),
    }
}
