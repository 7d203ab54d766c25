//! Reads a chart from the file named, or from standard input, and prints its
//! row as the program ringlist does, with its limit. Then adds a vertex, joins
//! it to vertex 0, and prints the row of the layout that this leads to, without
//! a limit: as many rounds may be run as are known to be enough. Status 1:
//! refused. Status 2: what cannot be read or written, told on standard error.

use std::fs::File;
use std::io::{self, Read, Write};
use std::path::Path;
use std::process::ExitCode;

use rostulanda::{Layout, Refusal};

/// The limit that the program ringlist takes.
const LIMIT: u32 = 50;

/// One byte more than a chart may have, to tell that it is too long.
const READ_BYTES: u64 = 8193;

fn main() -> ExitCode {
    let name = std::env::args_os().nth(1);
    let read = match &name {
        Some(name) => read_file(Path::new(name)),
        // Where standard input is closed, Rust reads no bytes from it.
        None => read_chart(io::stdin()),
    };
    let chart = match read {
        Ok(chart) => chart,
        Err(error) => {
            let name = name.unwrap_or("standard input".into());
            return failed(&name.to_string_lossy(), &error);
        }
    };
    let mut text = String::new();
    let rows = put_rows(&chart, &mut text);
    if let Err(refusal) = rows {
        text += &format!("refused {}\n", refusal.code());
        eprintln!("{refusal}");
    }
    let mut out = io::stdout();
    let written = out.write_all(text.as_bytes()).and_then(|()| out.flush());
    match (written, rows) {
        (Err(error), _) => failed("standard output", &error),
        (Ok(()), Err(_)) => ExitCode::FAILURE,
        (Ok(()), Ok(())) => ExitCode::SUCCESS,
    }
}

fn read_file(name: &Path) -> io::Result<Vec<u8>> {
    read_chart(File::open(name)?)
}

fn read_chart(from: impl Read) -> io::Result<Vec<u8>> {
    let mut chart = Vec::new();
    from.take(READ_BYTES).read_to_end(&mut chart)?;
    Ok(chart)
}

/// Says what could not be read or written.
fn failed(name: &str, error: &io::Error) -> ExitCode {
    eprintln!("{name}: {error}");
    ExitCode::from(2)
}

fn put_rows(chart: &[u8], text: &mut String) -> Result<(), Refusal> {
    let mut layout = Layout::from_chart(chart)?;
    *text += &format!("{}\n", layout.row(LIMIT)?);
    let added = layout.add_vertex()?;
    if added != 0 {
        layout.add_edge(added, 0)?;
    }
    *text += &layout.row_without_limit()?.to_string();
    Ok(())
}
