//! Prints what crosses the boundary as Rust sees it.

fn main() {
    print!("{}", rostulanda::boundary::text());
}
