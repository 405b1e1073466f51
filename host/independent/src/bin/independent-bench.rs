//! The bench program: standard input to standard output.

use std::io::{self, BufWriter};

fn main() -> io::Result<()> {
    independent::bench::bench(io::stdin().lock(), BufWriter::new(io::stdout().lock()))
}
