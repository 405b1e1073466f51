//! Prints the check word of every line of capital hex; a dash for a line that is none.

use independent::check::check_step;
use independent::hex;
use std::io::{self, BufRead, BufWriter, Write};

fn main() -> io::Result<()> {
    let mut input = io::stdin().lock();
    let mut output = BufWriter::new(io::stdout().lock());
    let mut line = Vec::new();
    while input.read_until(b'\n', &mut line)? > 0 {
        match check_of(line.strip_suffix(b"\n").unwrap_or(&line)) {
            Some(word) => writeln!(output, "{word:04X}")?,
            None => writeln!(output, "-")?,
        }
        line.clear();
    }
    output.flush()
}

/// The check word of the bytes that the digits give.
fn check_of(text: &[u8]) -> Option<u16> {
    text.chunks(2)
        .try_fold(0, |word, pair| Some(check_step(word, hex::byte(pair)?)))
}
