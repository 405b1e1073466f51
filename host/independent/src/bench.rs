//! The bench: lines of stretches and elapsed times in, outcomes and replies out.

use crate::config::Config;
use crate::frame::Reply;
use crate::state::State;
use crate::{hex, unit};
use std::io::{self, BufRead, Write};

/// The longest line that is read, without its line end.
pub const LONGEST_LINE: usize = 2_000;
/// The most bytes a stretch of such a line can have.
const LONGEST_STRETCH: usize = (LONGEST_LINE - 2) / 2;

/// What a bench line asks for.
#[derive(Clone, Copy, Debug, PartialEq, Eq)]
pub enum Line<'a> {
    /// R: these bytes as a stretch.
    Stretch(&'a [u8]),
    /// T: these milliseconds.
    Time(u32),
    /// Neither of the two.
    Other,
}

/// Reads one line; the bytes of a stretch are put into `room`.
pub fn read_line<'a>(line: &[u8], room: &'a mut [u8]) -> Line<'a> {
    match line {
        [b'R', b'\t', text @ ..] => hex::read(text, room).map_or(Line::Other, Line::Stretch),
        [b'T', b'\t', text @ ..] => milliseconds(text).map_or(Line::Other, Line::Time),
        _ => Line::Other,
    }
}

/// A decimal number of any number of digits that fits 32 bits.
fn milliseconds(text: &[u8]) -> Option<u32> {
    if text.is_empty() {
        return None;
    }
    text.iter().try_fold(0u32, |number, &character| {
        let digit = character
            .is_ascii_digit()
            .then(|| u32::from(character - b'0'))?;
        number.checked_mul(10)?.checked_add(digit)
    })
}

/// One line of the input; of a longer one only its front is kept.
struct LineRoom {
    bytes: [u8; LONGEST_LINE],
    length: usize,
    over: bool,
}

impl LineRoom {
    fn new() -> Self {
        LineRoom {
            bytes: [0; LONGEST_LINE],
            length: 0,
            over: false,
        }
    }

    fn add(&mut self, more: &[u8]) {
        let taken = more.len().min(LONGEST_LINE - self.length);
        self.bytes[self.length..self.length + taken].copy_from_slice(&more[..taken]);
        self.length += taken;
        self.over |= taken < more.len();
    }

    /// Takes the next line from the input; false if there is none.
    fn fill(&mut self, input: &mut impl BufRead) -> io::Result<bool> {
        self.length = 0;
        self.over = false;
        loop {
            let waiting = match input.fill_buf() {
                Err(error) if error.kind() == io::ErrorKind::Interrupted => continue,
                waiting => waiting?,
            };
            if waiting.is_empty() {
                // A last line without a line end counts if it has a character.
                return Ok(self.length > 0);
            }
            let end = waiting.iter().position(|&byte| byte == b'\n');
            let taken = end.unwrap_or(waiting.len());
            self.add(&waiting[..taken]);
            input.consume(taken + usize::from(end.is_some()));
            if end.is_some() {
                return Ok(true);
            }
        }
    }
}

/// The configuration of the bench unit.
pub fn bench_config() -> Config {
    let mut config = Config::new(1234);
    config.inputs[0x30] = true;
    config.inputs[0x40] = true;
    config
}

/// Runs a fresh bench unit over all lines of the input, in memory that does not grow.
pub fn bench(mut input: impl BufRead, mut output: impl Write) -> io::Result<()> {
    let config = bench_config();
    let mut state = State::fresh();
    let mut line = LineRoom::new();
    let mut number: u64 = 0;
    while line.fill(&mut input)? {
        number += 1;
        run_line(&config, &mut state, &line, number, &mut output)?;
    }
    output.flush()
}

fn run_line(
    config: &Config,
    state: &mut State,
    line: &LineRoom,
    number: u64,
    output: &mut impl Write,
) -> io::Result<()> {
    let mut room = [0; LONGEST_STRETCH];
    let read = match line.over {
        true => Line::Other,
        false => read_line(&line.bytes[..line.length], &mut room),
    };
    match read {
        Line::Other => writeln!(output, "{number}\t-\t-"),
        Line::Time(ms) => {
            let outcome = unit::elapsed(config, state, &[], ms);
            writeln!(output, "{number}\t{outcome}\t-")
        }
        Line::Stretch(bytes) => {
            let mut buffer = [0; Reply::LONGEST];
            // A bench line names no lag.
            let answer = unit::stretch(config, state, &mut [], &mut buffer, bytes, 0);
            write!(output, "{number}\t{}\t", answer.outcome)?;
            write_reply(output, &buffer[..answer.sent])
        }
    }
}

/// The last column of a printed line, with its line end.
fn write_reply(output: &mut impl Write, reply: &[u8]) -> io::Result<()> {
    match reply {
        [] => output.write_all(b"-\n"),
        _ => {
            hex::write(output, reply)?;
            output.write_all(b"\n")
        }
    }
}
