//! Requests wished of a master: mostly figures that make one, else some that make none.

use super::event::Call;
use super::raw::header::{POLL_FRAME, POLL_ROOM};
use super::raw::Figures;
use super::twin::LENT;
use crate::rng::Rng;
use crate::shapes;

/// The most data characters of a request.
const MOST: usize = POLL_FRAME - 8;

/// Kinds of requests: a name, function and commands, whether to all units, and the numbers that a reply to it can be read as, besides the
/// refusals of all.
pub type Kind = (&'static str, u8, &'static [u8], bool, &'static [u8]);

#[rustfmt::skip]
pub const KINDS: [Kind; 17] = [
    ("00", 0x00, &[], false, &[0, 7]),
    ("0A", 0x0A, &[], false, &[0, 6, 7]),
    ("03/80", 0x03, &[0x80], false, &[0, 6, 7]),
    ("03/00", 0x03, &[0x00], false, &[0, 6, 7]),
    ("04", 0x04, &[], false, &[0, 6, 7]),
    ("10/1x", 0x10, &[0x10, 0x11], false, &[0, 6, 7]),
    ("10/20", 0x10, &[0x20], false, &[0, 6, 7]),
    ("10/21", 0x10, &[0x21], false, &[7]),
    ("20/00", 0x20, &[0x00], false, &[0, 7]),
    ("20/11", 0x20, &[0x11], false, &[0, 6, 7]),
    ("20/30", 0x20, &[0x30], false, &[7]),
    ("20/31", 0x20, &[0x31], false, &[0, 6, 7]),
    ("20/38", 0x20, &[0x38], false, &[0, 6, 7]),
    ("28/30", 0x28, &[0x30], false, &[0, 6, 7]),
    ("28/31", 0x28, &[0x31], false, &[0, 7]),
    ("20/11 all", 0x20, &[0x11], true, &[]),
    ("20/38 all", 0x20, &[0x38], true, &[]),
];

pub const HISTORY: usize = 4;

/// The kind that figures are of.
pub fn kind_of(all: bool, function: u8, command: u8) -> Option<usize> {
    KINDS.iter().position(|(_, f, commands, to_all, _)| {
        *f == function && *to_all == all && (commands.is_empty() || commands.contains(&command))
    })
}

/// A wish: often one of history, and then mostly of a file that the unit has.
pub fn ask(rng: &mut Rng, files: &[u8]) -> Call {
    let kind = match rng.below(10) {
        0..4 => HISTORY,
        _ => rng.below(KINDS.len()),
    };
    let mut wish = good(rng, kind);
    if let (HISTORY, Some(file), true) = (kind, rng.pick_any(files), rng.percent(80)) {
        wish.command = wish.command & 32 | file;
    }
    let any = rng.between(POLL_ROOM, 100_000) as u64;
    let mut room = rng.pick(&[POLL_ROOM as u64, any, any, u64::MAX]);
    let mut length = rng.between(POLL_FRAME, LENT);
    match rng.below(100) {
        0..8 => bad(rng, &mut wish),
        8..12 => wish.body = resized(rng, &wish.body),
        12..14 => wish.all = rng.pick(&[1, 2, 255]),
        14..17 => room = rng.pick(&[0, 1, POLL_ROOM as u64 - 1]),
        17..20 => length = rng.pick(&[0, 1, 8, POLL_FRAME - 1]),
        20 => (wish.function, wish.command) = (rng.byte(), rng.byte()),
        _ => {}
    }
    Call::Ask { wish, room, length }
}

/// Figures that make a request of this kind.
pub fn good(rng: &mut Rng, kind: usize) -> Figures {
    let (name, function, commands, all, _) = KINDS[kind];
    let (command, body) = match name {
        "00" => (rng.byte() & 0x4D, vec![]),
        "0A" => (0x40 + rng.between(1, 15) as u8, vec![]),
        "04" => (rng.below(64) as u8, vec![]),
        _ => (rng.pick(commands), body(rng, name)),
    };
    let all = if all { rng.pick(&[1, 1, 2, 255]) } else { 0 };
    Figures {
        all,
        function,
        command,
        body,
    }
}

fn body(rng: &mut Rng, name: &str) -> Vec<u8> {
    match name {
        "03/00" => numbers(rng),
        "10/1x" => vec![rng.byte()],
        "20/11" | "20/11 all" => {
            let any = rng.byte();
            vec![rng.pick(&[0x40, 0x5F, 0x40 + any % 32, 0x3F, 0x60, any])]
        }
        "20/30" => part(rng),
        "20/31" => {
            let many = many(rng);
            rng.bytes(many)
        }
        "20/38" | "20/38 all" => shapes::clock(rng).characters().to_vec(),
        "28/30" => {
            let mut body = part(rng);
            let any = rng.byte();
            body.push(rng.pick(&[0, 1, 2, 16, 255, any]));
            body
        }
        _ => vec![],
    }
}

fn many(rng: &mut Rng) -> usize {
    let any = rng.between(1, MOST);
    rng.pick(&[1, 2, 5, any, 101, 102, 103, MOST])
}

/// Numbers of calculations: some named more than once, some that no unit has.
fn numbers(rng: &mut Rng) -> Vec<u8> {
    let (many, few, over) = (many(rng), rng.flip(), rng.percent(20));
    let one = |rng: &mut Rng| match rng.below(20) {
        0 if over => rng.pick(&[0x80, 0xFF]),
        _ if few => rng.pick(&[0, 1, 7, 0x7F]),
        _ => rng.below(128) as u8,
    };
    (0..many).map(|_| one(rng)).collect()
}

/// Bias and ordinal: often at a block's start or about its end.
fn part(rng: &mut Rng) -> Vec<u8> {
    let (any, word) = (rng.byte(), rng.word());
    let ordinal = rng.pick(&[0x00, 0x03, 0x06, 0x06, 0x0B, 0x05, any]);
    let bias = rng.pick(&[
        0, 0, 1, 15, 16, 240, 255, 256, 257, 496, 511, 512, 0xFFFF, word,
    ]);
    let [low, high] = bias.to_le_bytes();
    vec![low, high, ordinal]
}

/// Figures that make no request, by the command or the data.
fn bad(rng: &mut Rng, wish: &mut Figures) {
    let any = rng.byte();
    match wish.function {
        0x00 => wish.command |= rng.pick(&[2, 16, 32, 128]),
        0x0A => wish.command = rng.pick(&[0, 0x40, 0x50, 0x3F, any]),
        0x04 => wish.command = rng.pick(&[64, 65, 0x80, 0xFF, any]),
        0x20 if wish.command == 0x38 => {
            let at = rng.below(wish.body.len());
            wish.body[at] = rng.pick(&[0x0A, 0x24, 0x60, 0x67, 0xFF, any]);
        }
        _ => wish.body = resized(rng, &wish.body),
    }
}

/// Data of another length.
fn resized(rng: &mut Rng, body: &[u8]) -> Vec<u8> {
    let many = rng.pick(&[0, 1, body.len() + 1, MOST + 1, 200]);
    let mut made = rng.bytes(many);
    let same = many.min(body.len());
    made[..same].copy_from_slice(&body[..same]);
    made
}
