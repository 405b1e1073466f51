//! Capital hexadecimal, read and written.

use std::io::{self, Write};

const DIGITS: &[u8; 16] = b"0123456789ABCDEF";

/// The value of one capital hexadecimal digit.
pub fn digit(character: u8) -> Option<u8> {
    match character {
        b'0'..=b'9' => Some(character - b'0'),
        b'A'..=b'F' => Some(character - b'A' + 10),
        _ => None,
    }
}

/// The byte that two capital hexadecimal digits give.
pub fn byte(pair: &[u8]) -> Option<u8> {
    match pair {
        [high, low] => Some(digit(*high)? << 4 | digit(*low)?),
        _ => None,
    }
}

/// Reads digit pairs into the front of `into`; None if they are no such text or do not fit.
pub fn read<'a>(text: &[u8], into: &'a mut [u8]) -> Option<&'a [u8]> {
    let length = text.len() / 2;
    if !text.len().is_multiple_of(2) || length > into.len() {
        return None;
    }
    for (place, pair) in into.iter_mut().zip(text.chunks_exact(2)) {
        *place = byte(pair)?;
    }
    Some(&into[..length])
}

/// Writes the bytes as digit pairs.
pub fn write(output: &mut impl Write, bytes: &[u8]) -> io::Result<()> {
    for &byte in bytes {
        let pair = [
            DIGITS[usize::from(byte >> 4)],
            DIGITS[usize::from(byte & 0x0F)],
        ];
        output.write_all(&pair)?;
    }
    Ok(())
}
