//! The check word, by plain division bit by bit.

/// x^16+x^15+x^2+1 with its bits turned round, as the low bit goes first.
const POLYNOMIAL: u16 = 0xA001;

/// The check word of all the bytes, start 0, low bit of each byte first.
pub fn check_word(bytes: &[u8]) -> u16 {
    bytes.iter().fold(0, |word, &byte| check_step(word, byte))
}

/// The check word after one more byte.
pub fn check_step(word: u16, byte: u8) -> u16 {
    let mut rest = word ^ u16::from(byte);
    for _ in 0..8 {
        let divides = rest & 1 == 1;
        rest >>= 1;
        if divides {
            rest ^= POLYNOMIAL;
        }
    }
    rest
}
