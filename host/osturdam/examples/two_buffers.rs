//! Head and data of a frame lie in two buffers: the check of the data goes on from that of the head, and is the check of the two joined.
//! `examples/c/two_buffers.c` is the same in C.

use osturdam::check;

fn main() {
    let head = [0xD2, 0x0C, 0x28, 0x41, 0x09, 0x00];
    let data = b"123456789";
    let in_turn = check(check(0, &head), data);
    println!("head, then data: {in_turn:04X}");

    let joined = [head.as_slice(), data].concat();
    println!("head and data joined: {:04X}", check(0, &joined));

    // low character first, as they are sent
    let behind = in_turn.to_le_bytes();
    println!("with the check characters: {:04X}", check(in_turn, &behind));
}
