// The plain table loop in Rust, for comparison: one character a turn, the table in read-only data.
#![no_std]
#![crate_type = "staticlib"]

static TABLE: [u16; 256] = table();

const fn table() -> [u16; 256] {
    let mut words = [0; 256];
    let mut k = 0;
    while k < 256 {
        let mut v = k as u16;
        let mut bit = 0;
        while bit < 8 {
            v = (v >> 1) ^ ((v & 1) * 0xA001);
            bit += 1;
        }
        words[k] = v;
        k += 1;
    }
    words
}

fn check(start: u16, s: &[u8]) -> u16 {
    let mut crc = start;
    for &c in s {
        crc = (crc >> 8) ^ TABLE[((crc ^ c as u16) & 0xff) as usize];
    }
    crc
}

// SAFETY: the caller hands over n characters at s.
#[no_mangle]
pub unsafe extern "C" fn rust_check_word(start: u16, s: *const u8, n: usize) -> u16 {
    check(start, core::slice::from_raw_parts(s, n))
}

#[panic_handler]
fn panic(_: &core::panic::PanicInfo) -> ! {
    loop {}
}
