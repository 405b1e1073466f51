//! The two programs, run as such.

use crate::bench_lines::{EXAMPLE, EXPECTED};
use std::io::Write;
use std::process::{Command, Stdio};

fn run(program: &str, input: &[u8]) -> String {
    let mut child = Command::new(program)
        .stdin(Stdio::piped())
        .stdout(Stdio::piped())
        .spawn()
        .expect("the program starts");
    child
        .stdin
        .take()
        .expect("a pipe")
        .write_all(input)
        .expect("input taken");
    let output = child.wait_with_output().expect("the program ends");
    assert!(output.status.success());
    String::from_utf8(output.stdout).expect("plain text")
}

#[test]
fn bench_program_prints_the_example() {
    assert_eq!(
        run(env!("CARGO_BIN_EXE_independent-bench"), EXAMPLE.as_bytes()),
        EXPECTED
    );
    assert_eq!(run(env!("CARGO_BIN_EXE_independent-bench"), b""), "");
}

#[test]
fn check_program_prints_high_digit_first() {
    let input = b"D20C00410000\n\nD20400490000\n010000490000\n0\nd2\n01";
    let expected = "6752\n0000\n6432\n07D0\n-\n-\nC0C1\n";
    assert_eq!(
        run(env!("CARGO_BIN_EXE_independent-check"), input),
        expected
    );
}
