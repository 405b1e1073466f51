//! Bench lines (readings 113 to 122).

use independent::bench::{bench, bench_config, read_line, Line};
use std::io::{BufReader, Read};

pub const EXAMPLE: &str = "R\tD20C004100005367\nR\tD20C004100005267\nR\t010000490000D007\n";
pub const EXPECTED: &str = "1\t2\t-\n2\t0\tD20C0080560400000000005CA5\n3\t3\t-\n";

fn run(input: &[u8]) -> String {
    let mut output = Vec::new();
    bench(input, &mut output).unwrap();
    String::from_utf8(output).unwrap()
}

/// What a single line prints after its number.
fn one(line: &[u8]) -> String {
    let printed = run(line);
    printed
        .strip_prefix("1\t")
        .and_then(|rest| rest.strip_suffix('\n'))
        .unwrap()
        .to_string()
}

#[test]
fn example_lines_of_document_01() {
    assert_eq!(run(EXAMPLE.as_bytes()), EXPECTED);
}

#[test]
fn stretch_of_no_bytes_is_outcome_1() {
    assert_eq!(one(b"R\t"), "1\t-");
}

#[test]
fn letter_alone_and_time_without_digits_are_of_another_form() {
    for line in [
        &b"R"[..],
        b"T",
        b"T\t",
        b"\t",
        b"X\t00",
        b"RT\t00",
        b"r\t00",
        b"t\t1",
    ] {
        assert_eq!(one(line), "-\t-");
    }
}

#[test]
fn time_goes_to_the_largest_32_bit_number() {
    assert_eq!(one(b"T\t0"), "0\t-");
    assert_eq!(one(b"T\t4294967295"), "0\t-");
    assert_eq!(one(b"T\t4294967296"), "-\t-");
    assert_eq!(one(b"T\t9999999999999999999999999"), "-\t-");
    let long = [b"T\t".as_slice(), &[b'9'; 1998]].concat();
    assert_eq!(one(&long), "-\t-");
}

#[test]
fn refused_time_does_not_pass() {
    let printed = run(b"T\t4294967296\nR\tD20C004100005267\n");
    assert!(
        printed.starts_with("1\t-\t-\n2\t0\tD20C008054"),
        "{printed}"
    );
}

#[test]
fn leading_zeros_of_a_time_are_taken() {
    assert_eq!(read_line(b"T\t007", &mut []), Line::Time(7));
    let long = [b"T\t".as_slice(), &[b'0'; 1997], b"7"].concat();
    assert_eq!(read_line(&long, &mut []), Line::Time(7));
    assert_eq!(one(&long), "0\t-");
}

#[test]
fn signs_spaces_and_other_digits_are_of_another_form() {
    for line in [
        "T\t+1", "T\t-1", "T\t 1", "T\t1 ", "T\t1.0", "T\t0x1", "T\tA", "T 1", "T\t1\t",
    ] {
        assert_eq!(one(line.as_bytes()), "-\t-", "{line}");
    }
    for line in [
        "R\td2", "R\t0", "R\t000", "R\t0 0", "R\t00 ", " R\t00", "R 00", "R\t00\t", "R\t0G",
    ] {
        assert_eq!(one(line.as_bytes()), "-\t-", "{line}");
    }
    assert_eq!(one(b"R\t00\t00"), "-\t-");
    assert_eq!(one(b"R\t\t00"), "-\t-");
}

#[test]
fn carriage_return_is_an_ordinary_character() {
    assert_eq!(
        run(b"T\t1\r\nR\t00\r\nT\t1\n"),
        "1\t-\t-\n2\t-\t-\n3\t0\t-\n"
    );
}

#[test]
fn line_of_2000_is_read_and_of_2001_is_not() {
    let mut line = b"R\t".to_vec();
    line.extend_from_slice(&[b'0'; 1998]);
    assert_eq!((line.len(), one(&line)), (2000, "1\t-".to_string()));
    line.push(b'0');
    assert_eq!(one(&line), "-\t-");
    line.push(b'0');
    assert_eq!(one(&line), "-\t-");
    line.extend_from_slice(&[b'0'; 100_000]);
    assert_eq!(
        run(&[&line[..], b"\nT\t1\n"].concat()),
        "1\t-\t-\n2\t0\t-\n"
    );
}

#[test]
fn empty_lines_are_numbered_and_a_last_line_needs_no_end() {
    assert_eq!(run(b""), "");
    assert_eq!(run(b"\n"), "1\t-\t-\n");
    assert_eq!(run(b"\n\nT\t1"), "1\t-\t-\n2\t-\t-\n3\t0\t-\n");
    assert_eq!(run(b"T\t1\n"), "1\t0\t-\n");
}

#[test]
fn bytes_that_are_no_text_do_not_stop_the_bench() {
    assert_eq!(
        run(b"\xFF\x00\nR\t\xFF\xFF\nT\t\x00\nT\t2\n"),
        "1\t-\t-\n2\t-\t-\n3\t-\t-\n4\t0\t-\n"
    );
}

#[test]
fn bench_unit_has_two_inputs_and_nothing_else() {
    let config = bench_config();
    let inputs: Vec<usize> = (0..256).filter(|&number| config.inputs[number]).collect();
    assert_eq!((config.unit, inputs), (1234, vec![0x30, 0x40]));
    assert!(!config.outputs.contains(&true) && !config.calculations.contains(&true));
    assert_eq!((config.files, config.parameter_length), ([None; 32], 0));
    assert!(config.valid());
}

#[test]
fn time_passes_between_stretches() {
    let asked = b"T\t60000\nR\tD20C004100005267\nR\tD20C004100005267\n";
    let printed = run(asked);
    let ports: Vec<&str> = printed.lines().skip(1).map(|line| &line[12..14]).collect();
    assert_eq!(ports, ["55", "54"]);
}

#[test]
fn reading_does_not_depend_on_how_the_input_is_cut() {
    let mut long = EXAMPLE.as_bytes().to_vec();
    long.extend_from_slice(&[b'R'; 2001]);
    long.extend_from_slice(b"\nT\t5\n");
    for room in [1, 2, 3, 7, 1999, 2000, 2001, 4096] {
        let mut output = Vec::new();
        bench(BufReader::with_capacity(room, &long[..]), &mut output).unwrap();
        assert_eq!(
            String::from_utf8(output).unwrap(),
            format!("{EXPECTED}4\t-\t-\n5\t0\t-\n")
        );
    }
}

#[test]
fn endless_line_is_one_line() {
    let input = std::io::repeat(b'R').take(50_000_000);
    let mut output = Vec::new();
    bench(BufReader::new(input), &mut output).unwrap();
    assert_eq!(output, b"1\t-\t-\n");
}
