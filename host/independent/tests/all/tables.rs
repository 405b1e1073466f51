//! Function 0Ah over the table area (readings 71 to 81).

use crate::rig::*;

/// A unit with all inputs equipped, word = number, and this table area.
fn with_tables(tables: &[u8]) -> Rig {
    let mut rig = Rig::full();
    for number in 0..256 {
        rig.config.inputs[number] = !matches!(number, 0x20..=0x2F | 0x60..=0x7F);
        rig.state.words[number] = number as u16;
    }
    rig.state.fixed.block_03[..tables.len()].copy_from_slice(tables);
    rig
}

/// The low characters of the words that a table answers, or the outcome.
fn scan(rig: &mut Rig, table: u8) -> Result<Vec<u8>, u8> {
    let got = rig.send(1, 0x0A, 0x40 | table, &[]);
    match got.outcome {
        0 => Ok(got.data().iter().step_by(2).copied().collect()),
        outcome => {
            assert_eq!(got.data(), []);
            Err(outcome)
        }
    }
}

#[test]
fn only_commands_41h_to_4fh_are_known() {
    let mut rig = with_tables(&[0, 1, 0x30]);
    for command in 0..=255 {
        let known = (0x41..=0x4F).contains(&command);
        assert_eq!(rig.ask(1, 0x0A, command, &[1]), if known { 7 } else { 6 });
    }
}

#[test]
fn example_of_the_paper_in_its_order() {
    let mut tables = vec![0x00, 3, 0x86, 0x8A, 0x80, 0x00, 3, 0x31, 0x33, 0x32];
    for _ in 3..15 {
        tables.extend_from_slice(&[0x00, 1, 0x30]);
    }
    tables.extend_from_slice(&[0x21, 2, 0x40, 0x41]);
    let mut rig = with_tables(&tables);
    let expected = vec![0x31, 0x33, 0x32, 0x86, 0x8A, 0x80, 0x40, 0x41];
    assert_eq!(scan(&mut rig, 15), Ok(expected));
}

#[test]
fn table_without_numbers_is_present_and_only_00_00_ends_the_run() {
    let mut rig = with_tables(&[0x30, 0, 0x01, 0, 0x00, 1, 0x31, 0x00, 0x00, 0x00, 1, 0x32]);
    assert_eq!(scan(&mut rig, 1), Ok(vec![0x31]));
    assert_eq!(scan(&mut rig, 2), Ok(vec![]));
    assert_eq!(scan(&mut rig, 3), Ok(vec![0x31]));
    assert_eq!(scan(&mut rig, 4), Err(8));
    assert_eq!(scan(&mut rig, 5), Err(8));
}

#[test]
fn zeros_among_the_numbers_do_not_end_the_run() {
    let mut rig = with_tables(&[0x00, 3, 0x00, 0x00, 0x00, 0x00, 1, 0x33]);
    assert_eq!(scan(&mut rig, 1), Ok(vec![0, 0, 0]));
    assert_eq!(scan(&mut rig, 2), Ok(vec![0x33]));
}

#[test]
fn table_may_end_at_byte_256_but_not_past_it() {
    let mut rig = with_tables(&[0x00, 254]);
    assert_eq!(scan(&mut rig, 1).map(|words| words.len()), Ok(254));
    let mut rig = with_tables(&[0x00, 255]);
    assert_eq!(scan(&mut rig, 1), Err(8));
    let mut rig = with_tables(&[0x00, 1, 0x30, 0x00, 252, 0x00, 1, 0x31]);
    assert_eq!(scan(&mut rig, 1), Ok(vec![0x30]));
    assert_eq!(scan(&mut rig, 2), Err(8));
    assert_eq!(scan(&mut rig, 3), Err(8));
}

#[test]
fn one_byte_left_ends_the_run_and_two_may_be_a_table() {
    let mut rig = with_tables(&[0x00, 253]);
    rig.state.fixed.block_03[255] = 0x10;
    assert_eq!(scan(&mut rig, 2), Err(8));
    let mut rig = with_tables(&[0x00, 252]);
    rig.state.fixed.block_03[254] = 0x20;
    assert_eq!(scan(&mut rig, 2), Ok(vec![]));
    rig.state.fixed.block_03[254] = 0x00;
    assert_eq!(scan(&mut rig, 2), Err(8));
}

#[test]
fn sixteenth_table_is_not_judged() {
    let tables: Vec<u8> = (0..15)
        .flat_map(|_| [0x00, 1, 0x30])
        .chain([0xFF, 2, 0x20, 0x20])
        .collect();
    let mut rig = with_tables(&tables);
    for table in 1..=15 {
        assert_eq!(scan(&mut rig, table), Ok(vec![0x30]));
    }
}

#[test]
fn absent_table_or_absent_named_table_is_refused() {
    let mut rig = with_tables(&[0x30, 1, 0x30, 0x03, 1, 0x31]);
    for table in [1, 2, 3, 15] {
        assert_eq!(scan(&mut rig, table), Err(8));
    }
}

#[test]
fn nibbles_of_a_named_table_may_name_absent_ones() {
    let mut rig = with_tables(&[0x20, 1, 0x30, 0xFF, 1, 0x31]);
    assert_eq!(scan(&mut rig, 1), Ok(vec![0x31, 0x30]));
    assert_eq!(scan(&mut rig, 2), Err(8));
}

#[test]
fn table_may_name_itself_and_one_table_twice() {
    let mut rig = with_tables(&[0x11, 1, 0x30, 0x11, 1, 0x31, 0x30, 1, 0x32]);
    assert_eq!(scan(&mut rig, 1), Ok(vec![0x30, 0x30, 0x30]));
    assert_eq!(scan(&mut rig, 2), Ok(vec![0x30, 0x30, 0x31]));
    assert_eq!(scan(&mut rig, 3), Ok(vec![0x32, 0x32]));
}

#[test]
fn over_255_words_is_too_long_but_equipment_comes_first() {
    let mut tables = vec![0x11, 85];
    tables.extend_from_slice(&[0x30; 85]);
    let mut rig = with_tables(&tables);
    let got = rig.send(1, 0x0A, 0x41, &[]);
    assert_eq!((got.outcome, got.data().len()), (0, 510));
    // One number more: 86 of its own and twice the 85 of table 2.
    let own = [&[0x22, 86][..], &[0x30; 86]].concat();
    let second = [&[0x00, 85][..], &[0x30; 85]].concat();
    let mut rig = with_tables(&[own, second].concat());
    assert_eq!(scan(&mut rig, 1), Err(9));
    rig.state.fixed.block_03[87] = 0x20;
    assert_eq!(scan(&mut rig, 1), Err(8));
}

#[test]
fn equipment_of_every_part_is_judged() {
    for place in [2, 5, 8] {
        let mut tables = [0x23, 1, 0x30, 0x00, 1, 0x31, 0x00, 1, 0x32];
        tables[place] = 0x7F;
        let mut rig = with_tables(&tables);
        assert_eq!(scan(&mut rig, 1), Err(8));
    }
}

#[test]
fn numbers_of_other_tables_are_not_judged() {
    let mut rig = with_tables(&[0x00, 1, 0x30, 0x00, 1, 0x20]);
    assert_eq!(scan(&mut rig, 1), Ok(vec![0x30]));
    assert_eq!(scan(&mut rig, 2), Err(8));
}

#[test]
fn scan_of_a_fresh_unit_finds_no_table() {
    let mut rig = with_tables(&[]);
    for table in 1..=15 {
        assert_eq!(scan(&mut rig, table), Err(8));
    }
}
