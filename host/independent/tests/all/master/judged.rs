//! Answers and data that no unit could send (readings 1.8 and 1.9), against what units do send.

use super::*;
use independent::master::judge;
use independent::Config;
use std::collections::BTreeSet;

const NOP: u8 = 0x40;
const RST: u8 = 0x80;

/// What a unit of this configuration sends to the request: the NOP and RST bits, and the data.
fn sent(rig: &mut Rig, request: &Request) -> (u8, Vec<u8>) {
    let bytes = build(&mut fresh(), request, ROOM).expect("a frame");
    let got = rig.raw(&bytes);
    (got.heard().function & 0xC0, got.data().to_vec())
}

/// Asserts that the answer is believed, or is refused for its data.
fn judged(request: &Request, bits: u8, data: &[u8], good: bool) {
    let said = answer(request, bits, data);
    match good {
        true => assert!(said.is_ok(), "{request:?} {bits:02X} {data:02X?}"),
        false => assert_eq!(
            said,
            Err(Refusal::Data),
            "{request:?} {bits:02X} {data:02X?}"
        ),
    }
}

/// As `judged`, for normal replies.
fn normal(request: &Request, data: &[u8], good: bool) {
    judged(request, 0, data, good);
}

#[test]
fn each_request_has_its_kinds_of_answer() {
    // Without data: normal, NOP, RST.
    let kinds = [
        [true, false, true],
        [true, true, true],
        [true, true, true],
        [false, false, true],
        [false, true, true],
        [true, true, true],
        [false, false, true],
        [true, false, true],
        [false, true, true],
        [false, false, true],
        [true, true, true],
        [true, true, true],
        [false, false, true],
        [false, false, true],
    ];
    for (request, kinds) in plain_requests().iter().zip(kinds) {
        for (bits, good) in [0, NOP, RST].into_iter().zip(kinds) {
            judged(request, bits, &[], good);
        }
        for length in [1, 3, 4, 7, 511] {
            judged(request, RST, &vec![0; length], false);
        }
    }
    for (bits, good) in [(0, false), (NOP, true), (RST, true)] {
        judged(&poll(0, false), bits, &[], good);
        judged(&poll(0, true), bits, &[], good);
    }
}

#[test]
fn nop_has_no_data_but_where_stated() {
    for request in plain_requests() {
        let stated = matches!(request, Request::Calculations(_) | Request::Read { .. });
        if !stated {
            judged(&request, NOP, &[0x40], false);
        }
    }
    judged(&poll(0, true), NOP, &[0], false);
}

#[test]
fn basic_scan_has_whole_words_of_the_kinds_asked() {
    let mut config = Config::new(UNIT);
    for number in (0..=255).filter(|&number| Input(number).kind().is_some()) {
        config.inputs[usize::from(number)] = true;
    }
    for kinds in (0..=255).filter(|kinds| kinds & !0x4D == 0) {
        let request = Request::Scan { kinds };
        let (bits, most) = sent(&mut Rig::new(config.clone()), &request);
        assert_eq!(bits, 0);
        for length in 0..=511 {
            let good = length % 2 == 0 && length <= most.len();
            normal(&request, &vec![0xA5; length], good);
        }
    }
    let all = Request::Scan { kinds: 0x4D };
    normal(&all, &[0; 416], true);
    normal(&all, &[0; 418], false);
}

#[test]
fn words_are_read_low_character_first() {
    let words = Ok(Said::Normal(Data::Words(vec![0x0201, 0xFF03])));
    for request in [Request::Scan { kinds: 0x4D }, Request::Table(15)] {
        assert_eq!(answer(&request, 0, &[1, 2, 3, 0xFF]), words);
    }
}

#[test]
fn table_scan_has_at_most_255_words() {
    for length in 0..=511 {
        normal(&Request::Table(1), &vec![1; length], length % 2 == 0);
    }
}

#[test]
fn all_calculations_are_fours_up_to_508() {
    for length in 0..=511 {
        normal(&Request::AllCalculations, &vec![1; length], length % 4 == 0);
    }
    let values = Data::Values(vec![0x7FC0_0001, 0x8000_0000]);
    let data = [1, 0, 0xC0, 0x7F, 0, 0, 0, 0x80];
    assert_eq!(
        answer(&Request::AllCalculations, 0, &data),
        Ok(Said::Normal(values))
    );
}

/// The lists of up to so many numbers of these.
fn lists(numbers: &[u8], most: usize) -> Vec<Vec<u8>> {
    let mut all = vec![vec![]];
    let mut start = 0;
    for _ in 0..most {
        let end = all.len();
        for place in start..end {
            let longer = numbers.iter().map(|&n| [&all[place][..], &[n]].concat());
            let longer: Vec<Vec<u8>> = longer.collect();
            all.extend(longer);
        }
        start = end;
    }
    all
}

#[test]
fn nop_of_asked_calculations_is_one_that_some_equipment_gives() {
    let numbers = [0, 0x7F, 0x80];
    for asked in lists(&numbers, 4).into_iter().skip(1) {
        let request = calculations(&asked);
        let given: BTreeSet<(u8, Vec<u8>)> = (0..4)
            .map(|equipped| {
                let mut config = Config::new(UNIT);
                config.calculations[0] = equipped & 1 == 1;
                config.calculations[0x7F] = equipped & 2 == 2;
                sent(&mut Rig::new(config), &request)
            })
            .collect();
        for data in lists(&numbers, 4) {
            let good = given.contains(&(NOP, data.clone()));
            judged(&request, NOP, &data, good);
        }
    }
}

#[test]
fn nop_without_data_needs_103_numbers_that_can_be_equipped() {
    for (length, good) in [(1, false), (102, false), (103, true), (128, true)] {
        let mut numbers = vec![0x7F; length];
        judged(&calculations(&numbers), NOP, &[], good);
        normal(
            &calculations(&numbers),
            &[0x7F, 0, 0, 0, 0].repeat(102),
            length == 102,
        );
        judged(&calculations(&numbers), NOP, &numbers, true);
        numbers[0] = 0x80;
        judged(&calculations(&numbers), NOP, &[], false);
        judged(&calculations(&numbers), NOP, &[0x80], true);
    }
}

#[test]
fn asked_calculations_come_in_order_with_one_value_for_one_number() {
    let request = calculations(&[4, 0x15, 4]);
    let good = [4, 1, 2, 3, 4, 0x15, 9, 9, 9, 9, 4, 1, 2, 3, 4];
    let values = [(4, 0x0403_0201), (0x15, 0x0909_0909), (4, 0x0403_0201)];
    let values = values.map(|(number, value)| (Calculation(number), value));
    let said = Said::Normal(Data::Numbered(values.to_vec()));
    assert_eq!(answer(&request, 0, &good), Ok(said));
    for (place, character) in [(0, 5), (5, 4), (10, 5), (11, 2), (14, 5)] {
        let mut data = good;
        data[place] = character;
        normal(&request, &data, false);
    }
    let mut data = good;
    data[6] = 8;
    normal(&request, &data, true);
    normal(&request, &good[..10], false);
    normal(&calculations(&[0x7F]), &[0x7F, 0, 0, 0, 0], true);
    normal(&calculations(&[0x80]), &[0x80, 0, 0, 0, 0], false);
}

#[test]
fn echoes_are_the_number_asked() {
    for number in 0..=255 {
        let output = Output(number);
        let close = number % 2 == 0;
        let select = Request::Select { output, close };
        let said = Ok(Said::Normal(Data::Selected(output)));
        assert_eq!(answer(&select, 0, &[number]), said);
        normal(&select, &[number ^ 1], false);
        let reset = Request::ResetCount(Input(number));
        normal(&reset, &[number], (0x40..=0x5F).contains(&number));
        normal(&reset, &[number ^ 1], false);
        judged(&reset, NOP, &[], true);
    }
    let said = answer(&Request::ResetCount(Input(0x5F)), 0, &[0x5F]);
    assert_eq!(said, Ok(Said::Normal(Data::Reset(Input(0x5F)))));
}

#[test]
fn read_is_served_or_refused_as_some_unit_would() {
    let units = [0, 1, 255, 256, 511, 512].map(|length| {
        let mut config = Config::new(UNIT);
        config.parameter_length = length;
        Rig::new(config)
    });
    let ends = [0, 1, 15, 16, 17, 255, 256, 257, 511, 512, 513, 65_535];
    for ordinal in [0x00, 0x01, 0x02, 0x03, 0x05, 0x06, 0x0B, 0x0C, 0xFF] {
        for (bias, quantity) in ends.iter().flat_map(|&bias| {
            let quantities = [0, 1, 15, 16, 17, 254, 255];
            quantities.map(|quantity| (bias, quantity))
        }) {
            let request = Request::Read {
                bias,
                ordinal,
                quantity,
            };
            let given = units.clone().map(|mut rig| sent(&mut rig, &request).0);
            let data = vec![0x5A; usize::from(quantity)];
            normal(&request, &data, given.contains(&0));
            judged(&request, NOP, &request.parts().2, given.contains(&NOP));
        }
    }
}

#[test]
fn read_has_the_quantity_asked_and_its_nop_the_four_characters() {
    let request = Request::Read {
        bias: 2,
        ordinal: 6,
        quantity: 3,
    };
    let said = Ok(Said::Normal(Data::Block(vec![7, 8, 9])));
    assert_eq!(answer(&request, 0, &[7, 8, 9]), said);
    normal(&request, &[7, 8], false);
    normal(&request, &[7, 8, 9, 10], false);
    assert_eq!(
        answer(&request, NOP, &[2, 0, 6, 3]),
        Ok(Said::Nop(vec![2, 0, 6, 3]))
    );
    for data in [&[][..], &[2, 0, 6], &[2, 0, 6, 4], &[2, 0, 6, 3, 0]] {
        judged(&request, NOP, data, false);
    }
}

#[test]
fn time_is_a_good_one() {
    let good = TIME.characters();
    assert_eq!(
        answer(&Request::ReadTime, 0, &good),
        Ok(Said::Normal(Data::Time(TIME)))
    );
    let wrong = [
        (0, 3),
        (0, 0x12),
        (1, 0x3A),
        (2, 0x24),
        (3, 0x60),
        (4, 0xF0),
        (5, 4),
        (5, 0x12),
    ];
    for (place, character) in wrong {
        let mut data = good;
        data[place] = character;
        let possible = (place, character) == (0, 3);
        normal(&Request::ReadTime, &data, possible);
    }
    normal(&Request::ReadTime, &[3, 0x67, 0, 0, 0, 0, 0], false);
    normal(&Request::ReadTime, &[0, 0, 0, 0, 0, 0, 0], false);
    normal(&Request::ReadTime, &good[..6], false);
    normal(&Request::ReadTime, &[&good[..], &[0]].concat(), false);
}

/// First character and length of all history data that files of a unit give.
fn histories(dump: bool) -> BTreeSet<(u8, usize)> {
    let mut given = BTreeSet::new();
    for values in 1..=16 {
        let mut config = Config::new(UNIT);
        config.files[0] = Some(values);
        let mut rig = Rig::new(config);
        for held in 0..=32 {
            let (_, data) = sent(&mut rig.clone(), &poll(0, dump));
            given.insert((data[0], data.len()));
            let stored = rig.store(0, 1, &vec![7; usize::from(values)]);
            assert_eq!(stored, u8::from(held == 32));
        }
    }
    given
}

#[test]
fn history_data_are_such_as_some_file_gives() {
    // All characters behind the first are 1, which is a good day and time in every record.
    for dump in [false, true] {
        let given = histories(dump);
        for first in 0..=255 {
            for length in 1..=511 {
                let mut data = vec![1; length];
                data[0] = first;
                let believed = judge::normal(&poll(0, dump), &data).is_some();
                assert_eq!(
                    believed,
                    given.contains(&(first, length)),
                    "{first:02X} {length}"
                );
            }
        }
    }
    normal(&poll(0, true), &[], false);
}

#[test]
fn stamps_of_all_records_are_good() {
    let record = [0xEE, 3, 0x66, 0x23, 0x59, 0x59, 1, 2];
    let data = [&[2], &record[..], &record].concat();
    let records = vec![record.to_vec(); 2];
    let said = Said::Normal(Data::History {
        records,
        more: false,
    });
    assert_eq!(answer(&poll(0, true), 0, &data), Ok(said));
    let wrong = [
        (1, 4),
        (1, 0x13),
        (2, 0x67),
        (2, 0x6A),
        (3, 0x24),
        (4, 0x60),
        (5, 0x5F),
    ];
    for (place, character) in wrong {
        for record in 0..2 {
            let mut data = data.clone();
            data[1 + 8 * record + place] = character;
            normal(&poll(0, true), &data, false);
        }
    }
}
