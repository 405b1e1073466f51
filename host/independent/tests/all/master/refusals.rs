//! Refusals, their order, and what they leave (readings 1.5, 1.6, 1.10 to 1.13).

use super::*;

/// The refusal of a reply, which changes nothing but the retry mark.
fn refused(master: &Master, bytes: &[u8]) -> Refusal {
    for retry in [false, true] {
        let mut master = Master {
            retry,
            ..master.clone()
        };
        let mut expected = master.clone();
        expected.retry = true;
        let refusal = read(&mut master, bytes).expect_err("a refusal");
        assert_eq!(master, expected);
        if retry {
            return refusal;
        }
    }
    unreachable!()
}

/// A master that waits for the words of two kinds.
fn scanning() -> Master {
    asking(&Request::Scan { kinds: 0x41 })
}

#[test]
fn refusals_have_the_numbers_1_to_5() {
    use Refusal::*;
    let numbers = [NotWhole, Check, Address, Function, Data].map(|refusal| refusal as u8);
    assert_eq!(numbers, [1, 2, 3, 4, 5]);
}

#[test]
fn reply_of_the_bench_example_is_read() {
    let mut master = scanning();
    master.retry = true;
    let bytes = [0xD2, 0x0C, 0, 0x80, 0x56, 4, 0, 0, 0, 0, 0, 0x5C, 0xA5];
    let expected = Read {
        status: 0x80,
        port_status: 0x56,
        said: Said::Normal(Data::Words(vec![0, 0])),
    };
    assert_eq!(read(&mut master, &bytes), Ok(expected));
    assert_eq!((master.retry, master.outstanding), (false, None));
}

#[test]
fn reply_under_9_over_520_or_not_as_its_count_is_not_whole() {
    let good = reply(0x00, &[1, 2]);
    for length in 0..good.len() {
        assert_eq!(refused(&scanning(), &good[..length]), Refusal::NotWhole);
    }
    let longer = [&good[..], &[0]].concat();
    assert_eq!(refused(&scanning(), &longer), Refusal::NotWhole);
    let over = reply(0x00, &[0; 512]);
    assert_eq!(
        (over.len(), refused(&scanning(), &over)),
        (521, Refusal::NotWhole)
    );
    let most = reply(0x00, &[0; 511]);
    assert_eq!(
        (most.len(), refused(&scanning(), &most)),
        (520, Refusal::Data)
    );
}

#[test]
fn refusals_come_in_their_order() {
    // Each reply has its fault and all that are judged after it.
    let data = [0; 3];
    let mut other = reply(0x04, &data);
    other[0] ^= 1;
    let bad_check = other.clone();
    let mut not_whole = bad_check.clone();
    not_whole.pop();
    other.truncate(other.len() - 2);
    let other = checked(other);
    let cases = [
        (not_whole, Refusal::NotWhole),
        (bad_check, Refusal::Check),
        (other, Refusal::Address),
        (reply(0x04, &data), Refusal::Function),
        (reply(0xC0, &data), Refusal::Function),
        (reply(0x00, &data), Refusal::Data),
    ];
    for (bytes, expected) in cases {
        assert_eq!(refused(&scanning(), &bytes), expected);
    }
}

#[test]
fn both_address_characters_are_judged() {
    for (place, bit) in (0..16).map(|bit| (bit / 8, bit % 8)) {
        let mut bytes = reply(0x00, &[]);
        bytes[place] ^= 1 << bit;
        bytes.truncate(bytes.len() - 2);
        assert_eq!(refused(&scanning(), &checked(bytes)), Refusal::Address);
    }
}

#[test]
fn only_the_function_asked_is_believed() {
    for request in plain_requests() {
        let asked = request.parts().0;
        for function in (0..=255).filter(|f| f & 0x3F != asked || f & 0xC0 == 0xC0) {
            let refusal = refused(&asking(&request), &reply(function, &[]));
            assert_eq!(refusal, Refusal::Function);
        }
    }
}

#[test]
fn nothing_is_believed_with_nothing_outstanding() {
    for function in 0..=255 {
        let refusal = refused(&fresh(), &reply(function, &[]));
        assert_eq!(refusal, Refusal::Function);
    }
    assert_eq!(refused(&fresh(), &[]), Refusal::NotWhole);
}

#[test]
fn second_reply_is_refused() {
    let mut master = scanning();
    let bytes = reply(0x00, &[1, 2]);
    assert!(read(&mut master, &bytes).is_ok());
    assert_eq!(refused(&master, &bytes), Refusal::Function);
}

#[test]
fn refused_reply_leaves_the_request_outstanding() {
    let mut master = scanning();
    assert!(read(&mut master, &[1]).is_err());
    assert!(read(&mut master, &reply(0x00, &[1, 2])).is_ok());
    assert!(!master.retry);
}

#[test]
fn nop_and_rst_clear_the_retry_mark() {
    for function in [0x4A, 0x8A] {
        let mut master = asking(&Request::Table(1));
        assert!(read(&mut master, &[1]).is_err() && master.retry);
        assert!(read(&mut master, &reply(function, &[])).is_ok());
        assert!(!master.retry);
    }
}

#[test]
fn no_reply_to_a_broadcast_is_believed() {
    for request in broadcasts() {
        for (function, data) in [(0x20, &[][..]), (0x20, &[0x40]), (0x60, &[]), (0xA0, &[])] {
            // The unit polled is not who was spoken to; the address of all units is.
            let of_unit = reply(function, data);
            let mut of_all = of_unit[..of_unit.len() - 2].to_vec();
            of_all[..2].copy_from_slice(&[0xFF, 0x0F]);
            assert_eq!(refused(&asking(&request), &of_unit), Refusal::Address);
            let refusal = refused(&asking(&request), &checked(of_all));
            assert_eq!(refusal, Refusal::Data);
        }
        let bytes = checked(vec![0xFF, 0x0F, 0x00, 0x80, 0x54, 0, 0]);
        assert_eq!(refused(&asking(&request), &bytes), Refusal::Function);
        let bytes = checked(vec![0xFF, 0x17, 0x20, 0x80, 0x54, 0, 0]);
        assert_eq!(refused(&asking(&request), &bytes), Refusal::Address);
    }
}

#[test]
fn address_judged_by_is_the_units_again_after_a_broadcast() {
    for request in broadcasts() {
        let mut master = asking(&request);
        build(&mut master, &Request::Scan { kinds: 0x41 }, ROOM).expect("a frame");
        let of_all = checked(vec![0xFF, 0x0F, 0x00, 0x80, 0x54, 0, 0]);
        assert_eq!(refused(&master, &of_all), Refusal::Address);
        assert!(read(&mut master, &reply(0x00, &[])).is_ok());
    }
}

#[test]
fn status_characters_are_not_judged() {
    for (status, port_status) in [(0x00, 0x00), (0xFF, 0xFF), (0x73, 0x03)] {
        let bytes = checked(vec![0xD2, 0x0C, 0x00, status, port_status, 0, 0]);
        let expected = Read {
            status,
            port_status,
            said: Said::Normal(Data::Words(vec![])),
        };
        assert_eq!(read(&mut scanning(), &bytes), Ok(expected));
    }
}
