// Made from crates/tests_above/src/record/edns.rt by rust/erase.
//! OPT records and their options.

use crate::testing::{prints, same_of};
use control_wire::dns::Type;
use control_wire::record::edns::{Edns, EdnsOption, EdnsOptions, OptionRefusal};
use control_wire::record::record::Record;
use std::result;

// Ends the test unless these octets have these options and no more.
fn check(octets: &[u8], options: &[result::Result<EdnsOption<'_>, OptionRefusal>]) {
    let mut left = EdnsOptions::new(octets);
    for &option in options {
        same_of(octets, left.next(), Some(option));
    }
    for _ in 0..2 {
        same_of(octets, left.next(), None);
    }
}

#[test]
fn options_of_opt_data() {
    // A client's cookie of 8 bytes (RFC 7873 section 4), and padding of no bytes (RFC 7830).
    let octets = b"\x00\x0a\x00\x08ABCDEFGH\x00\x0c\x00\x00";
    let cookie = EdnsOption {
        code: 10,
        data: b"ABCDEFGH",
    };
    prints(&cookie, "cookie=4142434445464748");
    let padding = EdnsOption {
        code: 12,
        data: b"",
    };
    check(octets, &[Ok(cookie), Ok(padding)]);
    check(&octets[..15], &[Ok(cookie), Err(OptionRefusal::Fields)]);
    check(&octets[..12], &[Ok(cookie)]);
    check(&octets[..11], &[Err(OptionRefusal::Data)]);
    check(&octets[..3], &[Err(OptionRefusal::Fields)]);
    check(b"", &[]);
}

// An OPT record of this payload size, with these octets in the place of a time to live, and no options.
fn opt_record(class: u16, ttl: u32) -> Record<'static> {
    Record {
        name: &[0],
        type_: Type::Unknown(41),
        class,
        ttl,
        data: &[],
    }
}

#[test]
fn what_opt_records_say() {
    // A response of BADVERS, which is 16 (RFC 6891 section 9), of a server that takes DNSSEC.
    let record = opt_record(1232, 0x0100_8000);
    let edns = Edns {
        payload_size: 1232,
        extended_rcode: 1,
        version: 0,
        dnssec_ok: true,
        flags: 0x8000,
        options: &[],
    };
    same_of(record, record.edns(), Some(edns));
    same_of(record, edns.rcode(0), 16);
    prints(
        &edns,
        "EDNS payload_size=1232 extended_rcode=1 version=0 dnssec_ok=true flags=32768 len=0",
    );
    // These fields with other bits set in each.
    let other = opt_record(512, 0xff02_7fff);
    let says = Edns {
        payload_size: 512,
        extended_rcode: 255,
        version: 2,
        dnssec_ok: false,
        flags: 0x7fff,
        options: &[],
    };
    same_of(other, other.edns(), Some(says));
    for (header_rcode, rcode) in [(0, 4080), (15, 4095), (0x35, 4085)] {
        same_of(header_rcode, says.rcode(header_rcode), rcode);
    }
    let text = Record {
        type_: Type::Unknown(16),
        ..record
    };
    same_of(text, text.edns(), None);
}

#[test]
fn options_of_an_opt_record() {
    let record = Record {
        data: b"\x00\x0c\x00\x00\x00",
        ..opt_record(4096, 0)
    };
    let padding = EdnsOption {
        code: 12,
        data: b"",
    };
    let Some(edns) = record.edns() else {
        panic!("no OPT record");
    };
    let mut options = edns.options();
    same_of(record, options.next(), Some(Ok(padding)));
    same_of(record, options.next(), Some(Err(OptionRefusal::Fields)));
    same_of(record, options.next(), None);
}

#[test]
fn why_an_option_is_refused() {
    const ROWS: &[(&[u8], Option<OptionRefusal>)] = &[
        (b"", Some(OptionRefusal::Fields)),
        (b"\0\x0c\0", Some(OptionRefusal::Fields)),
        (b"\0\x0c\0\0", None),
        (b"\0\x0a\0\x02A", Some(OptionRefusal::Data)),
        (b"\0\x0a\0\x02ABC", None),
    ];
    for &(octets, refusal) in ROWS {
        same_of(octets, EdnsOption::refusal(octets), refusal);
        same_of(octets, EdnsOption::parse(octets).is_ok(), refusal.is_none());
    }
    let option = EdnsOption {
        code: 10,
        data: b"AB",
    };
    let read: (&[u8], EdnsOption<'_>) = (b"C", option);
    same_of("a rest", EdnsOption::parse(b"\0\x0a\0\x02ABC"), Ok(read));
    prints(&OptionRefusal::Fields, "the code and the length are cut");
    prints(&OptionRefusal::Data, "the data of the option is cut");
}
