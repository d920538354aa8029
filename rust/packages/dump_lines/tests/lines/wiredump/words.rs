// Made from crates/tests_wiredump/src/wiredump/words.rt by rust/erase.
//! Words, and what they spell.

use crate::testing::{holds_of, same_of};
use dump_lines::words::{read_address, read_offset, read_word};
#[allow(unused_imports)]
use rattle_std::prelude::*;

fn check_word(room: &mut Vec<u8>, text: &str, octets: Option<&[u8]>) {
    let Ok(word) = read_word(room, text.as_bytes()) else {
        holds_of(text, false);
        return;
    };
    same_of(text, word, octets);
}

#[test]
fn words_and_the_octets_they_spell() {
    const ROWS: &[(&str, Option<&[u8]>)] = &[
        ("-", Some(b"")),
        ("00", Some(b"\0")),
        ("0f", Some(b"\x0f")),
        ("f0", Some(b"\xf0")),
        ("09afAF", Some(b"\x09\xaf\xaf")),
        ("ff", Some(b"\xff")),
        ("", None),
        ("0", None),
        ("012", None),
        ("--", None),
        ("0-", None),
        ("/0", None),
        ("0:", None),
        ("@0", None),
        ("0G", None),
        ("`0", None),
        ("0g", None),
        (" 00", None),
    ];
    // The buffer is kept, so that shorter words are where longer ones were.
    let mut room = Vec::new();
    for &(text, octets) in ROWS {
        check_word(&mut room, text, octets);
    }
}

#[test]
fn words_that_are_addresses() {
    const ROWS: &[(&str, Option<[u8; 16]>)] = &[
        (
            "FE80000000000000000000000000abCD",
            Some(*b"\xfe\x80\0\0\0\0\0\0\0\0\0\0\0\0\xab\xcd"),
        ),
        ("00000000000000000000000000000000", Some([0; 16])),
        ("0000000000000000000000000000000", None),
        ("000000000000000000000000000000", None),
        ("0000000000000000000000000000000000", None),
        ("000000000000000g0000000000000000", None),
        ("-", None),
        ("", None),
    ];
    for &(text, octets) in ROWS {
        same_of(text, read_address(text.as_bytes()), octets);
    }
}

#[test]
fn words_that_are_offsets() {
    const ROWS: &[(&str, Option<usize>)] = &[
        ("0", Some(0)),
        ("9", Some(9)),
        ("10", Some(10)),
        ("0000000000000000000000000012", Some(12)),
        ("65535", Some(65_535)),
        ("65536", None),
        ("18446744073709551616", None),
        ("99999999999999999999999999999999999999", None),
        ("", None),
        ("-", None),
        ("+1", None),
        ("-1", None),
        ("1 ", None),
        ("1/", None),
        ("1:", None),
        ("0x1", None),
        ("a", None),
    ];
    for &(text, offset) in ROWS {
        same_of(text, read_offset(text.as_bytes()), offset);
    }
}
