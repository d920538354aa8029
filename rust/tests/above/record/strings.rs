// Made from crates/tests_above/src/record/strings.rt by rust/erase.
//! The strings of TXT data.

use crate::testing::same_of;
use control_wire::record::strings::TxtStrings;

// Ends the test unless these octets begin with these strings and no more.
fn check(octets: &[u8], strings: &[&[u8]]) {
    let mut left = TxtStrings::new(octets);
    for &string in strings {
        same_of(octets, left.next(), Some(string));
    }
    for _ in 0..2 {
        same_of(octets, left.next(), None);
    }
}

#[test]
fn strings_of_txt_data() {
    const ROWS: &[(&[u8], &[&[u8]])] = &[
        (b"\x0bv=spf1 -all", &[b"v=spf1 -all"]),
        (b"\x01a\x00\x02bc", &[b"a", b"", b"bc"]),
        (b"\x00", &[b""]),
        (b"", &[]),
        (b"\x01a\x02b", &[b"a"]),
        (b"\xffa", &[]),
    ];
    for &(octets, strings) in ROWS {
        check(octets, strings);
    }
}
