// Made from crates/tests_wiredump/src/wiredump/dns.rt by rust/erase.
//! Questions and names of DNS.

use super::{check, check_line, check_lines, joined};
use crate::testing::holds_of;
use std::fmt::Write;

#[test]
fn questions() {
    const ROWS: &[(&str, &str)] = &[
        ("01610000010001", "name=016100\ntype_=1\nrest=0\n"),
        ("0000020001", "name=00\ntype_=2\nrest=0\n"),
        ("0000050001aa", "name=00\ntype_=5\nrest=1\n"),
        ("0000060001aabb", "name=00\ntype_=6\nrest=2\n"),
        ("00001c0001", "name=00\ntype_=28\nrest=0\n"),
        ("c00c00010001ff", "name=c00c\ntype_=1\nrest=1\n"),
        (
            "06676f6f676c6503636f6d0000010001",
            "name=06676f6f676c6503636f6d00\ntype_=1\nrest=0\n",
        ),
        (
            "06676f6f676c6503636f6d0000ff0001",
            "name=06676f6f676c6503636f6d00\ntype_=255\nrest=0\n",
        ),
        (
            "03726663036f72670000010001",
            "name=03726663036f726700\ntype_=1\nrest=0\n",
        ),
        ("016100000100ff", "refused\n"),
        ("40", "refused\n"),
        ("0361", "refused\n"),
        ("-", "refused\n"),
    ];
    check("question", ROWS);
}

#[test]
fn names() {
    const ROWS: &[(&str, &str)] = &[
        (
            "name 12 0000000000000000000000000161c0100162c00c",
            "61\n62\n61\nerror steps=5\n",
        ),
        (
            "name 0000000000000012 0000000000000000000000000161c0100162c00c",
            "61\n62\n61\nerror steps=5\n",
        ),
        ("name 12 000000000000000000000000c00c", "error steps=1\n"),
        ("name 12 000000000000000000000000c00d", "error steps=1\n"),
        (
            "name 12 000000000000000000000000026100c011c00e",
            "6100\nend steps=3\n",
        ),
        // What is behind the pointers is not looked at.
        (
            "name 12 000000000000000000000000026100c011c00e0161c00c",
            "6100\nend steps=3\n",
        ),
        (
            "name 16 0000000000000000000000000361c00cc00e",
            "error steps=2\n",
        ),
        ("name 2 0000", "error steps=0\n"),
        ("name 1 0000", "end steps=0\n"),
        ("name 0 -", "error steps=0\n"),
        ("name 0 40", "error steps=0\n"),
        ("name 0 c0", "error steps=0\n"),
        ("name 5 00c000c001c003", "end steps=3\n"),
        // A label of 63 octets, and one of 64.
        (
            "name 0 3f4142434445464748494a4b4c4d4e4f505152535455565758595a4142434445464748494a4b4c\
             4d4e4f505152535455565758595a4142434445464748494a4b00",
            "4142434445464748494a4b4c4d4e4f505152535455565758595a4142434445464748494a4b4c4d4e4f505\
             152535455565758595a4142434445464748494a4b\nend steps=1\n",
        ),
        (
            "name 0 404142434445464748494a4b4c4d4e4f505152535455565758595a4142434445464748494a4b4c\
             4d4e4f505152535455565758595a4142434445464748494a4b5a00",
            "error steps=0\n",
        ),
    ];
    check_lines(ROWS);
}

// A response about www.facebook.com.
const RESPONSE: &str = "786c81800001000200000000037777770866616365626f6f6b03636f6d0000010001c00c000500\
    01000005f3001109737461722d6d696e690463313072c010c02e000100010000000500041f0d5324";

#[test]
fn names_of_a_response() {
    const ROWS: &[(&str, &str)] = &[
        ("name 12", "777777\n66616365626f6f6b\n636f6d\nend steps=3\n"),
        ("name 34", "777777\n66616365626f6f6b\n636f6d\nend steps=4\n"),
        (
            "name 46",
            "737461722d6d696e69\n63313072\n66616365626f6f6b\n636f6d\nend steps=5\n",
        ),
        (
            "name 63",
            "737461722d6d696e69\n63313072\n66616365626f6f6b\n636f6d\nend steps=6\n",
        ),
    ];
    for (words, want) in ROWS {
        check(words, &[(RESPONSE, want)]);
    }
}

// The end of a name, and behind it 5,000 pointers: the first to that end, and each other to the one before it.
#[test]
fn a_name_of_5000_pointers() {
    let mut line = joined(&["name 9999 00c000"]);
    for at in (1..9_999u16).step_by(2) {
        let pointer = 0xc000 | at;
        holds_of(pointer, write!(line, "{pointer:04x}").is_ok());
    }
    check_line(line.as_str(), "end steps=5000\n");
}
