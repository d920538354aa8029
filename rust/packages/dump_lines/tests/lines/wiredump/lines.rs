// Made from crates/tests_wiredump/src/wiredump/lines.rt by rust/erase.
//! Lines of every shape, and at the limits of what a line may have.

use super::{append, check_input, check_line, joined, repeated};
use crate::testing::{holds_of, same_of};
use dump_lines::words::read_word;
#[allow(unused_imports)]
use rattle_std::prelude::*;
use std::fmt::Write;

// Each input prints this; its lines are known, or one of them is not.
fn check_inputs(rows: &[(&str, &str, bool)]) {
    for (input, want, known) in rows {
        check_input(input, input.as_bytes(), *known, want.as_bytes());
    }
}

#[test]
fn lines_of_every_shape() {
    const ROWS: &[(&str, &str, bool)] = &[
        // Without a word.
        ("", "", true),
        ("\n\n", "", true),
        ("  \n\r\n \r\n\r", "", true),
        // Ends and spaces.
        ("hbh 0100\nhbh 00\n", "PadN=0\nPad1\n", true),
        ("hbh 0100\nhbh 00", "PadN=0\nPad1\n", true),
        ("hbh 0100\r\nhbh 00\r", "PadN=0\nPad1\n", true),
        ("  hbh   0100  \r\n", "PadN=0\n", true),
        ("hbh 0100\r\r\nhbh 00\r\r", "bad line\nbad line\n", false),
        ("\r\r\n\rhbh 00\n", "bad line\nbad line\n", false),
        ("hbh 0100\r \n", "bad line\n", false),
        ("hbh\t0100\n\thbh 00\n", "bad line\nbad line\n", false),
        ("hbh 01\0\nhbh\x0b00\n", "bad line\nbad line\n", false),
        // A bad line among others, and a refused one.
        ("hbh 00\nhbh\nhbh 00\n", "Pad1\nbad line\nPad1\n", false),
        ("hbh 00\nhbh -\nhbh 00\n", "Pad1\nrefused\nPad1\n", true),
    ];
    check_inputs(ROWS);
}

#[test]
fn lines_with_a_wrong_word() {
    const ROWS: &[(&str, &str, bool)] = &[
        // Words that are no packet.
        ("hbh 5\nhbh 010\n", "bad line\nbad line\n", false),
        ("hbh 0g\nhbh 0x00\n", "bad line\nbad line\n", false),
        ("hbh --\nhbh -0\n", "bad line\nbad line\n", false),
        // Commands that are none.
        ("foo -\nhbh\n-\n", "bad line\nbad line\nbad line\n", false),
        (
            "HBH 00\nhbhh 00\n00\n",
            "bad line\nbad line\nbad line\n",
            false,
        ),
        ("hbh - -\nhbh 00 00\n", "bad line\nbad line\n", false),
        ("hbh 0 0 0 00\n1 2 3 4 5 6\n", "bad line\nbad line\n", false),
    ];
    check_inputs(ROWS);
}

#[test]
fn lines_with_a_wrong_offset_or_address() {
    const ROWS: &[(&str, &str, bool)] = &[
        // Offsets and addresses that are none, and an offset past its message.
        ("name 00\nname 0 0 00\n", "bad line\nbad line\n", false),
        (
            "name x 00\nname -1 00\nname +1 00\n",
            "bad line\nbad line\nbad line\n",
            false,
        ),
        (
            "name 3 0000\nname 1 -\nname 65536 -\n",
            "bad line\nbad line\nbad line\n",
            false,
        ),
        (
            "name 0 5\nquestion 0 00\nname 1 00\n",
            "bad line\nbad line\nerror steps=0\n",
            false,
        ),
        (
            "icmp6 00\nicmp6 0 0 00\nicmp6 - - 00\n",
            "bad line\nbad line\nbad line\n",
            false,
        ),
        (
            "icmp6 fe80000000000000000000000000000 fe800000000000000000000000000002 00\n",
            "bad line\n",
            false,
        ),
        (
            "icmp6 fe800000000000000000000000000001 fe80000000000000000000000000000g 00\n",
            "bad line\n",
            false,
        ),
        (
            "icmp6 fe800000000000000000000000000001 fe800000000000000000000000000002 0\n",
            "bad line\n",
            false,
        ),
    ];
    check_inputs(ROWS);
}

#[test]
fn lines_that_are_no_text() {
    const INPUTS: &[&[u8]] = &[
        b"hbh \xff\n",
        b"\xc3\x28 00\n",
        b"hbh 00\xa0\n",
        b"\xef\xbb\xbfhbh 00\n",
    ];
    for &input in INPUTS {
        check_input(&input, input, false, b"bad line\n");
    }
}

// A word of so many digits is so many octets, or none, and a line of it prints this.
fn check_digits(digits: usize, length: Option<usize>, want: &str) {
    let word = repeated(&[("0", digits)]);
    let mut room = Vec::new();
    let Ok(octets) = read_word(&mut room, word.as_bytes()) else {
        holds_of(digits, false);
        return;
    };
    let octets_len = octets.map(|octets| octets.len());
    same_of(digits, octets_len, length);
    let line = joined(&["hbh ", word.as_str()]);
    let (input, want) = (line.as_bytes(), want.as_bytes());
    check_input(&digits, input, length.is_some(), want);
}

#[test]
fn words_of_the_most_digits() {
    const ROWS: &[(usize, Option<usize>, &str)] = &[
        (
            131_070,
            Some(65_535),
            "Pad1\nPad1\nPad1\nPad1\nPad1\nPad1\nPad1\nPad1\n",
        ),
        (131_071, None, "bad line\n"),
        (131_072, None, "bad line\n"),
    ];
    for &(digits, length, want) in ROWS {
        check_digits(digits, length, want);
    }
}

// A line that is made of texts, each so often, prints this, and then another line what it does.
fn check_repeated(texts: &[(&str, usize)], known: bool, want: &str) {
    let mut input = repeated(texts);
    append(&mut input, "\nhbh 00", 1);
    let want = joined(&[want, "Pad1\n"]);
    let (input, want) = (input.as_bytes(), want.as_bytes());
    check_input(&texts, input, known, want);
}

#[test]
fn lines_at_their_limits() {
    const ROWS: &[(&[(&str, usize)], bool, &str)] = &[
        (
            &[("hbh ", 1), ("0", 131_070), ("\r", 1)],
            true,
            "Pad1\nPad1\nPad1\nPad1\nPad1\nPad1\nPad1\nPad1\n",
        ),
        (
            &[("hbh ", 1), ("0", 131_070), ("\r", 2)],
            false,
            "bad line\n",
        ),
        (
            &[("hbh ", 1), ("0", 131_071), ("\r", 1)],
            false,
            "bad line\n",
        ),
        (&[("hbh ", 1), ("0", 131_072)], false, "bad line\n"),
        (&[("hbh ", 1), ("0", 1_000_000)], false, "bad line\n"),
        (&[("h", 131_070), (" ", 1), ("-", 1)], false, "bad line\n"),
        (&[("h", 131_072), (" ", 1), ("-", 1)], false, "bad line\n"),
        // Spaces before, between and after, and alone.
        (
            &[(" ", 1_000_000), ("hbh 0100", 1), ("\r", 1)],
            true,
            "PadN=0\n",
        ),
        (
            &[("hbh", 1), (" ", 1_000_000), ("0100", 1)],
            true,
            "PadN=0\n",
        ),
        (
            &[("hbh 0100", 1), (" ", 1_000_000), ("\r", 1)],
            true,
            "PadN=0\n",
        ),
        (&[(" ", 1_000_000), ("\r", 1)], true, ""),
        (&[(" ", 1_000_000), ("\r", 2)], false, "bad line\n"),
        (&[(" ", 1_000_000), ("\t", 1)], false, "bad line\n"),
        // Words too many, the last of them a CR.
        (&[("hbh", 1), (" 0100", 5)], false, "bad line\n"),
        (&[("hbh", 1), (" 0100", 300_000)], false, "bad line\n"),
        (&[("hbh 0100", 1), (" ", 1), ("\r", 1)], true, "PadN=0\n"),
        (&[("hbh", 1), (" 0100", 4), (" \r", 1)], false, "bad line\n"),
    ];
    for &(texts, known, want) in ROWS {
        check_repeated(texts, known, want);
    }
}

// The digits of all octets but the last.
fn digits_of_octets() -> String {
    let mut digits = String::new();
    for octet in 0..255u8 {
        holds_of(octet, write!(digits, "{octet:02x}").is_ok());
    }
    digits
}

#[test]
fn octets_of_every_value() {
    let digits = digits_of_octets();
    let line = joined(&["hbh 11ff", digits.as_str()]);
    let want = "Unknown\ntype_=17\nlength=255\ndata=";
    let want = joined(&[want, digits.as_str(), "\n"]);
    check_line(line.as_str(), want.as_str());
}

#[test]
fn an_input_of_70_000_lines() {
    let input = repeated(&[("hbh 00\nhbh 0100\n", 35_000)]);
    let want = repeated(&[("Pad1\nPadN=0\n", 35_000)]);
    let (input, want) = (input.as_bytes(), want.as_bytes());
    check_input(&"70,000 lines", input, true, want);
}
