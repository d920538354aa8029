// Made from crates/tests_above/src/record/name_text_refusal.rt by rust/erase.
//! Why texts are those of no names.

use crate::record::name::long_name;
use crate::testing::{prints, same_of};
use control_wire::record::name::Name;
use control_wire::record::name::text_refusal::NameTextRefusal;

// Ends the test unless this text is refused for this reason.
fn check(text: &[u8], refusal: Option<NameTextRefusal>) {
    same_of(text, Name::from_text_refusal(text), refusal);
    same_of(text, Name::from_text(text).is_ok(), refusal.is_none());
}

#[test]
fn texts_of_no_names() {
    const ROWS: &[(&[u8], Option<NameTextRefusal>)] = &[
        (b".", None),
        (b"a.b.", None),
        (b"a\\.b\\032.c", None),
        (b"", Some(NameTextRefusal::EmptyLabel)),
        (b"..", Some(NameTextRefusal::EmptyLabel)),
        (b".a", Some(NameTextRefusal::EmptyLabel)),
        (b"a..b", Some(NameTextRefusal::EmptyLabel)),
        (b"a.b..", Some(NameTextRefusal::EmptyLabel)),
        (b"a\\", Some(NameTextRefusal::Escape)),
        (b"a.\\ ", Some(NameTextRefusal::Escape)),
        (b"\\12", Some(NameTextRefusal::Escape)),
        (b"\\256", Some(NameTextRefusal::Escape)),
        (b"a b", Some(NameTextRefusal::Byte(b' '))),
        (b"a.@", Some(NameTextRefusal::Byte(b'@'))),
        (b"a\xc3\xa4", Some(NameTextRefusal::Byte(0xc3))),
    ];
    for &(text, refusal) in ROWS {
        check(text, refusal);
    }
}

#[test]
fn labels_and_names_that_are_too_long() {
    // How many labels of 63 bytes, and what follows them. With byte 0 the name of the third has 255 octets.
    const ROWS: &[(usize, &str, Option<NameTextRefusal>)] = &[
        (
            0,
            "a23456789b23456789c23456789d23456789e23456789f23456789g23456789",
            None,
        ),
        (
            0,
            "a23456789b23456789c23456789d23456789e23456789f23456789g23456789h",
            Some(NameTextRefusal::LongLabel),
        ),
        (
            3,
            "a23456789b23456789c23456789d23456789e23456789f23456789g234567",
            None,
        ),
        (
            3,
            "a23456789b23456789c23456789d23456789e23456789f23456789g2345678",
            Some(NameTextRefusal::TooLong),
        ),
        (4, "", Some(NameTextRefusal::TooLong)),
    ];
    for &(labels, rest, refusal) in ROWS {
        let text = long_name(labels, rest);
        check(text.as_str().as_bytes(), refusal);
    }
}

#[test]
fn texts_of_reasons() {
    const ROWS: [(NameTextRefusal, &str); 5] = [
        (NameTextRefusal::EmptyLabel, "a label is empty"),
        (NameTextRefusal::LongLabel, "a label has more than 63 bytes"),
        (
            NameTextRefusal::TooLong,
            "the name has more than 255 octets",
        ),
        (
            NameTextRefusal::Escape,
            "a backslash stands before no character that it quotes",
        ),
        (
            NameTextRefusal::Byte(32),
            "byte 32 does not stand for itself",
        ),
    ];
    for (refusal, text) in &ROWS {
        prints(refusal, text);
    }
}
