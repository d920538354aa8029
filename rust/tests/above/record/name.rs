// Made from crates/tests_above/src/record/name.rt by rust/erase.
//! Names read from messages and from text, and written as text.

#[allow(unused_imports)]
use crate::rattle_std::prelude::*;
use crate::testing::{prints, same, same_of, takes_writes};
use arrayvec::ArrayString;
use control_wire::dns::Packet;
use control_wire::record::name::Name;
use control_wire::record::name::refusal::NameRefusal;
use control_wire::record::refusal::PartRefusal;
use std::fmt::Write;

// The message of RFC 1035 section 4.1.4: F.ISI.ARPA at 20, FOO.F.ISI.ARPA at 40, ARPA at 64, the root at 92.
const FOUR_NAMES: [u8; 93] = [
    0, 0, 0, 0, 0, 0, 0, 0, 0, 0, 0, 0, 0, 0, 0, 0, 0, 0, 0, 0, 0x01, 0x46, 0x03, 0x49, 0x53, 0x49,
    0x04, 0x41, 0x52, 0x50, 0x41, 0, 0, 0, 0, 0, 0, 0, 0, 0, 0x03, 0x46, 0x4f, 0x4f, 0xc0, 0x14, 0,
    0, 0, 0, 0, 0, 0, 0, 0, 0, 0, 0, 0, 0, 0, 0, 0, 0, 0xc0, 0x1a, 0, 0, 0, 0, 0, 0, 0, 0, 0, 0, 0,
    0, 0, 0, 0, 0, 0, 0, 0, 0, 0, 0, 0, 0, 0, 0, 0,
];

// The octets of the name of a text, none where it is refused.
fn octets_are(text: &[u8], octets: Option<&[u8]>) {
    match Name::from_text(text) {
        Ok(name) => same_of(text, Some(name.octets()), octets),
        Err(_) => same_of(text, None, octets),
    }
}

// The text of the name at a place of a message, none where it is refused.
fn text_is(message: &[u8], place: usize, text: Option<&str>) {
    let bytes = message.get(place..).unwrap_or(&[]);
    match (Name::read(&Packet::new_unchecked(message), bytes), text) {
        (Ok(name), Some(text)) => prints(&name, text),
        (read, text) => same_of(place, read.is_ok(), text.is_some()),
    }
}

#[test]
fn names_of_a_message() {
    const ROWS: &[(usize, Option<&str>)] = &[
        (20, Some("F.ISI.ARPA")),
        (22, Some("ISI.ARPA")),
        (40, Some("FOO.F.ISI.ARPA")),
        (64, Some("ARPA")),
        (92, Some(".")),
        (93, None),
        (21, None),
    ];
    for &(place, text) in ROWS {
        text_is(&FOUR_NAMES, place, text);
    }
}

#[test]
fn names_of_texts() {
    // Names of RFC 1035 sections 4.1.4 and 8, and of RFC 4343 section 2.1.
    const ROWS: &[(&[u8], &[u8])] = &[
        (b".", b"\0"),
        (b"F.ISI.ARPA", b"\x01F\x03ISI\x04ARPA\0"),
        (b"F.ISI.ARPA.", b"\x01F\x03ISI\x04ARPA\0"),
        (
            b"Action\\.domains.ISI.EDU",
            b"\x0eAction.domains\x03ISI\x03EDU\0",
        ),
        (
            b"Donald\\032E\\.\\032Eastlake\\0323rd.example",
            b"\x16Donald E. Eastlake 3rd\x07example\0",
        ),
        (b"a\\000\\\\\\255z.example", b"\x05a\0\\\xffz\x07example\0"),
        (b"\\a\\.\\065", b"\x03a.A\0"),
    ];
    for &(text, octets) in ROWS {
        octets_are(text, Some(octets));
    }
}

#[test]
fn texts_that_are_no_names() {
    const ROWS: &[&[u8]] = &[
        b"", b"..", b".a", b"a..", b"a..b", b"a b", b"a\\", b"\\25", b"\\256", b"\\1a0", b"\\ ",
        b"a@b", b"a(b", b"a\"b", b"\xe9", b"a\n", b"a;", b"$",
    ];
    for &text in ROWS {
        octets_are(text, None);
    }
}

// Labels of 63 bytes, so many, and then the rest.
pub(crate) fn long_name(labels: usize, rest: &str) -> ArrayString<300> {
    let mut text = ArrayString::new();
    for _ in 0..labels {
        let _ =
            text.try_push_str("a23456789b23456789c23456789d23456789e23456789f23456789g23456789.");
    }
    let _ = text.try_push_str(rest);
    text
}

#[test]
fn names_of_255_octets_and_labels_of_63_bytes_at_the_most() {
    // How many labels of 63 bytes, what follows them, and how many octets the name has.
    const ROWS: &[(usize, &str, Option<usize>)] = &[
        (1, "a", Some(67)),
        (1, "", Some(65)),
        (
            3,
            "a23456789b23456789c23456789d23456789e23456789f23456789g234567",
            Some(255),
        ),
        (
            3,
            "a23456789b23456789c23456789d23456789e23456789f23456789g2345678",
            None,
        ),
        (4, "", None),
        (
            0,
            "a23456789b23456789c23456789d23456789e23456789f23456789g23456789h",
            None,
        ),
    ];
    for &(labels, rest, octets) in ROWS {
        let text = long_name(labels, rest);
        let len = match Name::from_text(text.as_str().as_bytes()) {
            Ok(name) => Some(name.octets().len()),
            Err(_) => None,
        };
        same_of(rest, len, octets);
    }
}

// Ends the test unless the name of the first text prints the second, in so many writes.
fn check_text(text: &[u8], printed: &str, writes: u32) {
    match Name::from_text(text) {
        Ok(name) => {
            prints(&name, printed);
            takes_writes(&name, writes);
        }
        Err(_) => same("a name", "a refusal"),
    }
}

#[test]
fn texts_of_names() {
    // A name's text, what is printed, and in how many writes: there is one before a character and before a dot where
    // more than 60 octets wait, and one at the end.
    const ROWS: &[(&[u8], &str, u32)] = &[
        (b".", ".", 1),
        (b"isi.edu.", "isi.edu", 1),
        (b"Action\\.domains.ISI.EDU", "Action\\.domains.ISI.EDU", 1),
        (b"\\a\\032\\.\\065", "a\\032\\.A", 1),
        (
            b"\\000\\255.\\\\\\\"\\$\\(\\)\\;\\@",
            "\\000\\255.\\\\\\\"\\$\\(\\)\\;\\@",
            1,
        ),
        (b"\\033\\126\\127.a-_b", "!~\\127.a-_b", 1),
        (
            b"a23456789b23456789c23456789d23456789e23456789f23456789g234567",
            "a23456789b23456789c23456789d23456789e23456789f23456789g234567",
            1,
        ),
        (
            b"a23456789b23456789c23456789d23456789e23456789f23456789g2345678",
            "a23456789b23456789c23456789d23456789e23456789f23456789g2345678",
            2,
        ),
        (
            b"a23456789b23456789c23456789d23456789e23456789f23456789g23456.h",
            "a23456789b23456789c23456789d23456789e23456789f23456789g23456.h",
            2,
        ),
        (
            b"a23456789b23456789c23456789d23456789e23456789f23456789g234567.h",
            "a23456789b23456789c23456789d23456789e23456789f23456789g234567.h",
            2,
        ),
        (
            b"a23456789b23456789c23456789d2.e23456789f23456789g23456789h2.i23456789j23456789k23456789l2.m2",
            "a23456789b23456789c23456789d2.e23456789f23456789g23456789h2.i23456789j23456789k23456789l2.m2",
            2,
        ),
        (
            b"\\000\\001\\002\\003\\004\\005\\006\\007\\010\\011\\012\\013\\014\\015\\200\\255",
            "\\000\\001\\002\\003\\004\\005\\006\\007\\010\\011\\012\\013\\014\\015\\200\\255",
            1,
        ),
        (
            b"\\000\\001\\002\\003\\004\\005\\006\\007\\010\\011\\012\\013\\014\\015\\200.\\255",
            "\\000\\001\\002\\003\\004\\005\\006\\007\\010\\011\\012\\013\\014\\015\\200.\\255",
            2,
        ),
    ];
    for &(text, printed, writes) in ROWS {
        check_text(text, printed, writes);
    }
}

#[test]
fn text_into_a_buffer_of_a_fixed_size() {
    let mut text: ArrayString<1016> = ArrayString::new();
    let written = match Name::from_text(b"www.Example.com.") {
        Ok(name) => write!(text, "{name}").is_ok(),
        Err(_) => false,
    };
    same(written, true);
    same(text.as_str(), "www.Example.com");
}

// Ends the test unless these are texts of names that are equal, or not, whatever the case of their letters.
fn check_equal(left: &[u8], right: &[u8], equal: bool) {
    let (Ok(a), Ok(b)) = (Name::from_text(left), Name::from_text(right)) else {
        panic!("no names");
    };
    same_of(left, a.eq_ignore_case(&b), equal);
    same_of(right, b == a, equal);
}

#[test]
fn names_that_differ_in_case_alone() {
    // The first rows are of RFC 4343 sections 3 and 4; a letter beyond ASCII has no case there.
    const ROWS: &[(&[u8], &[u8], bool)] = &[
        (b"example.com", b"EXAMPLE.com.", true),
        (b"ExAmPlE", b"eXaMpLe", true),
        (b"\\228.example", b"\\196.example", false),
        (b"a\\.b", b"a.b", false),
        (b"a\\.b", b"A\\.B", true),
        (b".", b".", true),
        (b".", b"a", false),
        (b"a.b", b"a", false),
        (b"z[", b"Z\\123", false),
        (b"\\@", b"`", false),
    ];
    for &(left, right, equal) in ROWS {
        check_equal(left, right, equal);
    }
}

#[test]
fn labels_of_names() {
    const ROWS: &[(&[u8], &[&[u8]])] = &[
        (b".", &[]),
        (b"isi.EDU.", &[b"isi", b"EDU"]),
        (b"Action\\.domains.ISI", &[b"Action.domains", b"ISI"]),
    ];
    for &(text, labels) in ROWS {
        check_labels(text, labels);
    }
}

// Ends the test unless the name of a text, and a copy of it, have these labels and no more.
fn check_labels(text: &[u8], labels: &[&[u8]]) {
    let Ok(name) = Name::from_text(text) else {
        panic!("no name");
    };
    let Ok(copy) = name.try_clone() else {
        panic!("no copy");
    };
    let mut left = name.labels();
    let mut of_copy = copy.labels();
    for &label in labels {
        same_of(text, left.next(), Some(label));
        same_of(text, of_copy.next(), Some(label));
    }
    for _ in 0..2 {
        same_of(text, left.next(), None);
    }
    same_of(text, copy == name, true);
}

#[test]
fn names_that_are_refused() {
    // A message, the place where a name begins in it, and why there is none.
    const ROWS: &[(&[u8], usize, Option<NameRefusal>)] = &[
        (b"\x01F\0", 0, None),
        (b"\x01F\0", 3, Some(NameRefusal::Part(PartRefusal::Cut))),
        (b"\x02F", 0, Some(NameRefusal::Part(PartRefusal::Cut))),
        (b"\x01F", 0, Some(NameRefusal::Part(PartRefusal::Cut))),
        (b"\x01F\xc0", 0, Some(NameRefusal::Part(PartRefusal::Cut))),
        (
            b"\x01F\x41",
            0,
            Some(NameRefusal::Part(PartRefusal::LabelType(0x41))),
        ),
        (
            b"\x80\xc0\0",
            1,
            Some(NameRefusal::Part(PartRefusal::LabelType(0x80))),
        ),
        (b"\xc0\0", 0, Some(NameRefusal::Pointer(0))),
        (b"\x01F\xc0\0", 0, Some(NameRefusal::Pointer(0))),
        (b"\x01F\xc0\x04", 0, Some(NameRefusal::Pointer(4))),
        (b"\xff\xff", 0, Some(NameRefusal::Pointer(16383))),
        (b"\xc0\x02\xc0\0", 0, Some(NameRefusal::Pointer(2))),
        (b"\0\xc0\0", 1, None),
    ];
    for &(message, place, refusal) in ROWS {
        let bytes = message.get(place..).unwrap_or(&[]);
        let packet = Packet::new_unchecked(message);
        same_of(message, Name::read_refusal(&packet, bytes), refusal);
        same_of(
            message,
            Name::read(&packet, bytes).is_ok(),
            refusal.is_none(),
        );
    }
}

// Why the name at the front of octets is refused; None where it is read.
fn refusal_of(octets: &[u8]) -> Option<NameRefusal> {
    Name::read_refusal(&Packet::new_unchecked(octets), octets)
}

#[test]
fn a_name_of_more_than_255_octets_is_refused() {
    // Labels of one byte: 127 of them and byte 0 have 255 octets, and 128 have 257.
    let mut octets = [1; 257];
    octets[256] = 0;
    let longest = octets.get(2..).unwrap_or(&[]);
    same(refusal_of(longest), None);
    same(refusal_of(&octets), Some(NameRefusal::TooLong));
}

#[test]
fn what_stands_behind_255_octets_is_not_looked_at() {
    // 126 labels of one byte have 252 octets. They are followed by a label of one byte or of two, and then none.
    let mut octets = [1; 256];
    octets[252..255].copy_from_slice(b"\x01\x01\x80");
    let other = NameRefusal::Part(PartRefusal::LabelType(0x80));
    same(refusal_of(&octets[..255]), Some(other));
    octets[252..256].copy_from_slice(b"\x01\x01\xc0\xff");
    let cut = NameRefusal::Part(PartRefusal::Cut);
    same(refusal_of(&octets), Some(cut));
    octets[252..256].copy_from_slice(b"\x02\x01\x01\xc0");
    same(refusal_of(&octets), Some(NameRefusal::TooLong));
    octets[252..256].copy_from_slice(b"\x02\x01\x01\x80");
    same(refusal_of(&octets), Some(NameRefusal::TooLong));
    // The label that is one too many is cut itself.
    same(refusal_of(&octets[..254]), Some(cut));
}

// Byte 0, and then pointers, the first to that byte and each other one to the pointer before it.
fn pointers() -> [u8; 257] {
    let mut message = [0; 257];
    for k in 0..128usize {
        message[2 * k + 1] = 0xc0;
        message[2 * k + 2] = (2 * k).saturating_sub(1) as u8;
    }
    message
}

#[test]
fn a_name_behind_more_than_127_pointers_is_refused() {
    // The place of a pointer, and why the name that begins with it is refused.
    const ROWS: &[(usize, Option<NameRefusal>)] = &[
        (1, None),
        (251, None),
        (253, None),
        (255, Some(NameRefusal::TooManyPointers)),
    ];
    let message = pointers();
    let packet = Packet::new_unchecked(message.as_slice());
    for (place, refusal) in ROWS {
        let bytes = message.get(*place..).unwrap_or(&[]);
        same_of(*place, Name::read_refusal(&packet, bytes), *refusal);
        same_of(
            *place,
            Name::read(&packet, bytes).is_ok(),
            refusal.is_none(),
        );
    }
}

#[test]
fn texts_of_reasons_of_names() {
    let rows = [
        (NameRefusal::Part(PartRefusal::Cut), "the name is cut"),
        (
            NameRefusal::Pointer(300),
            "a pointer to place 300 leads nowhere or round",
        ),
        (
            NameRefusal::TooManyPointers,
            "the name follows more than 127 pointers",
        ),
        (NameRefusal::TooLong, "the name has more than 255 octets"),
    ];
    for (refusal, text) in &rows {
        prints(refusal, text);
    }
}
