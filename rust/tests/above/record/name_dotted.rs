// Made from crates/tests_above/src/record/name_dotted.rt by rust/erase.
// Names in messages, and their texts.

use crate::testing::same_of;
use control_wire::dns::Packet;
use control_wire::record::name::dotted::{ROOM_LEN, put_dotted};

// The text that is put for the name at a place of a message, or nothing.
fn check_text(message: &[u8], place: usize, want: Option<&[u8]>) {
    let mut room = [b'*'; ROOM_LEN];
    let bytes = message.get(place..).unwrap_or(&[]);
    let len = put_dotted(&mut room, &Packet::new_unchecked(message), bytes);
    same_of(place, len, want.map(|text| text.len()));
    if let Some(text) = want {
        same_of(place, room.starts_with(text), true);
    }
}

#[test]
fn texts_of_names_without_pointers() {
    // Most names are followed by fewer than sixteen bytes.
    const ROWS: &[(&[u8], Option<&[u8]>)] = &[
        (b"\x01a\0", Some(b"a.")),
        (b"\x03www\x07example\x03com\0", Some(b"www.example.com.")),
        (
            b"\x03www\x07example\x03com\0 and what stands behind it",
            Some(b"www.example.com."),
        ),
        (b"\x07AZ-az_9\x0209\0", Some(b"AZ-az_9.09.")),
        (b"\x0fabcdefghijklmno\0", Some(b"abcdefghijklmno.")),
        (b"\x10abcdefghijklmnop\0", Some(b"abcdefghijklmnop.")),
        (b"\x10abcdefghijklmnop\x01q\0", Some(b"abcdefghijklmnop.q.")),
        (b"\x11abcdefghijklmnopq\0", Some(b"abcdefghijklmnopq.")),
        (
            b"\x11abcdefghijklmnopq\x01r\0",
            Some(b"abcdefghijklmnopq.r."),
        ),
        (
            b"\x3faaaaaaaaaabbbbbbbbbbccccccccccddddddddddeeeeeeeeeeffffffffffggg\0",
            Some(b"aaaaaaaaaabbbbbbbbbbccccccccccddddddddddeeeeeeeeeeffffffffffggg."),
        ),
        // The root.
        (b"\0", Some(b".")),
        // A dot, a blank, a backslash, and a letter that is no ASCII in a label.
        (b"\x03a.b\x03com\0", None),
        (b"\x03com\x03a b\0", None),
        (b"\x03a\\b\0", None),
        (b"\x02\xc3\xa9\0", None),
        // No whole name.
        (b"", None),
        (b"\x03com", None),
        (b"\x03co", None),
        (
            b"\x40aaaaaaaaaabbbbbbbbbbccccccccccddddddddddeeeeeeeeeeffffffffffgggg\0",
            None,
        ),
    ];
    for &(message, want) in ROWS {
        check_text(message, 0, want);
    }
}

// F.ISI.ARPA at 0, FOO.F.ISI.ARPA at 12, ARPA at 18, the root at 20, pointers to their own place, to the one behind
// them and to no byte of the message, a pointer behind a blank, and the first byte of a pointer.
const POINTERS: &[u8] = b"\
    \x01F\x03ISI\x04ARPA\0\x03FOO\xc0\0\xc0\x06\0\xc0\x15\xc0\x19\xc1\0\x01 \xc0\0\xc0";

#[test]
fn texts_of_names_with_pointers() {
    const ROWS: &[(usize, Option<&[u8]>)] = &[
        (0, Some(b"F.ISI.ARPA.")),
        (2, Some(b"ISI.ARPA.")),
        (12, Some(b"FOO.F.ISI.ARPA.")),
        (16, Some(b"F.ISI.ARPA.")),
        (18, Some(b"ARPA.")),
        (20, Some(b".")),
        (21, None),
        (23, None),
        (25, None),
        (27, None),
        (31, None),
        (32, None),
    ];
    for &(place, want) in ROWS {
        check_text(POINTERS, place, want);
    }
}

// A name of three labels of 63 letters and one of 60 has 254 octets.
const ONE_LESS: &[u8] = b"\
    \x3faaaaaaaaaabbbbbbbbbbccccccccccddddddddddeeeeeeeeeeffffffffffggg\
    \x3faaaaaaaaaabbbbbbbbbbccccccccccddddddddddeeeeeeeeeeffffffffffggg\
    \x3faaaaaaaaaabbbbbbbbbbccccccccccddddddddddeeeeeeeeeeffffffffffggg\
    \x3caaaaaaaaaabbbbbbbbbbccccccccccddddddddddeeeeeeeeeeffffffffff\0";

const ONE_LESS_TEXT: &[u8] = b"\
    aaaaaaaaaabbbbbbbbbbccccccccccddddddddddeeeeeeeeeeffffffffffggg.\
    aaaaaaaaaabbbbbbbbbbccccccccccddddddddddeeeeeeeeeeffffffffffggg.\
    aaaaaaaaaabbbbbbbbbbccccccccccddddddddddeeeeeeeeeeffffffffffggg.\
    aaaaaaaaaabbbbbbbbbbccccccccccddddddddddeeeeeeeeeeffffffffff.";

const LONGEST: &[u8] = b"\
    \x3faaaaaaaaaabbbbbbbbbbccccccccccddddddddddeeeeeeeeeeffffffffffggg\
    \x3faaaaaaaaaabbbbbbbbbbccccccccccddddddddddeeeeeeeeeeffffffffffggg\
    \x3faaaaaaaaaabbbbbbbbbbccccccccccddddddddddeeeeeeeeeeffffffffffggg\
    \x3daaaaaaaaaabbbbbbbbbbccccccccccddddddddddeeeeeeeeeeffffffffffg\0";

const LONGEST_TEXT: &[u8] = b"\
    aaaaaaaaaabbbbbbbbbbccccccccccddddddddddeeeeeeeeeeffffffffffggg.\
    aaaaaaaaaabbbbbbbbbbccccccccccddddddddddeeeeeeeeeeffffffffffggg.\
    aaaaaaaaaabbbbbbbbbbccccccccccddddddddddeeeeeeeeeeffffffffffggg.\
    aaaaaaaaaabbbbbbbbbbccccccccccddddddddddeeeeeeeeeeffffffffffg.";

const TOO_LONG: &[u8] = b"\
    \x3faaaaaaaaaabbbbbbbbbbccccccccccddddddddddeeeeeeeeeeffffffffffggg\
    \x3faaaaaaaaaabbbbbbbbbbccccccccccddddddddddeeeeeeeeeeffffffffffggg\
    \x3faaaaaaaaaabbbbbbbbbbccccccccccddddddddddeeeeeeeeeeffffffffffggg\
    \x3eaaaaaaaaaabbbbbbbbbbccccccccccddddddddddeeeeeeeeeeffffffffffgg\0";

#[test]
fn texts_of_names_of_254_to_256_octets() {
    check_text(ONE_LESS, 0, Some(ONE_LESS_TEXT));
    check_text(LONGEST, 0, Some(LONGEST_TEXT));
    check_text(TOO_LONG, 0, None);
}

#[test]
fn texts_of_names_behind_many_pointers() {
    // Byte 0, and then pointers, the first to that byte and each other one to the pointer before it.
    let mut message = [0; 257];
    for k in 0..128usize {
        message[2 * k + 1] = 0xc0;
        message[2 * k + 2] = (2 * k).saturating_sub(1) as u8;
    }
    check_text(&message, 253, Some(b"."));
    check_text(&message, 255, None);
}
