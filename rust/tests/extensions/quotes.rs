// Made from crates/tests_extensions/src/quotes.rt by rust/erase.
//! Where the quoted datagram ends and the extensions begin (RFC 4884 sections 3 to 5).

use crate::testing::{prints, same_of, takes_writes};
use control_wire::extensions::{Family, Parts, SplitRefusal};

// A structure with an object, and its checksum.
const STRUCTURE: &[u8] = &[
    0x20, 0x00, 0xdd, 0xf4, 0x00, 0x08, 0x01, 0x01, 0x00, 0x01, 0x01, 0x01,
];

#[test]
fn a_length_splits_the_quote_from_the_extensions() {
    let rows: &[(u8, Family, usize)] = &[
        (32, Family::V4, 128),
        (16, Family::V6, 128),
        (33, Family::V4, 132),
        (17, Family::V6, 136),
    ];
    for (length, family, quoted) in rows {
        let mut octets = [0x45; 148];
        let end = *quoted + 12;
        if end <= 148 {
            octets[*quoted..end].copy_from_slice(STRUCTURE);
            let read = Parts::split(&octets[..end], *length, *family);
            let wanted = Parts {
                quoted: &[0x45; 148][..*quoted],
                extensions: Some(STRUCTURE),
            };
            same_of(length, read, Ok(wanted));
        }
    }
}

// A length of 0 claims no extensions, even where there are some, and one of all octets leaves none.
#[test]
fn all_is_quoted_where_a_length_leaves_nothing() {
    let mut octets = [0x45; 160];
    octets[128..140].copy_from_slice(STRUCTURE);
    let rows: &[(usize, u8, Family)] = &[
        (140, 0, Family::V4),
        (140, 0, Family::V6),
        (128, 32, Family::V4),
        (140, 35, Family::V4),
        (136, 17, Family::V6),
        (0, 0, Family::V4),
    ];
    for (len, length, family) in rows {
        if *len <= 160 {
            let quoted = &octets[..*len];
            let wanted = Parts {
                quoted,
                extensions: None,
            };
            same_of(len, Parts::split(quoted, *length, *family), Ok(wanted));
        }
    }
}

#[test]
fn what_is_refused_as_a_length() {
    let octets = [0x45; 140];
    let rows: &[(u8, Family, SplitRefusal)] = &[
        (1, Family::V4, SplitRefusal::Short),
        (31, Family::V4, SplitRefusal::Short),
        (15, Family::V6, SplitRefusal::Short),
        (36, Family::V4, SplitRefusal::Cut),
        (18, Family::V6, SplitRefusal::Cut),
        (255, Family::V6, SplitRefusal::Cut),
    ];
    for (length, family, refusal) in rows {
        same_of(
            length,
            Parts::split(&octets, *length, *family),
            Err(*refusal),
        );
    }
}

#[test]
fn extensions_are_seen_by_their_content() {
    let rows: &[(&[u8], bool)] = &[
        (STRUCTURE, true),
        // The checksum is left out, the version is 1, the checksum is wrong.
        (
            &[
                0x20, 0x00, 0x00, 0x00, 0x00, 0x08, 0x01, 0x01, 0x00, 0x01, 0x01, 0x01,
            ],
            false,
        ),
        (
            &[
                0x10, 0x00, 0xed, 0xf4, 0x00, 0x08, 0x01, 0x01, 0x00, 0x01, 0x01, 0x01,
            ],
            false,
        ),
        (
            &[
                0x20, 0x00, 0xdd, 0xf5, 0x00, 0x08, 0x01, 0x01, 0x00, 0x01, 0x01, 0x01,
            ],
            false,
        ),
        // A header alone, and the smallest structure that has an object: 2000 + 0004 + 0301 = 2305.
        (&[0x20, 0x00, 0xdf, 0xff], false),
        (&[0x20, 0x00, 0xdc, 0xfa, 0x00, 0x04, 0x03, 0x01], true),
        (&[], false),
    ];
    let quoted = [0x45; 128];
    for (behind, is_seen) in rows {
        let mut buffer = [0x45; 140];
        let end = 128 + behind.len().min(12);
        buffer[128..end].copy_from_slice(&behind[..behind.len().min(12)]);
        let octets = &buffer[..end];
        let wanted = if *is_seen {
            Parts {
                quoted: &quoted,
                extensions: Some(*behind),
            }
        } else {
            Parts {
                quoted: octets,
                extensions: None,
            }
        };
        same_of(behind, Parts::split_by_content(octets), wanted);
    }
}

#[test]
fn words_that_a_length_counts() {
    for (family, bytes) in [(Family::V4, 4), (Family::V6, 8)] {
        same_of(family, family.unit(), bytes);
    }
}

#[test]
fn texts_of_refused_lengths() {
    prints(
        &SplitRefusal::Short,
        "the original datagram has fewer than 128 bytes by its length",
    );
    prints(&SplitRefusal::Cut, "the original datagram is cut");
    takes_writes(&SplitRefusal::Cut, 1);
}
