// Made from crates/tests_headers/src/refused_messages.rt by rust/erase.
//! Octets that are no messages of ICMPv4, and the reasons.

use crate::testing::{prints, same_of, takes_writes};
use control_wire::headers::Message;
use control_wire::headers::icmpv4::Refusal;

#[test]
fn what_is_refused_of_messages() {
    let rows: &[(&[u8], Refusal)] = &[
        (&[0x00; 7], Refusal::Short),
        (
            &[0x0a, 0x00, 0xf5, 0xfe, 0x00, 0x00, 0x00, 0x00],
            Refusal::Checksum,
        ),
        // An echo.
        (
            &[0x08, 0x00, 0xf7, 0xff, 0x00, 0x00, 0x00, 0x00],
            Refusal::UnknownType(8),
        ),
        (
            &[0x0a, 0x01, 0xf5, 0xfe, 0x00, 0x00, 0x00, 0x00],
            Refusal::Code(1),
        ),
        // Of 19 octets, and of 11.
        (
            &[
                0x0d, 0x00, 0xf2, 0xff, 0x00, 0x00, 0x00, 0x00, 0x00, 0x00, 0x00, 0x00, 0x00, 0x00,
                0x00, 0x00, 0x00, 0x00, 0x00,
            ],
            Refusal::Length,
        ),
        (
            &[
                0x11, 0x00, 0xee, 0xff, 0x00, 0x00, 0x00, 0x00, 0x00, 0x00, 0x00,
            ],
            Refusal::Length,
        ),
        (
            &[0x09, 0x00, 0xf6, 0xf4, 0x00, 0x02, 0x00, 0x09],
            Refusal::NoRouters,
        ),
        (
            &[
                0x09, 0x00, 0xf1, 0xef, 0x01, 0x01, 0x00, 0x09, 0x01, 0x02, 0x03, 0x04,
            ],
            Refusal::EntrySize(1),
        ),
        (
            &[
                0x09, 0x00, 0xf1, 0xee, 0x01, 0x02, 0x00, 0x09, 0x01, 0x02, 0x03, 0x04, 0x00, 0x00,
                0x00,
            ],
            Refusal::Cut,
        ),
        // What agents of mobile IP send (RFC 5944 section 2.1).
        (
            &[
                0x09, 0x10, 0xf1, 0xde, 0x01, 0x02, 0x00, 0x09, 0x01, 0x02, 0x03, 0x04, 0x00, 0x00,
                0x00, 0x00,
            ],
            Refusal::Code(16),
        ),
    ];
    for (octets, refusal) in rows {
        same_of(octets, Message::parse(octets).err(), Some(*refusal));
    }
}

#[test]
fn texts_of_reasons_of_messages() {
    let rows: &[(Refusal, &str)] = &[
        (Refusal::Short, "fewer than 8 bytes"),
        (Refusal::Checksum, "the checksum does not hold"),
        (Refusal::UnknownType(8), "type 8 is not read"),
        (Refusal::Code(1), "code 1 is not 0"),
        (
            Refusal::Length,
            "fewer bytes than a message of this type has",
        ),
        (Refusal::NoRouters, "an advertisement of no routers"),
        (Refusal::EntrySize(1), "entries of 1 words are below 2"),
        (
            Refusal::Cut,
            "the routers of an advertisement are cut short",
        ),
    ];
    for (refusal, text) in rows {
        prints(refusal, text);
    }
    takes_writes(&Refusal::Cut, 1);
}
