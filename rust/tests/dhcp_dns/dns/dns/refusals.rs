// Made from crates/tests_dhcp_dns/src/dns/dns/refusals.rt by rust/erase.
//! Which check refuses octets first.

use crate::testing::{prints, same_of};
use control_wire::dns::{NameRefusal, Packet, Question, Record, RecordData, Refusal, Type};

#[test]
fn why_names_break() {
    // A message, where the name begins, and why it breaks.
    const ROWS: &[(&[u8], usize, Option<NameRefusal>)] = &[
        (b"\x01a\x00", 0, None),
        // Back to the label.
        (b"\x01a\x00\xc0\x00", 3, None),
        (b"", 0, Some(NameRefusal::NoEnd)),
        (b"\x01a", 0, Some(NameRefusal::NoEnd)),
        (b"\x02a", 0, Some(NameRefusal::LabelCut)),
        (b"\x3f", 0, Some(NameRefusal::LabelCut)),
        // The label at 0 runs into the pointer at 2, and the pointer at 4 leads to that one.
        (b"\x03a\xc0\x00\xc0\x02", 4, Some(NameRefusal::LabelCut)),
        (b"\x01a\x40", 0, Some(NameRefusal::LabelType(0x40))),
        (b"\xbf\x00", 0, Some(NameRefusal::LabelType(0xbf))),
        (b"\x01a\xc0", 0, Some(NameRefusal::PointerCut)),
        // To itself, in a circle of two, and past the end.
        (b"\xc0\x00", 0, Some(NameRefusal::Pointer(0))),
        (b"\xc0\x02\xc0\x00", 2, Some(NameRefusal::Pointer(2))),
        (b"\x01a\xc0\x04", 0, Some(NameRefusal::Pointer(4))),
        (b"\xff\xff", 0, Some(NameRefusal::Pointer(16383))),
    ];
    for &(message, at, refusal) in ROWS {
        let packet = Packet::new_unchecked(message);
        let bytes = message.get(at..).unwrap_or(&[]);
        same_of((message, at), packet.name_refusal(bytes), refusal);
    }
}

#[test]
fn why_octets_are_no_question() {
    const ROWS: &[(&[u8], Option<Refusal>)] = &[
        (b"\x01a\0\0\x01\0\x01", None),
        // A pointer is not followed.
        (b"\xff\xff\0\x01\0\x01", None),
        (b"", Some(Refusal::Name(NameRefusal::NoEnd))),
        (b"\x02a", Some(Refusal::Name(NameRefusal::LabelCut))),
        (b"\x80\0", Some(Refusal::Name(NameRefusal::LabelType(128)))),
        (b"\x01a\xc0", Some(Refusal::Name(NameRefusal::PointerCut))),
        (b"\x01a\0\0\x01\0", Some(Refusal::Short)),
        // Of Chaosnet.
        (b"\x01a\0\0\x01\0\x03", Some(Refusal::Class(3))),
    ];
    for &(octets, refusal) in ROWS {
        same_of(octets, Question::refusal(octets), refusal);
    }
}

#[test]
fn why_octets_are_no_record() {
    const ROWS: &[(&[u8], Option<Refusal>)] = &[
        (b"\0\0\x01\0\x01\0\0\0\xca\0\x04\xac\xd9\xa8\xae", None),
        (b"\0\0\x06\0\x01\0\0\0\xca\0\0", None),
        (b"\x40", Some(Refusal::Name(NameRefusal::LabelType(64)))),
        (b"\0\0\x01\0\x01\0\0\0\xca\0", Some(Refusal::Short)),
        // An option of EDNS, whose class is the size of its sender's buffer (RFC 6891 section 6.1.2).
        (b"\0\0\x29\x04\xd0\0\0\0\0\0\0", Some(Refusal::Class(1232))),
        (
            b"\0\0\x01\0\x01\0\0\0\xca\0\x04\xac\xd9\xa8",
            Some(Refusal::Length),
        ),
        (
            b"\0\0\x01\0\x01\0\0\0\xca\0\x03\xac\xd9\xa8",
            Some(Refusal::AddressLength(3)),
        ),
    ];
    for &(octets, refusal) in ROWS {
        same_of(octets, Record::refusal(octets), refusal);
    }
}

#[test]
fn why_data_are_no_address() {
    const ROWS: &[(Type, usize, Option<Refusal>)] = &[
        (Type::A, 4, None),
        (Type::A, 16, Some(Refusal::AddressLength(16))),
        (Type::A, 0, Some(Refusal::AddressLength(0))),
        (Type::Aaaa, 16, None),
        (Type::Aaaa, 4, Some(Refusal::AddressLength(4))),
        (Type::Aaaa, 17, Some(Refusal::AddressLength(17))),
        (Type::Cname, 0, None),
        (Type::Unknown(99), 5, None),
    ];
    let zeros = [0; 17];
    for &(kind, len, refusal) in ROWS {
        let data = zeros.get(..len).unwrap_or(&zeros);
        same_of((kind, len), RecordData::refusal(kind, data), refusal);
    }
}

#[test]
fn refusals_print_their_reason() {
    const ROWS: &[(Refusal, &str)] = &[
        (Refusal::Name(NameRefusal::NoEnd), "the name has no end"),
        (Refusal::Name(NameRefusal::LabelCut), "a label is cut"),
        (
            Refusal::Name(NameRefusal::LabelType(64)),
            "64 is neither the length of a label nor a pointer",
        ),
        (Refusal::Name(NameRefusal::PointerCut), "a pointer is cut"),
        (Refusal::Short, "the fields behind the name are cut"),
        (Refusal::Class(3), "class 3 is not read"),
        (Refusal::Length, "the data is cut"),
        (Refusal::AddressLength(5), "an address of 5 bytes"),
    ];
    for (refusal, text) in ROWS {
        prints(refusal, text);
    }
    let text = "a pointer to byte 12 does not lead back";
    prints(&NameRefusal::Pointer(12), text);
}
