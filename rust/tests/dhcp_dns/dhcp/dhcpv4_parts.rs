// Made from crates/tests_dhcp_dns/src/dhcp/dhcpv4_parts.rt by rust/erase.
// The options of whole packets, in parts and joined. The packets are made by hand, as RFC 2131 section 4.1, RFC 2132
// section 9.3 and RFC 3396 have them; those of `leases` have the options of a lease that was captured.

#[allow(unused_imports)]
use crate::rattle_std::prelude::*;
use crate::testing::{fail, holds_of, prints, same, same_of};
use control_wire::Error;
use control_wire::dhcp_options::{Area, Overload, Part, Parts, Refusal};
use control_wire::dhcpv4::Packet;

mod areas;
mod leases;

// What stands in the fields of a packet, before zeros in sname and file.
#[derive(Clone, Copy)]
struct Fields {
    sname: &'static [u8],
    file: &'static [u8],
    options: &'static [u8],
}

// A part by its area, its kind, its octets and whether it is the first of its kind; without octets, a refusal.
type Row = (Area, u8, Option<&'static [u8]>, bool);

// The zeros that fill a field of this length.
fn rest(field: &[u8], len: usize) -> &'static [u8] {
    const ZEROS: &[u8] = &[0; 128];
    ZEROS.get(field.len()..len).unwrap_or(&[])
}

// A reply with these fields.
fn reply(fields: Fields) -> Vec<u8> {
    let parts: [&[u8]; 8] = [
        &[2, 1, 6, 0],
        &[0; 40],
        fields.sname,
        rest(fields.sname, 64),
        fields.file,
        rest(fields.file, 128),
        &[0x63, 0x82, 0x53, 0x63],
        fields.options,
    ];
    let mut octets = Vec::new();
    for part in parts {
        holds_of(part, octets.extend_from_slice(part).is_ok());
    }
    octets
}

// Compares the parts of a packet, behind which comes the end for good.
fn compare_parts(packet: &[u8], rows: &[Row]) {
    let mut parts = Parts::of(packet);
    for &(area, kind, octets, is_first) in rows {
        let answer = match octets {
            Some(octets) => Ok(Part {
                area,
                kind,
                octets,
                is_first,
            }),
            None => Err(Refusal { area, kind }),
        };
        same_of((area, kind), parts.next(), Some(answer));
    }
    same_of(rows.len(), parts.next(), None);
    same_of(rows.len(), parts.next(), None);
}

// Compares what each option of a packet prints, joined, at the place of its first part.
fn compare_options(packet: &[u8], texts: &[&str]) {
    let mut wanted = texts.iter();
    for answer in Parts::of(packet) {
        let Ok(part) = answer else {
            continue;
        };
        if part.is_first {
            let mut buffer = [0; 64];
            let option = Parts::of(packet).option(part.kind, &mut buffer);
            match (option, wanted.next()) {
                (Ok(option), Some(text)) => prints(&option, text),
                _ => fail("an option of at most 64 bytes that is wanted"),
            }
        }
    }
    holds_of(texts, wanted.next().is_none());
}

// Compares the parts and the options of the packet with these fields.
fn check(fields: Fields, rows: &[Row], texts: &[&str]) {
    let octets = reply(fields);
    match Packet::new_checked(octets.as_slice()) {
        Ok(packet) => {
            compare_parts(packet.into_inner(), rows);
            compare_options(packet.into_inner(), texts);
        }
        Err(_) => fail("a packet of 240 bytes or more"),
    }
}

// Compares the overload and the parts of a packet.
fn check_overload(fields: Fields, overload: Option<Overload>, rows: &[Row]) {
    let octets = reply(fields);
    match Packet::new_checked(octets.as_slice()) {
        Ok(packet) => {
            same_of(fields.options, Overload::of(packet.into_inner()), overload);
            compare_parts(packet.into_inner(), rows);
        }
        Err(_) => fail("a packet of 240 bytes or more"),
    }
}

// The example of RFC 3396.
const SPLIT_NAME: Fields = Fields {
    sname: b"",
    file: b"",
    options: b"\x43\x07/diskle\x43\x06ss/foo\xff",
};

#[test]
fn a_name_in_two_parts() {
    const ROWS: &[Row] = &[
        (Area::Options, 67, Some(b"/diskle"), true),
        (Area::Options, 67, Some(b"ss/foo"), false),
    ];
    const TEXTS: &[&str] = &["bootfile-name=\"/diskless/foo\""];
    check(SPLIT_NAME, ROWS, TEXTS);
}

// A route (RFC 3442) of which one half stands in the options field, which has no end mark, and the other in file; and a
// name in file and, behind padding, in sname.
const ROUTE: Fields = Fields {
    sname: b"\0\0\x0c\x01b\xff",
    file: b"\x79\x04\xc0\0\x02\x01\x0c\x01a\xff",
    options: b"\x79\x04\x18\x0a\0\0\0\x34\x01\x03\0\0\x35\x01\x05",
};

#[test]
fn options_of_several_fields_are_joined_in_their_order() {
    const ROWS: &[Row] = &[
        (Area::Options, 121, Some(b"\x18\x0a\0\0"), true),
        (Area::Options, 52, Some(&[3]), true),
        (Area::Options, 53, Some(&[5]), true),
        (Area::File, 121, Some(b"\xc0\0\x02\x01"), false),
        (Area::File, 12, Some(b"a"), true),
        (Area::Sname, 12, Some(b"b"), false),
    ];
    const TEXTS: &[&str] = &[
        "classless-static-route=18:0a:00:00:c0:00:02:01",
        "option-overload=3",
        "message-type=ACK",
        "host-name=\"ab\"",
    ];
    check(ROUTE, ROWS, TEXTS);
}

// Compares what is in a buffer of this many bytes after the name in two parts is joined in it.
fn check_join(packet: &[u8], len: usize, joined: Option<usize>, left: &[u8]) {
    let parts = Parts::of(packet);
    let mut octets = [b'.'; 16];
    same_of(len, parts.join(67, &mut octets[..len]).ok(), joined);
    same_of(len, &octets[..], left);
}

#[test]
fn a_buffer_that_is_too_short_is_left_as_it_is() {
    let octets = reply(SPLIT_NAME);
    match Packet::new_checked(octets.as_slice()) {
        Ok(packet) => {
            check_join(packet.into_inner(), 12, None, b"................");
            check_join(packet.into_inner(), 13, Some(13), b"/diskless/foo...");
            check_join(packet.into_inner(), 16, Some(13), b"/diskless/foo...");
        }
        Err(_) => fail("a packet of 240 bytes or more"),
    }
}

#[test]
fn one_part_takes_no_buffer() {
    let octets = reply(ROUTE);
    match Packet::new_checked(octets.as_slice()) {
        Ok(packet) => {
            let parts = Parts::of(packet.into_inner());
            let message_type = parts.option(53, &mut []);
            same(message_type.map(|option| option.data), Ok(&[5][..]));
            same(
                parts.option(54, &mut []).map(|option| option.data),
                Ok(&[][..]),
            );
            same(parts.option(12, &mut [0]), Err(Error));
        }
        Err(_) => fail("a packet of 240 bytes or more"),
    }
}

#[test]
fn the_parts_that_are_still_to_come() {
    let octets = reply(ROUTE);
    match Packet::new_checked(octets.as_slice()) {
        Ok(packet) => {
            let mut parts = Parts::of(packet.into_inner());
            same(parts.joined_len(121), 8);
            holds_of((), parts.next().is_some());
            same(parts.joined_len(121), 4);
            let mut names = parts.of_kind(12);
            same(names.next(), Some(&b"a"[..]));
            same(names.next(), Some(&b"b"[..]));
            same(names.next(), None);
        }
        Err(_) => fail("a packet of 240 bytes or more"),
    }
}
