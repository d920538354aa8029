// Made from crates/tests_icmp/src/icmp4/igmp.rt by rust/erase.
use crate::testing::{prints, prints_each, same, same_of, takes_writes};
use control_wire::Ipv4Address;
use control_wire::igmp::IgmpVersion::{Version1, Version2};
use control_wire::igmp::{IgmpVersion, Message, Packet, Refusal, Repr};

mod damaged;
mod queries;

fn group() -> Ipv4Address {
    Ipv4Address::new(224, 0, 6, 150)
}

// The octets of a message that is written over eight of this value.
fn written(message: &Repr, old: u8) -> [u8; 8] {
    let mut octets = [old; 8];
    message.emit(&mut Packet::new_unchecked(octets.as_mut_slice()));
    octets
}

// Ends the test where another message is read from the octets; with no message, where one is read.
fn check_read(octets: &[u8], message: Option<&Repr>) {
    let read = Repr::parse(&Packet::new_unchecked(octets)).ok();
    same_of(octets, read.as_ref(), message);
}

// Ends the test where the message has other octets, over octets of each of four values, and where another message
// than the last is read from them.
fn check_message(message: &Repr, octets: &[u8; 8], read: &Repr) {
    same(message.buffer_len(), 8);
    for old in [0x00, 0xff, 0x2a, 0xa5] {
        same_of(old, &written(message, old), octets);
    }
    check_read(octets, Some(read));
}

// Whether a message is read from the octets.
fn is_read(octets: &[u8]) -> bool {
    Repr::parse(&Packet::new_unchecked(octets)).is_ok()
}

fn report(version: IgmpVersion, group_addr: Ipv4Address) -> Repr {
    Repr::MembershipReport {
        group_addr,
        version,
    }
}

fn leave() -> Repr {
    Repr::LeaveGroup {
        group_addr: group(),
    }
}

#[test]
fn reports_and_leave_messages_are_written_and_read() {
    const ROWS: &[(IgmpVersion, [u8; 8])] = &[
        (Version2, [0x16, 0x00, 0x08, 0xda, 0xe1, 0x00, 0x00, 0x25]),
        (Version1, [0x12, 0x00, 0x0c, 0xda, 0xe1, 0x00, 0x00, 0x25]),
    ];
    for &(version, octets) in ROWS {
        let report = report(version, Ipv4Address::new(225, 0, 0, 37));
        check_message(&report, &octets, &report);
    }
    let octets = [0x17, 0x00, 0x02, 0x69, 0xe0, 0x00, 0x06, 0x96];
    check_message(&leave(), &octets, &leave());
}

#[test]
fn the_checksum_is_that_of_the_whole_buffer() {
    const ROWS: &[[u8; 9]] = &[
        [0x17, 0x00, 0x02, 0x69, 0xe0, 0x00, 0x06, 0x96, 0x00],
        [0x17, 0x00, 0x03, 0x68, 0xe0, 0x00, 0x06, 0x96, 0xff],
        [0x17, 0x00, 0xd8, 0x68, 0xe0, 0x00, 0x06, 0x96, 0x2a],
        [0x17, 0x00, 0x5d, 0x68, 0xe0, 0x00, 0x06, 0x96, 0xa5],
    ];
    for row in ROWS {
        let mut octets = [row[8]; 9];
        let mut packet = Packet::new_unchecked(octets.as_mut_slice());
        leave().emit(&mut packet);
        same(packet.verify_checksum(), true);
        same(&octets, row);
        check_read(row, Some(&leave()));
    }
}

// Groups, and whether messages speak of them.
const GROUPS: &[([u8; 4], bool)] = &[
    ([0, 0, 0, 0], true),
    ([10, 0, 0, 1], false),
    ([223, 255, 255, 255], false),
    ([224, 0, 0, 1], true),
    ([239, 255, 255, 255], true),
    ([240, 0, 0, 1], false),
];

#[test]
fn types_and_groups_that_are_read() {
    for &([a, b, c, d], good) in GROUPS {
        for number in 0..=255u8 {
            let octets = [number, 0, 0, 0, a, b, c, d];
            let named = matches!(number, 0x11 | 0x12 | 0x16 | 0x17);
            same_of(octets, is_read(&octets), named && good);
        }
    }
}

#[test]
fn groups_that_reports_speak_of() {
    for &([a, b, c, d], good) in GROUPS {
        for (number, version) in [(0x12, Version1), (0x16, Version2)] {
            let report = report(version, Ipv4Address::new(a, b, c, d));
            let answer = if good { Some(&report) } else { None };
            check_read(&[number, 0, 0, 0, a, b, c, d], answer);
        }
    }
}

#[test]
fn lengths_that_are_read() {
    const OCTETS: [u8; 9] = [0x17, 0xa5, 0x00, 0x00, 0xe0, 0x00, 0x06, 0x96, 0xff];
    let leave = leave();
    for len in 0..=9 {
        let octets = &OCTETS[..len];
        let is_long = 8 <= len;
        check_read(octets, if is_long { Some(&leave) } else { None });
        same_of(len, Packet::new_checked(octets).is_ok(), is_long);
    }
}

#[test]
fn checksums() {
    const ROWS: &[(&[u8], bool)] = &[
        (&[0x17, 0x00, 0x02, 0x69, 0xe0, 0x00, 0x06, 0x96], true),
        (&[0x17, 0x00, 0x02, 0x6a, 0xe0, 0x00, 0x06, 0x96], false),
        (&[0x17, 0xa5, 0x00, 0x00, 0xe0, 0x00, 0x06, 0x96], false),
        (
            &[0x17, 0x00, 0x02, 0x69, 0xe0, 0x00, 0x06, 0x96, 0x00],
            true,
        ),
        (&[0, 0, 0, 0, 0, 0, 0, 0], false),
        (&[0xff, 0xff], true),
        (&[], false),
    ];
    for &(octets, good) in ROWS {
        let packet = Packet::new_unchecked(octets);
        same_of(octets, packet.verify_checksum(), good);
    }
}

#[test]
fn fields() {
    let mut octets = [0xa5; 8];
    let mut packet = Packet::new_unchecked(&mut octets[..]);
    packet.set_msg_type(Message::MembershipReportV2);
    packet.set_max_resp_code(0x80);
    packet.set_checksum(0x1234);
    packet.set_group_address(group());
    same(packet.msg_type(), Message::MembershipReportV2);
    same(packet.max_resp_code(), 0x80);
    same(packet.checksum(), 0x1234);
    same(packet.group_addr(), group());
    let written: [u8; 8] = [0x16, 0x80, 0x12, 0x34, 0xe0, 0x00, 0x06, 0x96];
    same(&*packet.into_inner(), written.as_slice());
}

#[test]
fn a_checksum_takes_the_place_of_another() {
    let mut octets: [u8; 8] = [0x17, 0x00, 0xa5, 0xa5, 0xe0, 0x00, 0x06, 0x96];
    Packet::new_unchecked(&mut octets[..]).fill_checksum();
    let filled = [0x17, 0x00, 0x02, 0x69, 0xe0, 0x00, 0x06, 0x96];
    same(octets, filled);
}

#[test]
fn types_print_their_words() {
    const ROWS: &[(u8, &str)] = &[
        (0x11, "membership query"),
        (0x16, "version 2 membership report"),
        (0x17, "leave group"),
        (0x12, "version 1 membership report"),
        (0x13, "19"),
    ];
    prints_each::<Message>(ROWS);
}

#[test]
fn packets_print_their_message_or_that_they_are_refused() {
    const ROWS: &[(&[u8], &str)] = &[
        (
            &[0x17, 0x00, 0x02, 0x69, 0xe0, 0x00, 0x06, 0x96],
            "IGMP leave group group_addr=224.0.6.150",
        ),
        (
            &[0x11, 0x80, 0xee, 0x7f, 0, 0, 0, 0],
            "IGMP membership query max_resp_time=12.800s group_addr=0.0.0.0 version=Version2",
        ),
        (
            &[0x12, 0x00, 0x0c, 0xda, 0xe1, 0x00, 0x00, 0x25],
            "IGMP membership report group_addr=225.0.0.37 version=Version1",
        ),
        (
            &[0x17, 0x00, 0x02, 0x69, 0x0a, 0x00, 0x06, 0x96],
            "IGMP (wire::Error)",
        ),
        (&[0x17], "IGMP (wire::Error)"),
        (&[], "IGMP (wire::Error)"),
    ];
    for &(octets, text) in ROWS {
        let packet = Packet::new_unchecked(octets);
        prints(&packet, text);
    }
}

// Ends the test where the octets are refused for another reason, or where it prints another text.
fn check_refusal(octets: &[u8], refusal: Refusal, text: &str) {
    let told = Repr::refusal(&Packet::new_unchecked(octets));
    same_of(octets, told, Some(refusal));
    prints(&refusal, text);
}

#[test]
fn messages_that_are_refused() {
    const SHORT: &[u8] = &[0x22, 0, 0, 0, 0xe0, 0, 0x06];
    check_refusal(SHORT, Refusal::Short, "fewer than 8 bytes");
    // A report of IGMPv3, whatever it has where the group of version 2 is: its reserved bytes and one record.
    let kind = Refusal::UnknownType(0x22);
    for octets in [
        [0x22, 0, 0, 0, 0, 0, 0, 1],
        [0x22, 0, 0, 0, 0xe0, 0, 0x06, 0x96],
    ] {
        check_refusal(&octets, kind, "type 34 is not read");
    }
    let text = "group 10.0.0.1 is neither 0.0.0.0 nor multicast";
    for number in [0x11, 0x12, 0x16, 0x17] {
        let group = Refusal::Group(Ipv4Address::new(10, 0, 0, 1));
        check_refusal(&[number, 0, 0, 0, 10, 0, 0, 1], group, text);
    }
    let octets: &[u8] = &[0x17, 0, 0, 0, 0xe0, 0, 0x06, 0x96];
    same(Repr::refusal(&Packet::new_unchecked(octets)), None);
}

#[test]
fn messages_are_read_or_told_why_they_are_refused() {
    let octets: &[u8] = &[0x17, 0, 0, 0, 0xe0, 0, 0x06, 0x96];
    let whole = Packet::new_unchecked(octets);
    same(Repr::parse_or_refusal(&whole), Ok(leave()));
    let cut = Packet::new_unchecked(&octets[..7]);
    same(Repr::parse_or_refusal(&cut), Err(Refusal::Short));
}

#[test]
fn versions_print_their_names() {
    prints(&Version1, "Version1");
    prints(&Version2, "Version2");
}

#[test]
fn printing_fails_only_with_its_writer() {
    const ROWS: &[(&[u8], u32)] = &[
        (&[0x11, 0x80, 0xee, 0x7f, 0, 0, 0, 0], 11),
        (&[0x17, 0x00, 0x02, 0x69, 0xe0, 0x00, 0x06, 0x96], 2),
        (&[], 1),
    ];
    for &(octets, calls) in ROWS {
        takes_writes(&Packet::new_unchecked(octets), calls);
    }
}

#[test]
fn types_are_printed_in_one_write() {
    for number in [0x11, 0x12, 0x16, 0x17, 0x13] {
        takes_writes(&Message::from(number), 1);
    }
}
