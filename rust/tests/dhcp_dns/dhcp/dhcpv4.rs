// Made from crates/tests_dhcp_dns/src/dhcp/dhcpv4.rt by rust/erase.

use crate::dhcp::plain_reader::{compare_damaged, compare_view};
#[allow(unused_imports)]
use crate::rattle_std::prelude::*;
use crate::testing::{holds_of, same, same_of};
use control_wire::dhcpv4::{
    CLIENT_PORT, DhcpOption, DhcpOptionWriter, Flags, MAX_DNS_SERVER_COUNT, MessageType,
    OPT_DHCP_MESSAGE_TYPE, OPT_HOST_NAME, OpCode, Packet, SERVER_PORT,
};
use control_wire::{Error, EthernetAddress, Hardware, Ipv4Address};

// These parts, one behind the other. Ends the test where there is no memory for them.
fn joined(parts: &[&[u8]]) -> Vec<u8> {
    let mut octets = Vec::new();
    for &part in parts {
        holds_of(part, octets.extend_from_slice(part).is_ok());
    }
    octets
}

// A packet of this operation, of Ethernet and with the cookie of DHCP, and these options behind it.
pub(crate) fn packet(op: u8, options: &[u8]) -> Vec<u8> {
    let parts: [&[u8]; 4] = [
        &[op, 1, 6, 0],
        &[0; 232],
        &[0x63, 0x82, 0x53, 0x63],
        options,
    ];
    joined(&parts)
}

// A Discover that has these options too.
pub(crate) fn discover_with(options: &[u8]) -> Vec<u8> {
    let parts: [&[u8]; 3] = [&[0x35, 1, 1], options, &[0xff]];
    packet(1, joined(&parts).as_slice())
}

// A Discover, and behind a thousand bytes of padding a mask.
pub(crate) fn padded_discover() -> Vec<u8> {
    let parts: [&[u8]; 3] = [
        &[0x35, 1, 1],
        &[0; 1000],
        &[0x01, 4, 0xff, 0xff, 0xff, 0x00],
    ];
    packet(1, joined(&parts).as_slice())
}

// The name of a host of one letter, one of none, and an option of another kind with two letters.
const NAME: DhcpOption<'static> = DhcpOption {
    kind: OPT_HOST_NAME,
    data: b"a",
};

const EMPTY_NAME: DhcpOption<'static> = DhcpOption {
    kind: OPT_HOST_NAME,
    data: b"",
};

const LETTERS: DhcpOption<'static> = DhcpOption {
    kind: 13,
    data: b"bc",
};

// The type of a Discover.
const DISCOVER: DhcpOption<'static> = DhcpOption {
    kind: OPT_DHCP_MESSAGE_TYPE,
    data: &[1],
};

// Compares the options of a packet, behind which comes the end for good.
fn check_options(packet: &mut [u8], wanted: &[DhcpOption<'_>]) {
    compare_view(packet, wanted);
    compare_damaged(packet);
}

#[test]
fn options_in_turn_and_then_the_end_for_good() {
    const ROWS: &[(&[u8], &[DhcpOption<'static>])] = &[
        (&[], &[]),
        (&[0xff, 1, 0], &[]),
        (&[0, 0, 12, 1, 0x61], &[NAME]),
        (&[12], &[]),
        (&[12, 2, 0x61], &[]),
        (&[12, 0, 0xff, 12, 0], &[EMPTY_NAME]),
        (&[12, 1, 0x61, 0, 13, 2, 0x62, 0x63, 0xff], &[NAME, LETTERS]),
        (&[12, 1, 0x61, 13, 2, 0x62], &[NAME]),
        (&[0, 0xff], &[]),
    ];
    for &(bytes, wanted) in ROWS {
        let mut octets = packet(1, bytes);
        check_options(octets.as_mut_slice(), wanted);
    }
}

#[test]
fn a_thousand_bytes_of_padding_before_an_option() {
    const MASK: DhcpOption<'static> = DhcpOption {
        kind: 1,
        data: &[0xff, 0xff, 0xff, 0x00],
    };
    let mut octets = padded_discover();
    check_options(octets.as_mut_slice(), &[DISCOVER, MASK]);
}

#[test]
fn padding_of_up_to_20_bytes_before_and_behind_options() {
    // Of this kind only the highest bit is set.
    const EMPTY: DhcpOption<'static> = DhcpOption {
        kind: 128,
        data: b"",
    };
    const PADDING: &[u8] = &[0; 20];
    for count in 0..=20 {
        let padding = &PADDING[..count];
        let parts: [&[u8]; 5] = [padding, &[128, 0], padding, &[12, 1, 0x61], padding];
        let options = joined(&parts);
        let mut octets = packet(1, options.as_slice());
        check_options(octets.as_mut_slice(), &[EMPTY, NAME]);
    }
}

// Compares both names of a packet of this byte, whose names begin with another one.
fn check_names(first: u8, rest: u8, wanted: Option<&str>) {
    let mut octets = [rest; 240];
    octets[34] = first;
    octets[108] = first;
    let view = Packet::new_unchecked(&octets[..]);
    same_of((first, rest), view.get_sname().ok(), wanted);
    same_of((first, rest), view.get_boot_file().ok(), wanted);
}

#[test]
fn names_before_the_first_zero() {
    check_names(0x00, 0x00, None);
    check_names(0x61, 0x61, None);
    check_names(0xff, 0x00, None);
    check_names(0x61, 0x00, Some("a"));
}

#[test]
fn names_and_options_in_octets_that_may_be_written() {
    let mut octets = [0; 244];
    octets[34..37].copy_from_slice(b"srv");
    octets[108..112].copy_from_slice(b"file");
    octets[240..244].copy_from_slice(&[12, 1, 0x61, 0xff]);
    let view = Packet::new_unchecked(&mut octets[..]);
    same(view.get_sname().ok(), Some("srv"));
    same(view.get_boot_file().ok(), Some("file"));
    let mut options = view.options();
    same(options.next(), Some(NAME));
    same(options.next(), None);
}

// The first option in these octets, which lives longer than the view.
fn first_option(octets: &[u8]) -> Option<DhcpOption<'_>> {
    Packet::new_unchecked(octets).into_options().next()
}

#[test]
fn an_option_that_lives_longer_than_its_view() {
    let mut octets = [0; 244];
    octets[240..244].copy_from_slice(&[12, 1, 0x61, 0xff]);
    same(first_option(&octets), Some(NAME));
}

// Writes an option of four bytes over these octets, and the end mark. Of an option and a mark behind it none is taken.
fn check_writer(octets: &mut [u8]) {
    const TWO_LETTERS: DhcpOption<'static> = DhcpOption {
        kind: OPT_HOST_NAME,
        data: b"ab",
    };
    let room = octets.len();
    let mut writer = DhcpOptionWriter::new(octets);
    let taken = [writer.emit(TWO_LETTERS).is_ok(), writer.end().is_ok()];
    same_of(room, taken, [4 <= room, room != 0 && room != 4]);
    let behind_the_end = [writer.end(), writer.emit(EMPTY_NAME)];
    same_of(room, behind_the_end, [Err(Error), Err(Error)]);
}

#[test]
fn bytes_that_a_writer_has_written() {
    let mut octets = [0x2a; 9];
    let mut writer = DhcpOptionWriter::new(&mut octets);
    same_of(0, (writer.len(), writer.is_empty()), (0, true));
    holds_of(0, writer.emit(NAME).is_ok());
    same_of(1, (writer.len(), writer.is_empty()), (3, false));
    holds_of(1, writer.emit(LETTERS).is_ok());
    same_of(2, writer.len(), 7);
    holds_of(2, writer.emit(NAME).is_err());
    same_of(3, writer.len(), 7);
    holds_of(3, writer.end().is_ok());
    same_of(4, writer.len(), 9);
}

#[test]
fn a_writer_and_its_refusals() {
    for room in 0..=5 {
        let mut octets = [0x2a; 5];
        check_writer(&mut octets[..room]);
        let wanted: [u8; 5] = match room {
            0 => [0x2a; 5],
            1 | 2 | 3 => [0xff, 0x2a, 0x2a, 0x2a, 0x2a],
            4 => [12, 2, 0x61, 0x62, 0x2a],
            _ => [12, 2, 0x61, 0x62, 0xff],
        };
        same_of(room, octets, wanted);
    }
}

#[test]
fn a_writer_takes_255_bytes_of_data_and_no_more() {
    let data = [0x2a; 256];
    let too_long = DhcpOption {
        kind: 12,
        data: &data,
    };
    let longest = DhcpOption {
        kind: 12,
        data: &data[..255],
    };
    let mut octets = [0; 600];
    let mut writer = DhcpOptionWriter::new(&mut octets);
    let answers = [writer.emit(too_long), writer.emit(longest), writer.end()];
    same(answers, [Err(Error), Ok(()), Ok(())]);
    same([octets[1], octets[257], octets[258]], [255, 0xff, 0]);
}

fn check_numbers(read: &Packet<&[u8]>) {
    same(read.opcode(), OpCode::Reply);
    same(read.hardware_type(), Hardware::Ethernet);
    same(read.hardware_len(), 6);
    same(read.hops(), 3);
    same(read.transaction_id(), 0x0102_0304);
    same(read.secs(), 0x0506);
    same(read.flags(), Flags::BROADCAST);
}

fn check_addresses(read: &Packet<&[u8]>) {
    same(read.client_ip(), Ipv4Address::new(10, 0, 0, 1));
    same(read.your_ip(), Ipv4Address::new(10, 0, 0, 2));
    same(read.server_ip(), Ipv4Address::new(10, 0, 0, 3));
    same(read.relay_agent_ip(), Ipv4Address::new(10, 0, 0, 4));
    same(
        read.client_hardware_address(),
        EthernetAddress([2, 3, 4, 5, 6, 7]),
    );
    same(read.magic_number(), 0x6382_5363);
}

fn set_numbers(octets: &mut [u8]) {
    let mut view = Packet::new_unchecked(octets);
    view.set_opcode(OpCode::Reply);
    view.set_hardware_type(Hardware::Ethernet);
    view.set_hardware_len(6);
    view.set_hops(3);
    view.set_transaction_id(0x0102_0304);
    view.set_secs(0x0506);
    view.set_flags(Flags::BROADCAST);
    view.set_magic_number(0x6382_5363);
}

fn set_addresses(octets: &mut [u8]) {
    let mut view = Packet::new_unchecked(octets);
    view.set_sname_and_boot_file_to_zero();
    view.set_client_ip(Ipv4Address::new(10, 0, 0, 1));
    view.set_your_ip(Ipv4Address::new(10, 0, 0, 2));
    view.set_server_ip(Ipv4Address::new(10, 0, 0, 3));
    view.set_relay_agent_ip(Ipv4Address::new(10, 0, 0, 4));
    view.set_client_hardware_address(EthernetAddress([2, 3, 4, 5, 6, 7]));
}

// The octets that they are set in, which were all 0x2a.
fn octets_of_fields() -> [u8; 250] {
    let head: [u8; 34] = [
        0x02, 0x01, 0x06, 0x03, 0x01, 0x02, 0x03, 0x04, 0x05, 0x06, 0x80, 0x00, 0x0a, 0x00, 0x00,
        0x01, 0x0a, 0x00, 0x00, 0x02, 0x0a, 0x00, 0x00, 0x03, 0x0a, 0x00, 0x00, 0x04, 0x02, 0x03,
        0x04, 0x05, 0x06, 0x07,
    ];
    let mut wanted = [0x2a; 250];
    wanted[0..34].copy_from_slice(&head);
    wanted[34..236].fill(0);
    wanted[236..240].copy_from_slice(&[0x63, 0x82, 0x53, 0x63]);
    wanted
}

#[test]
fn fields_of_a_packet() {
    let mut octets = [0x2a; 250];
    set_numbers(&mut octets);
    set_addresses(&mut octets);
    same(octets, octets_of_fields());
    holds_of(250, Packet::new_checked(&octets[..]).is_ok());
    let read = Packet::new_unchecked(&octets[..]);
    check_numbers(&read);
    check_addresses(&read);
    same(read, read);
    same(read.into_inner().len(), 250);
    holds_of(239, Packet::new_checked(&[0; 239][..]).is_err());
}

#[test]
fn numbers_of_operations() {
    const ROWS: &[(u8, OpCode)] = &[
        (0, OpCode::Unknown(0)),
        (1, OpCode::Request),
        (2, OpCode::Reply),
        (3, OpCode::Unknown(3)),
    ];
    for &(number, opcode) in ROWS {
        same(OpCode::from(number), opcode);
        same(u8::from(opcode), number);
    }
}

#[test]
fn numbers_of_types_of_message() {
    const ROWS: &[(u8, MessageType)] = &[
        (1, MessageType::Discover),
        (2, MessageType::Offer),
        (3, MessageType::Request),
        (4, MessageType::Decline),
        (5, MessageType::Ack),
        (6, MessageType::Nak),
        (7, MessageType::Release),
        (8, MessageType::Inform),
        (9, MessageType::Unknown(9)),
        (0, MessageType::Unknown(0)),
    ];
    for &(number, message) in ROWS {
        same(MessageType::from(number), message);
        same(u8::from(message), number);
    }
    holds_of("their order", MessageType::Inform < MessageType::Unknown(0));
}

#[test]
fn bits_of_flags() {
    let none = !Flags::BROADCAST;
    same([Flags::all().bits(), none.bits()], [0x8000, 0]);
    same(Flags::from_bits_truncate(0xffff), Flags::BROADCAST);
}

#[test]
fn numbers_of_ports_and_of_servers() {
    same([SERVER_PORT, CLIENT_PORT], [67, 68]);
    same(MAX_DNS_SERVER_COUNT, 5);
}

#[test]
fn options_written_into_a_view() {
    let mut octets = [0x2a; 245];
    let mut view = Packet::new_unchecked(&mut octets[..]);
    let mut options = view.options_mut();
    let answers = [
        options.emit(DISCOVER),
        options.emit(DISCOVER),
        options.end(),
    ];
    same(answers, [Ok(()), Err(Error), Ok(())]);
    let mut wanted = [0x2a; 245];
    wanted[240..244].copy_from_slice(&[0x35, 1, 1, 0xff]);
    same(octets, wanted);
}
