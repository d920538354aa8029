// Made from crates/tests_dhcp_dns/src/dhcp/dhcpv4_repr/writing.rt by rust/erase.

use super::{bare, compare_read, five_servers, with_options};
use crate::dhcp::dhcpv4::packet;
use crate::testing::{fail, holds_of, same, same_of};
use control_wire::dhcpv4::{DhcpOption, MessageType, Packet, Repr};
use control_wire::{EthernetAddress, Ipv4Address};

// An option of more data than one byte counts.
const LONG_DATA: [u8; 256] = [0; 256];

const LONG_OPTION: &[DhcpOption<'static>] = &[DhcpOption {
    kind: 12,
    data: &LONG_DATA,
}];

// The name of a host.
const HOST_NAME: &[DhcpOption<'static>] = &[DhcpOption {
    kind: 12,
    data: b"ab",
}];

// One of one byte.
const SHORT_NAME: &[DhcpOption<'static>] = &[DhcpOption {
    kind: 12,
    data: b"a",
}];

// How many bytes of these options are written where there is so much room: those of the options up to the first that
// does not fit, and the end mark behind the last.
fn written_len(options: &[u8], room: usize) -> usize {
    let mut written: usize = 0;
    for _ in 0..options.len() {
        let len = match options.get(written..) {
            Some([255, ..]) => 1,
            Some([_, len, ..]) => *len as usize + 2,
            _ => break,
        };
        let end = written.saturating_add(len);
        if room < end {
            break;
        }
        written = end;
    }
    written
}

// Copies bytes to this place.
fn put(octets: &mut [u8], place: usize, bytes: &[u8]) {
    for (octet, byte) in octets.iter_mut().skip(place).zip(bytes) {
        *octet = *byte;
    }
}

// What 600 bytes of this value hold after a packet was written over so many of them: its first fields, zeros for
// the names, the cookie, and the options for which there is room.
fn written(fill: u8, first_fields: &[u8; 34], options: &[u8], len: usize) -> [u8; 600] {
    let mut octets = [fill; 600];
    put(&mut octets, 0, first_fields);
    put(&mut octets, 34, &[0; 202]);
    put(&mut octets, 236, &[0x63, 0x82, 0x53, 0x63]);
    let written = written_len(options, len.saturating_sub(240));
    put(&mut octets, 240, options.get(..written).unwrap_or(&[]));
    octets
}

// Writes a value over so many of 600 bytes of this content, where it fits or is refused. Answers all 600.
fn emitted(repr: &Repr<'_>, fill: u8, len: usize, fits: bool) -> [u8; 600] {
    let mut octets = [fill; 600];
    let answer = repr.emit_into(&mut octets[..len]);
    same_of(len, answer.is_ok(), fits);
    octets
}

// Writes a value over buffers of every length and of three contents, and compares them with what is expected.
fn compare_written(repr: &Repr<'_>, first_fields: &[u8; 34], options: &[u8]) {
    for &fill in &[0x00, 0xff, 0x2a] {
        for len in 240..=340 {
            let octets = emitted(repr, fill, len, options.len() <= len - 240);
            let wanted = written(fill, first_fields, options, len);
            same_of((len, fill), octets, wanted);
        }
    }
}

// The first fields of a packet of this operation and of Ethernet, all others zero.
const fn first_fields(op: u8) -> [u8; 34] {
    [
        op, 1, 6, 0, 0, 0, 0, 0, 0, 0, 0, 0, 0, 0, 0, 0, 0, 0, 0, 0, 0, 0, 0, 0, 0, 0, 0, 0, 0, 0,
        0, 0, 0, 0,
    ]
}

// An Ack with its three times, and its options.
fn ack() -> Repr<'static> {
    let mut repr = bare(MessageType::Ack);
    repr.lease_duration = Some(3600);
    repr.renew_duration = Some(1800);
    repr.rebind_duration = Some(3150);
    repr
}

const ACK_OPTIONS: [u8; 22] = [
    0x35, 0x01, 0x05, 0x33, 0x04, 0x00, 0x00, 0x0e, 0x10, 0x3a, 0x04, 0x00, 0x00, 0x07, 0x08, 0x3b,
    0x04, 0x00, 0x00, 0x0c, 0x4e, 0xff,
];

// Those of an Ack whose renewal time is a second later.
const LATER_ACK_OPTIONS: [u8; 22] = [
    0x35, 0x01, 0x05, 0x33, 0x04, 0x00, 0x00, 0x0e, 0x10, 0x3a, 0x04, 0x00, 0x00, 0x07, 0x09, 0x3b,
    0x04, 0x00, 0x00, 0x0c, 0x4e, 0xff,
];

// An Offer with every field, and its bytes before the names and behind the cookie.
fn offer() -> Repr<'static> {
    let mut repr = bare(MessageType::Offer);
    repr.transaction_id = 0x0102_0304;
    repr.secs = 0x0506;
    repr.client_hardware_address = EthernetAddress([2, 3, 4, 5, 6, 7]);
    repr.client_ip = Ipv4Address::new(10, 0, 1, 1);
    repr.your_ip = Ipv4Address::new(10, 0, 1, 2);
    repr.server_ip = Ipv4Address::new(10, 0, 1, 3);
    repr.relay_agent_ip = Ipv4Address::new(10, 0, 1, 4);
    repr.router = Some(Ipv4Address::new(10, 0, 0, 3));
    repr.subnet_mask = Some(Ipv4Address::new(255, 255, 255, 0));
    repr.broadcast = true;
    repr.requested_ip = Some(Ipv4Address::new(10, 0, 0, 4));
    repr.client_identifier = Some(EthernetAddress([2, 3, 4, 5, 6, 8]));
    repr.server_identifier = Some(Ipv4Address::new(10, 0, 0, 1));
    repr.parameter_request_list = Some(&[1, 3, 6]);
    repr.dns_servers = Some(five_servers());
    repr.max_size = Some(1500);
    repr.lease_duration = Some(3600);
    repr.renew_duration = Some(1800);
    repr.rebind_duration = Some(3150);
    repr
}

const OFFER_FIRST_FIELDS: [u8; 34] = [
    0x02, 0x01, 0x06, 0x00, 0x01, 0x02, 0x03, 0x04, 0x05, 0x06, 0x80, 0x00, 0x0a, 0x00, 0x01, 0x01,
    0x0a, 0x00, 0x01, 0x02, 0x0a, 0x00, 0x01, 0x03, 0x0a, 0x00, 0x01, 0x04, 0x02, 0x03, 0x04, 0x05,
    0x06, 0x07,
];

const OFFER_OPTIONS: [u8; 86] = [
    0x35, 0x01, 0x02, 0x3d, 0x07, 0x01, 0x02, 0x03, 0x04, 0x05, 0x06, 0x08, 0x36, 0x04, 0x0a, 0x00,
    0x00, 0x01, 0x03, 0x04, 0x0a, 0x00, 0x00, 0x03, 0x01, 0x04, 0xff, 0xff, 0xff, 0x00, 0x32, 0x04,
    0x0a, 0x00, 0x00, 0x04, 0x39, 0x02, 0x05, 0xdc, 0x33, 0x04, 0x00, 0x00, 0x0e, 0x10, 0x3a, 0x04,
    0x00, 0x00, 0x07, 0x08, 0x3b, 0x04, 0x00, 0x00, 0x0c, 0x4e, 0x37, 0x03, 0x01, 0x03, 0x06, 0x06,
    0x14, 0x0a, 0x00, 0x00, 0x01, 0x0a, 0x00, 0x00, 0x02, 0x0a, 0x00, 0x00, 0x03, 0x0a, 0x00, 0x00,
    0x04, 0x0a, 0x00, 0x00, 0x05, 0xff,
];

// A Request of an address that was offered, and its bytes before the names and behind the cookie.
fn request() -> Repr<'static> {
    let mut repr = bare(MessageType::Request);
    repr.transaction_id = 0xdead_beef;
    repr.client_hardware_address = EthernetAddress([2, 0, 0, 0, 0, 1]);
    repr.client_identifier = Some(EthernetAddress([2, 0, 0, 0, 0, 3]));
    repr.server_identifier = Some(Ipv4Address::new(10, 0, 0, 1));
    repr.requested_ip = Some(Ipv4Address::new(10, 0, 0, 9));
    repr.max_size = Some(1500);
    repr.parameter_request_list = Some(&[1, 3, 6, 42]);
    repr
}

const REQUEST_FIRST_FIELDS: [u8; 34] = [
    0x01, 0x01, 0x06, 0x00, 0xde, 0xad, 0xbe, 0xef, 0x00, 0x00, 0x00, 0x00, 0x00, 0x00, 0x00, 0x00,
    0x00, 0x00, 0x00, 0x00, 0x00, 0x00, 0x00, 0x00, 0x00, 0x00, 0x00, 0x00, 0x02, 0x00, 0x00, 0x00,
    0x00, 0x01,
];

const REQUEST_OPTIONS: [u8; 35] = [
    0x35, 0x01, 0x03, 0x3d, 0x07, 0x01, 0x02, 0x00, 0x00, 0x00, 0x00, 0x03, 0x36, 0x04, 0x0a, 0x00,
    0x00, 0x01, 0x32, 0x04, 0x0a, 0x00, 0x00, 0x09, 0x39, 0x02, 0x05, 0xdc, 0x37, 0x04, 0x01, 0x03,
    0x06, 0x2a, 0xff,
];

#[test]
fn discovers_over_buffers_of_every_length_and_of_three_contents() {
    let discover = bare(MessageType::Discover);
    compare_written(&discover, &first_fields(1), &[0x35, 1, 1, 0xff]);
    let named = with_options(MessageType::Discover, HOST_NAME);
    let named_options = [0x35, 1, 1, 12, 2, 0x61, 0x62, 0xff];
    compare_written(&named, &first_fields(1), &named_options);
}

#[test]
fn answers_over_buffers_of_every_length_and_of_three_contents() {
    compare_written(&ack(), &first_fields(2), &ACK_OPTIONS);
    compare_written(&offer(), &OFFER_FIRST_FIELDS, &OFFER_OPTIONS);
}

#[test]
fn a_request_over_buffers_of_every_length_and_of_three_contents() {
    compare_written(&request(), &REQUEST_FIRST_FIELDS, &REQUEST_OPTIONS);
}

// Writes a value over so many bytes 0x2a, where it fits or is refused; then these parts are at their places.
fn compare_parts(repr: &Repr<'_>, len: usize, fits: bool, parts: &[(usize, &[u8])]) {
    let octets = emitted(repr, 0x2a, len, fits);
    for &(place, part) in parts {
        let rest = octets.get(place..).unwrap_or(&[]);
        holds_of((place, part), rest.starts_with(part));
    }
}

#[test]
fn an_ack_without_room_for_its_last_time() {
    compare_parts(&ack(), 255, false, &[(240, &ACK_OPTIONS[..15])]);
}

// Writes a Discover with this list over so many bytes.
fn compare_list(list: &'static [u8], len: usize, fits: bool, parts: &[(usize, &[u8])]) {
    let mut repr = bare(MessageType::Discover);
    repr.parameter_request_list = Some(list);
    compare_parts(&repr, len, fits, parts);
}

#[test]
fn a_request_list_of_255_bytes() {
    let parts: [(usize, &[u8]); 2] = [(243, &[0x37, 255, 42]), (500, &[0xff])];
    compare_list(&[42; 255], 501, true, &parts);
}

#[test]
fn a_request_list_of_256_bytes() {
    let parts: [(usize, &[u8]); 1] = [(240, &[0x35, 1, 1, 0x2a, 0x2a, 0x2a])];
    compare_list(&[42; 256], 600, false, &parts);
}

#[test]
fn an_additional_option_of_256_bytes() {
    let parts: [(usize, &[u8]); 2] = [(240, &[0x35, 1, 1]), (243, &[0x2a; 357])];
    let repr = with_options(MessageType::Discover, LONG_OPTION);
    compare_parts(&repr, 600, false, &parts);
}

#[test]
fn a_value_written_into_a_view() {
    let repr = bare(MessageType::Inform);
    let mut octets = [0xff; 244];
    let mut view = Packet::new_unchecked(&mut octets[..]);
    same(repr.emit(&mut view), Ok(()));
    let wanted = packet(1, &[0x35, 1, 8, 0xff]);
    same(&octets[..], wanted.as_slice());
}

// Writes a value, and reads it back.
fn compare_read_back(repr: &Repr<'_>) {
    compare_read(&emitted(repr, 0x2a, 600, true), repr);
}

#[test]
fn values_written_are_read_back() {
    compare_read_back(&offer());
    compare_read_back(&request());
}

// Writes a value over as many bytes 0x2a as the packet of these options has. Then they are that packet, and are read as
// the other value.
fn compare_packet(repr: &Repr<'_>, op: u8, options: &[u8], read: &Repr<'_>) {
    let wanted = packet(op, options);
    let len = wanted.len();
    holds_of(len, 240 <= len);
    holds_of(len, len <= 600);
    let octets = emitted(repr, 0x2a, len, true);
    same(&octets[..len], wanted.as_slice());
    compare_read(&octets[..len], read);
}

// Writes an Ack with its three times, of which the renewal time is this.
fn compare_ack(renew_duration: u32, options: &[u8]) {
    let mut repr = ack();
    repr.renew_duration = Some(renew_duration);
    compare_read_back(&repr);
    compare_packet(&repr, 2, options, &repr);
}

#[test]
fn values_of_two_renewal_times_have_two_texts() {
    compare_ack(1800, &ACK_OPTIONS);
    compare_ack(1801, &LATER_ACK_OPTIONS);
    holds_of("another text", ACK_OPTIONS != LATER_ACK_OPTIONS);
}

// Reads a packet, and writes what it says.
fn rewritten(packet: &[u8]) -> [u8; 250] {
    let mut octets = [0x2a; 250];
    match Repr::parse(&Packet::new_unchecked(packet)) {
        Ok(read) => same(read.emit_into(&mut octets), Ok(())),
        Err(_) => fail("the packet is read"),
    }
    octets
}

#[test]
fn a_list_with_half_an_address_is_rewritten_without_it() {
    let octets = packet(1, &[0x35, 1, 1, 6, 6, 8, 8, 8, 8, 1, 2, 0xff]);
    let wanted = packet(1, &[0x35, 1, 1, 6, 4, 8, 8, 8, 8, 0xff]);
    let once = rewritten(octets.as_slice());
    same(&once[..], wanted.as_slice());
    let twice = rewritten(&once);
    same(&twice[..], wanted.as_slice());
}

// Writes a Discover with additional options, which is read as one without them.
fn compare_discover(additional_options: &'static [DhcpOption<'static>], options: &[u8]) {
    let repr = with_options(MessageType::Discover, additional_options);
    let read = bare(MessageType::Discover);
    compare_packet(&repr, 1, options, &read);
}

#[test]
fn an_additional_option_is_all_that_two_texts_differ_by() {
    compare_discover(&[], &[0x35, 1, 1, 0xff]);
    let named = [0x35, 1, 1, 12, 1, 0x61, 0xff];
    compare_discover(SHORT_NAME, &named);
}
