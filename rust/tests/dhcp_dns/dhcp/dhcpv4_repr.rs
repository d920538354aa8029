// Made from crates/tests_dhcp_dns/src/dhcp/dhcpv4_repr.rt by rust/erase.

use crate::testing::{fail, same};
use arrayvec::ArrayVec;
use control_wire::dhcpv4::{DhcpOption, MAX_DNS_SERVER_COUNT, MessageType, Packet, Repr};
use control_wire::{EthernetAddress, Ipv4Address};

mod lengths;
mod printing;
mod reading;
mod writing;

// A message of this type that says nothing else.
fn bare(message_type: MessageType) -> Repr<'static> {
    with_options(message_type, &[])
}

// A message of this type with these additional options, that says nothing else.
fn with_options(
    message_type: MessageType,
    additional_options: &'static [DhcpOption<'static>],
) -> Repr<'static> {
    Repr {
        message_type,
        transaction_id: 0,
        secs: 0,
        client_hardware_address: EthernetAddress([0; 6]),
        client_ip: Ipv4Address::UNSPECIFIED,
        your_ip: Ipv4Address::UNSPECIFIED,
        server_ip: Ipv4Address::UNSPECIFIED,
        router: None,
        subnet_mask: None,
        relay_agent_ip: Ipv4Address::UNSPECIFIED,
        broadcast: false,
        requested_ip: None,
        client_identifier: None,
        server_identifier: None,
        parameter_request_list: None,
        dns_servers: None,
        max_size: None,
        lease_duration: None,
        renew_duration: None,
        rebind_duration: None,
        additional_options,
    }
}

// The number that these bytes are, the highest first.
fn number_in(data: Option<&[u8]>) -> Option<u64> {
    let mut number = 0;
    for byte in data? {
        number = (number << 8) | *byte as u64;
    }
    Some(number)
}

// An address as a number.
fn number_of(address: Option<Ipv4Address>) -> Option<u64> {
    number_in(Some(&address?.octets()))
}

// A time as a number.
fn seconds_of(seconds: Option<u32>) -> Option<u64> {
    Some(seconds? as u64)
}

// What the value holds of the options of this kind: a number, and of a list how many entries it has.
fn held(read: &Repr<'_>, kind: u8) -> Option<u64> {
    match kind {
        1 => number_of(read.subnet_mask),
        3 => number_of(read.router),
        6 => Some(read.dns_servers.as_ref()?.len() as u64),
        50 => number_of(read.requested_ip),
        51 => seconds_of(read.lease_duration),
        53 => Some(u8::from(read.message_type) as u64),
        54 => number_of(read.server_identifier),
        55 => Some(read.parameter_request_list?.len() as u64),
        57 => Some(read.max_size? as u64),
        58 => seconds_of(read.renew_duration),
        59 => seconds_of(read.rebind_duration),
        61 => number_in(Some(&read.client_identifier?.0)),
        _ => None,
    }
}

// What a packet that is read holds of the options of this kind.
fn held_in(packet: &[u8], kind: u8) -> Option<Option<u64>> {
    match Repr::parse(&Packet::new_unchecked(packet)) {
        Ok(read) => Some(held(&read, kind)),
        Err(_) => None,
    }
}

// Reads a packet, which is to say this.
fn compare_read(packet: &[u8], repr: &Repr<'_>) {
    match Repr::parse(&Packet::new_unchecked(packet)) {
        Ok(read) => same(&read, repr),
        Err(_) => fail("the packet is read"),
    }
}

// The servers 10.0.0.1 to 10.0.0.5.
fn five_servers() -> ArrayVec<Ipv4Address, MAX_DNS_SERVER_COUNT> {
    ArrayVec::from([
        Ipv4Address::new(10, 0, 0, 1),
        Ipv4Address::new(10, 0, 0, 2),
        Ipv4Address::new(10, 0, 0, 3),
        Ipv4Address::new(10, 0, 0, 4),
        Ipv4Address::new(10, 0, 0, 5),
    ])
}

#[test]
fn bytes_that_a_value_takes() {
    let mut repr = bare(MessageType::Discover);
    same(repr.buffer_len(), 244);
    repr.client_identifier = Some(EthernetAddress([2, 0, 0, 0, 0, 1]));
    repr.requested_ip = Some(Ipv4Address::UNSPECIFIED);
    repr.max_size = Some(1500);
    repr.parameter_request_list = Some(&[1, 3, 6, 42]);
    same(repr.buffer_len(), 269);
}

#[test]
fn bytes_that_three_times_take() {
    let mut repr = bare(MessageType::Ack);
    repr.lease_duration = Some(3600);
    repr.renew_duration = Some(1800);
    repr.rebind_duration = Some(3150);
    same(repr.buffer_len(), 262);
}

#[test]
fn a_discover_with_five_servers_takes_266_bytes() {
    let mut repr = bare(MessageType::Discover);
    repr.dns_servers = Some(five_servers());
    same(repr.buffer_len(), 266);
}
