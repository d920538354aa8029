// Made from crates/tests_packet_pairs/src/made.rt by rust/erase.
// Messages that are made, and what becomes of them.

use control_wire::frames::Addresses;
use control_wire::{Ipv4Address, Ipv6Address};
use message_fields::{Message, Service};
use packet_pairs::{Answered, Pairs, exchange_of};

// From the host of the captures, 192.0.2.50, to their server, 192.0.2.1, and back.
pub(crate) fn to_server() -> Addresses {
    Addresses::V4(
        Ipv4Address::new(192, 0, 2, 50),
        Ipv4Address::new(192, 0, 2, 1),
    )
}

pub(crate) fn to_host() -> Addresses {
    Addresses::V4(
        Ipv4Address::new(192, 0, 2, 1),
        Ipv4Address::new(192, 0, 2, 50),
    )
}

// The addresses 2001:db8:1::7 and 2001:db8:1::1.
pub(crate) fn host_v6() -> Ipv6Address {
    Ipv6Address::new(0x2001, 0xdb8, 1, 0, 0, 0, 0, 7)
}

pub(crate) fn server_v6() -> Ipv6Address {
    Ipv6Address::new(0x2001, 0xdb8, 1, 0, 0, 0, 0, 1)
}

// A datagram of UDP of a service.
pub(crate) fn udp(service: Service, addresses: Addresses, octets: &[u8]) -> Message<'_> {
    Message::Udp(service, addresses, octets)
}

// The header of a segment of TCP between these ports, without options (RFC 9293 section 3.1).
pub(crate) fn tcp_header(src_port: u16, dst_port: u16) -> [u8; 20] {
    let mut octets = [0; 20];
    put(&mut octets, 0, &src_port.to_be_bytes());
    put(&mut octets, 2, &dst_port.to_be_bytes());
    octets[12] = 0x50;
    octets
}

// What a message is told to answer: the number of the question, and the time from then on. One that neither asks nor
// answers is told as 0 is; where there is no memory, it is seen once more, since nothing changed.
pub(crate) fn seen(
    pairs: &mut Pairs,
    number: u64,
    time: u64,
    message: &Message<'_>,
    addresses: &Addresses,
) -> Option<(u64, Option<u64>)> {
    let exchange = exchange_of(message, addresses)?;
    match pairs.see(number, Some(time), exchange) {
        Ok(answered) => told(answered),
        Err(_) => told(
            pairs
                .see(number, Some(time), exchange_of(message, addresses)?)
                .ok()?,
        ),
    }
}

fn told(answered: Option<Answered>) -> Option<(u64, Option<u64>)> {
    let Answered { number, after } = answered?;
    Some((number, after))
}

// A request or a reply of ICMPv4 with this sequence number.
pub(crate) fn echo(kind: u8, seq_no: u16) -> [u8; 8] {
    let [high, low] = seq_no.to_be_bytes();
    [kind, 0, 0, 0, 0x1a, 0xb5, high, low]
}

// A message of DHCP over UDP, of this type; that of a client, or of a server.
pub(crate) fn lease(kind: u8, ports: [u8; 4]) -> [u8; 252] {
    let mut octets = [0; 252];
    put(&mut octets, 0, &ports);
    put(&mut octets, 4, &[0, 252]);
    put(&mut octets, 12, &[0x27, 0x80, 0xbd, 0x05]);
    put(&mut octets, 36, &[2, 0, 0, 0, 0, 7]);
    put(
        &mut octets,
        244,
        &[0x63, 0x82, 0x53, 0x63, 53, 1, kind, 255],
    );
    octets
}

// Writes bytes at a place.
pub(crate) fn put(octets: &mut [u8], place: usize, bytes: &[u8]) {
    for (i, byte) in bytes.iter().enumerate() {
        if let Some(octet) = octets.get_mut(place.saturating_add(i)) {
            *octet = *byte;
        }
    }
}
