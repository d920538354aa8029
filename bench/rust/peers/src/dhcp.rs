//! An offer with its options, beside dhcproto.

use crate::measure::row;
use control_wire::dhcpv4::{DhcpOption, MessageType, Packet, Repr};
use control_wire::{EthernetAddress, Ipv4Address};
use dhcproto::v4::{DhcpOption as Option_, Message, OptionCode};
use dhcproto::{Decodable, Encodable, Encoder, v4::Decoder};
use std::hint::black_box;

const ADDITIONAL: [DhcpOption<'static>; 1] = [DhcpOption {
    kind: 12,
    data: b"printer",
}];

// What a server offers: the options that nearly every one has.
fn offer() -> Repr<'static> {
    let address = |last| Ipv4Address::new(192, 0, 2, last);
    Repr {
        message_type: MessageType::Offer,
        transaction_id: 0x1234_5678,
        secs: 0,
        client_hardware_address: EthernetAddress([0x02, 0, 0, 0, 0, 1]),
        client_ip: Ipv4Address::UNSPECIFIED,
        your_ip: address(7),
        server_ip: address(1),
        router: Some(address(1)),
        subnet_mask: Some(Ipv4Address::new(255, 255, 255, 0)),
        relay_agent_ip: Ipv4Address::UNSPECIFIED,
        broadcast: false,
        requested_ip: None,
        client_identifier: None,
        server_identifier: Some(address(1)),
        parameter_request_list: None,
        dns_servers: Some([address(2), address(3)].into_iter().collect()),
        max_size: None,
        lease_duration: Some(3_600),
        renew_duration: Some(1_800),
        rebind_duration: Some(3_150),
        additional_options: &ADDITIONAL,
    }
}

pub fn rows() {
    let offer = offer();
    let mut octets = vec![0; offer.buffer_len()];
    offer.emit_into(&mut octets).unwrap();
    let read = || Repr::parse(&Packet::new_unchecked(black_box(&octets[..])));
    let theirs = || Message::decode(&mut Decoder::new(black_box(&octets))).unwrap();
    let (ours, message) = (read().unwrap(), theirs());
    assert_eq!(ours.lease_duration, Some(3_600));
    assert_eq!(
        message.opts().get(OptionCode::AddressLeaseTime),
        Some(&Option_::AddressLeaseTime(3_600))
    );
    assert_eq!(core::net::Ipv4Addr::from(ours.your_ip), message.yiaddr());
    row("DHCP offer, read", "dhcproto", read, theirs);

    let mut out = vec![0; octets.len()];
    let mut other = Vec::with_capacity(1_024);
    let write = |out: &mut [u8]| black_box(&offer).emit_into(out);
    let theirs = |out: &mut Vec<u8>| {
        out.clear();
        black_box(&message).encode(&mut Encoder::new(out)).unwrap();
    };
    write(&mut out).unwrap();
    theirs(&mut other);
    let again = Message::decode(&mut Decoder::new(&out)).unwrap();
    assert_eq!(again, Message::decode(&mut Decoder::new(&other)).unwrap());
    row(
        "DHCP offer, written",
        "dhcproto",
        || write(black_box(&mut out)),
        || theirs(black_box(&mut other)),
    );
}
