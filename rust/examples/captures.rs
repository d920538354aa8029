//! Prints the control packets of a capture file:
//!
//!     cargo run --example captures -- FILE

use capture::Capture;
use control_wire::dns::{MULTICAST_PORT, Packet, SERVER_PORT};
use control_wire::frames::{Addresses, Captured, CapturedUdp, Extent, Link, Network};
use control_wire::frames::{UdpPacket, UdpRepr};
use control_wire::icmpv6::Repr::{Mld, Ndisc};
use control_wire::mld::{Records, Repr::Report};
use control_wire::quotes::message::{Icmpv4Message, Icmpv6Message, Icmpv6Message::Message};
use control_wire::{ChecksumCapabilities, IpProtocol, dhcpv4, icmpv6, igmp, record::Entries};
use std::{error::Error, fmt::Display, fs::File, io::BufReader};

fn main() -> Result<(), Box<dyn Error>> {
    let path = std::env::args_os().nth(1).ok_or("give a capture file")?;
    let mut records = Capture::new().records(BufReader::new(File::open(path)?));
    while let Some((record, octets)) = records.read()? {
        let told = match Link::of(record.link_type) {
            Some(link) => frame(link, octets),
            None => Err(format!("link type {} is not read", record.link_type).into()),
        };
        if let Some(told) = told.transpose() {
            let time = record.time.map(|time| time.to_string()).unwrap_or_default();
            println!("{} {time} {}", record.number, or_reason(told));
        }
    }
    Ok(())
}

/// What a frame holds, between which addresses; None if it is no control packet.
fn frame(link: Link, octets: &[u8]) -> Result<Option<String>, Box<dyn Error>> {
    let frame = link.frame_or_refusal(octets)?;
    let captured = match frame.network {
        Network::Ipv4 => Captured::parse_v4(frame.payload)?,
        Network::Ipv6 => Captured::parse_v6(frame.payload)?,
        Network::Other(_) => return Ok(None),
    };
    let (addresses, protocol) = (captured.datagram.addresses, captured.datagram.protocol);
    let told = message(&captured).transpose();
    Ok(told.map(|told| format!("{addresses} {protocol}: {}", or_reason(told))))
}

/// What a datagram holds.
fn message(captured: &Captured<'_>) -> Result<Option<String>, Box<dyn Error>> {
    let (octets, addresses) = (captured.datagram.payload, captured.datagram.addresses);
    // No checksum of a datagram that was cut holds.
    let is_cut = matches!(captured.extent, Extent::Cut { .. });
    let checksums = match is_cut {
        true => ChecksumCapabilities::ignored(),
        false => ChecksumCapabilities::default(),
    };
    Ok(Some(match (captured.datagram.protocol, addresses) {
        (IpProtocol::Icmp, Addresses::V4(..)) => {
            Icmpv4Message::parse_or_refusal(octets, &checksums)?.to_string()
        }
        (IpProtocol::Igmp, Addresses::V4(..)) => {
            let packet = igmp::Packet::new_unchecked(octets);
            let text = igmp::Repr::parse_or_refusal(&packet)?.to_string();
            let checked = (is_cut || packet.verify_checksum()).then_some(text);
            checked.ok_or("the checksum does not hold")?
        }
        (IpProtocol::Icmpv6, Addresses::V6(src, dst)) => {
            let message = Icmpv6Message::parse_or_refusal(&src, &dst, octets, &checksums)?;
            let packet = icmpv6::Packet::new_unchecked(octets);
            message.to_string()
                + &match message {
                    Message(Ndisc(_)) => lines(packet.ndisc_options()),
                    Message(Mld(Report { .. })) => {
                        lines(Records::new(packet.nr_mcast_addr_rcrds(), packet.payload()))
                    }
                    _ => String::new(),
                }
        }
        (IpProtocol::Udp, _) => {
            let udp = CapturedUdp::parse(octets)?;
            let text = match [udp.src_port, udp.dst_port] {
                ports if ports.contains(&SERVER_PORT) => dns(udp.payload, false)?,
                ports if ports.contains(&MULTICAST_PORT) => dns(udp.payload, true)?,
                ports if ports.contains(&dhcpv4::SERVER_PORT) => dhcp(udp.payload)?,
                _ => return Ok(None),
            };
            let packet = UdpPacket::new_unchecked(octets);
            let whole = UdpRepr::parse_or_refusal(&packet, &addresses, &checksums);
            if is_cut { text } else { whole.map(|_| text)? }
        }
        _ => return Ok(None),
    }))
}

/// A message of DNS, multicast or not: its header, and its entries as lines of a zone file.
fn dns(octets: &[u8], is_multicast: bool) -> Result<String, Box<dyn Error>> {
    let packet = Packet::new_checked(octets).map_err(|_| "fewer than 12 bytes")?;
    let mut entries = Entries::new(&packet);
    let read = entries.by_ref().flatten();
    let lines = lines(read.map(|entry| entry.text(&packet, is_multicast)));
    let mut text = format!("{packet}{lines}");
    if let Some((section, reason)) = entries.refusal() {
        text += &format!("\n    refused: {section}: {reason}");
    }
    Ok(text)
}

/// A packet of DHCP, and its options in turn.
fn dhcp(octets: &[u8]) -> Result<String, Box<dyn Error>> {
    let packet = dhcpv4::Packet::new_unchecked(octets);
    let text = dhcpv4::Repr::parse_or_refusal(&packet)?.to_string();
    Ok(text + &lines(packet.options().map(Ok::<_, String>)))
}

/// A line for each item, or why it is refused.
fn lines<T: Display, R: Display>(items: impl Iterator<Item = Result<T, R>>) -> String {
    items.map(|it| format!("\n    {}", or_reason(it))).collect()
}

/// A text, or why there is none.
fn or_reason(text: Result<impl Display, impl Display>) -> String {
    text.map_or_else(|why| format!("refused: {why}"), |it| it.to_string())
}
