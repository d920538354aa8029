// Made from crates/message_brief/src/quote.rt by rust/erase.
//! What ICMP errors quote of a datagram: from where it came and to where it went, and its protocol.

use crate::words::put_word;
use control_wire::extensions::{Family, Parts};
use control_wire::inside::text::{Sink, put_number};
use control_wire::quotes::quote::Ipv6Quote;
use control_wire::{IpProtocol, Octets};
use icmp_fields::protocol_names::protocol_name;
use icmp_fields::quote::own_payload;
use packet_fields::label::Label;
use packet_fields::ports::ports_of;
use packet_fields::texts::Address;
use packet_fields::value::Text;

// The fields of the header of IPv4 (RFC 791 section 3.1), and the least of its length.
mod ipv4 {
    use control_wire::Field;

    pub const VERSION: usize = 0;

    pub const TOTAL_LEN: Field = 2..4;

    pub const FRAGMENT: Field = 6..8;

    pub const PROTOCOL: usize = 9;

    pub const SRC_ADDR: Field = 12..16;

    pub const DST_ADDR: Field = 16..20;

    pub const HEADER_LEN: usize = 20;
}

// The fields of the header of IPv6 (RFC 8200 section 3), and its length.
mod ipv6 {
    use control_wire::Field;

    pub const VERSION: usize = 0;

    pub const SRC_ADDR: Field = 8..24;

    pub const DST_ADDR: Field = 24..40;

    pub const HEADER_LEN: usize = 40;
}

// The octets of an IPv6 address.
const V6_LEN: usize = 16;

/// What an error quotes, of the octets behind its header: those that its length counts, without the extensions behind
/// them (RFC 4884 section 3), or all where it counts none, fewer than 128, or more than there are.
pub(crate) fn quoted_part(octets: &[u8], length: u8, family: Family) -> &[u8] {
    match Parts::split(octets, length, family) {
        Ok(parts) => parts.quoted,
        Err(_) => octets,
    }
}

/// Puts what an error of ICMPv4 quotes, where it is the front of a datagram.
pub(crate) fn put_quote4<O, S: Sink<O>>(output: &mut O, octets: &[u8]) -> Result<(), S::Error> {
    if !quotes4(octets) {
        return Ok(());
    }
    let source = octets.field(ipv4::SRC_ADDR);
    let destination = octets.field(ipv4::DST_ADDR);
    put_quoted::<O, S>(
        output,
        source,
        destination,
        ports4(octets),
        protocol4(octets),
    )
}

/// Whether octets begin with a header of IPv4.
pub(crate) fn quotes4(octets: &[u8]) -> bool {
    octets.len() >= ipv4::HEADER_LEN
        && octets[ipv4::VERSION] / 16 == 4
        && header_len(octets) >= ipv4::HEADER_LEN
        && header_len(octets) <= octets.len()
}

// The length of the header of IPv4.
fn header_len(octets: &[u8]) -> usize {
    4 * (octets[ipv4::VERSION] % 16) as usize
}

fn protocol4(octets: &[u8]) -> IpProtocol {
    IpProtocol::from(octets[ipv4::PROTOCOL])
}

// The ports; a fragment that is not the first begins with no header.
fn ports4(octets: &[u8]) -> Option<(u16, u16)> {
    if 8 * (octets.u16_at(ipv4::FRAGMENT) as usize % 0x2000) != 0 {
        return None;
    }
    let header_len = header_len(octets);
    let (_, payload) = octets.split_at(header_len);
    let own = own_payload(octets.u16_at(ipv4::TOTAL_LEN), header_len, payload);
    ports_of(protocol4(octets), own)
}

/// Puts what an error of ICMPv6 quotes, where it is the front of a packet.
pub(crate) fn put_quote6<O, S: Sink<O>>(output: &mut O, octets: &[u8]) -> Result<(), S::Error> {
    let Ok(quote) = Ipv6Quote::parse(octets) else {
        return Ok(());
    };
    let source = octets.field(ipv6::SRC_ADDR);
    let destination = octets.field(ipv6::DST_ADDR);
    let (protocol, ports) = upper6(&quote);
    put_quoted::<O, S>(output, source, destination, ports, protocol)
}

/// Whether octets begin with a header of IPv6.
pub(crate) fn quotes6(octets: &[u8]) -> bool {
    octets.len() >= ipv6::HEADER_LEN && octets[ipv6::VERSION] / 16 == 6
}

// The protocol that the extension headers lead to, and its ports; where they lead nowhere, the first protocol alone.
fn upper6(quote: &Ipv6Quote<'_>) -> (IpProtocol, Option<(u16, u16)>) {
    match quote.upper() {
        Some(upper) => (upper.protocol, ports_of(upper.protocol, upper.octets)),
        None => (quote.next_header, None),
    }
}

// Puts what is quoted.
fn put_quoted<O, S: Sink<O>>(
    output: &mut O,
    source: &[u8],
    destination: &[u8],
    ports: Option<(u16, u16)>,
    protocol: IpProtocol,
) -> Result<(), S::Error> {
    let label = Label {
        name: protocol_name(protocol),
        kind: "protocol",
        number: u8::from(protocol),
    };
    S::put_str(output, " quoted=")?;
    put_path::<O, S>(output, source, destination, ports)?;
    put_word::<O, S, Label<'_>>(output, label)
}

// Puts from where and to where, with ports where they are known.
fn put_path<O, S: Sink<O>>(
    output: &mut O,
    source: &[u8],
    destination: &[u8],
    ports: Option<(u16, u16)>,
) -> Result<(), S::Error> {
    match ports {
        Some((from, to)) => {
            put_with_port::<O, S>(output, source, from)?;
            S::put_str(output, ">")?;
            put_with_port::<O, S>(output, destination, to)
        }
        None => {
            Address(source).put_into::<O, S>(output)?;
            S::put_str(output, ">")?;
            Address(destination).put_into::<O, S>(output)
        }
    }
}

// Puts an address and its port.
fn put_with_port<O, S: Sink<O>>(output: &mut O, address: &[u8], port: u16) -> Result<(), S::Error> {
    if address.len() == V6_LEN {
        S::put_str(output, "[")?;
        Address(address).put_into::<O, S>(output)?;
        S::put_str(output, "]:")?;
        return put_number::<O, S>(output, port as u64);
    }
    Address(address).put_into::<O, S>(output)?;
    S::put_str(output, ":")?;
    put_number::<O, S>(output, port as u64)
}
