// Made from crates/icmp_fields/src/quote.rt by rust/erase.
//! What ICMP errors quote of a datagram.

use crate::protocol_names::protocol_name;
use control_wire::IpProtocol;
use control_wire::quotes::quote::{Ipv4Quote, Ipv6Quote, Upper};
use packet_fields::Form;
use packet_fields::field::{field, named};
use packet_fields::ports::ports_of;
use rattle_std::io;
use rattle_std::io::Write;

// The bytes of an IPv4 header without options (RFC 791 section 3.1).
const FIXED_LEN: usize = 20;

/// Prints what an ICMPv4 error quotes (RFC 792): the fields of the datagram's header, and all that follows it.
pub fn show_ipv4_quote<W: Write>(
    output: &mut W,
    form: Form,
    quote: &Ipv4Quote<'_>,
) -> io::Result<()> {
    show_fragment(output, form, quote)?;
    show_ipv4_path(output, form, quote)?;
    field(output, form, "quoted_options", quote.options)?;
    show_ports(output, form, ipv4_ports_of(quote))?;
    field(output, form, "quoted_payload", quote.payload)
}

fn show_fragment<W: Write>(output: &mut W, form: Form, quote: &Ipv4Quote<'_>) -> io::Result<()> {
    field(
        output,
        form,
        "quoted_type_of_service",
        quote.type_of_service,
    )?;
    field(output, form, "quoted_total_len", quote.total_len)?;
    field(output, form, "quoted_ident", quote.ident)?;
    field(output, form, "quoted_dont_frag", quote.dont_frag)?;
    field(output, form, "quoted_more_frags", quote.more_frags)?;
    field(output, form, "quoted_frag_offset", quote.frag_offset)
}

fn show_ipv4_path<W: Write>(output: &mut W, form: Form, quote: &Ipv4Quote<'_>) -> io::Result<()> {
    field(output, form, "quoted_hop_limit", quote.hop_limit)?;
    show_protocol(output, form, "quoted_next_header", quote.next_header)?;
    field(output, form, "quoted_src_addr", quote.src_addr)?;
    field(output, form, "quoted_dst_addr", quote.dst_addr)
}

// The ports in a quote; a fragment that is not the first begins with no header.
fn ipv4_ports_of(quote: &Ipv4Quote<'_>) -> Option<(u16, u16)> {
    if quote.frag_offset != 0 {
        return None;
    }
    let header_len = FIXED_LEN + quote.options.len();
    ports_of(
        quote.next_header,
        own_payload(quote.total_len, header_len, quote.payload),
    )
}

/// Of what is quoted behind an IPv4 header, the octets of the datagram's own payload, by its total length and its
/// header's in bytes: zeros may fill the quote up behind them (RFC 4884 section 4). All of it where the total length is
/// below the header's.
pub fn own_payload(total_len: u16, header_len: usize, payload: &[u8]) -> &[u8] {
    let total_len = total_len as usize;
    if header_len <= total_len {
        let len = (total_len - header_len).min(payload.len());
        return &payload[..len];
    }
    payload
}

/// Prints what an ICMPv6 error quotes (RFC 4443 section 3): the fields of the packet's header, the protocol that its
/// extension headers lead to, where it has some, and the ports behind them, which are those of `upper`, and all that
/// follows the header.
pub fn show_ipv6_quote<W: Write>(
    output: &mut W,
    form: Form,
    quote: &Ipv6Quote<'_>,
    upper: Option<Upper<'_>>,
) -> io::Result<()> {
    show_flow(output, form, quote)?;
    show_ipv6_path(output, form, quote)?;
    show_other(output, form, other_protocol(quote.next_header, upper))?;
    show_ports(output, form, upper_ports(upper))?;
    field(output, form, "quoted_payload", quote.payload)
}

// The protocol that the extension headers lead to, where it is another than the first.
fn other_protocol(first: IpProtocol, upper: Option<Upper<'_>>) -> Option<IpProtocol> {
    match upper {
        Some(upper) if u8::from(upper.protocol) != u8::from(first) => Some(upper.protocol),
        _ => None,
    }
}

fn show_other<W: Write>(
    output: &mut W,
    form: Form,
    protocol: Option<IpProtocol>,
) -> io::Result<()> {
    match protocol {
        Some(protocol) => show_protocol(output, form, "quoted_protocol", protocol),
        None => Ok(()),
    }
}

// The ports behind the extension headers.
fn upper_ports(upper: Option<Upper<'_>>) -> Option<(u16, u16)> {
    match upper {
        Some(upper) => ports_of(upper.protocol, upper.octets),
        None => None,
    }
}

fn show_flow<W: Write>(output: &mut W, form: Form, quote: &Ipv6Quote<'_>) -> io::Result<()> {
    field(output, form, "quoted_traffic_class", quote.traffic_class)?;
    field(output, form, "quoted_flow_label", quote.flow_label)?;
    field(output, form, "quoted_payload_len", quote.payload_len)
}

fn show_ipv6_path<W: Write>(output: &mut W, form: Form, quote: &Ipv6Quote<'_>) -> io::Result<()> {
    field(output, form, "quoted_hop_limit", quote.hop_limit)?;
    show_protocol(output, form, "quoted_next_header", quote.next_header)?;
    field(output, form, "quoted_src_addr", quote.src_addr)?;
    field(output, form, "quoted_dst_addr", quote.dst_addr)
}

fn show_protocol<W: Write>(
    output: &mut W,
    form: Form,
    name: &str,
    protocol: IpProtocol,
) -> io::Result<()> {
    let number = u8::from(protocol);
    named(
        output,
        form,
        name,
        u64::from(number),
        protocol_name(protocol),
    )
}

fn show_ports<W: Write>(output: &mut W, form: Form, ports: Option<(u16, u16)>) -> io::Result<()> {
    match ports {
        Some((source, destination)) => show_both(output, form, Some(source), Some(destination)),
        None => show_both(output, form, None, None),
    }
}

fn show_both<W: Write>(
    output: &mut W,
    form: Form,
    source: Option<u16>,
    destination: Option<u16>,
) -> io::Result<()> {
    field(output, form, "quoted_src_port", source)?;
    field(output, form, "quoted_dst_port", destination)
}
