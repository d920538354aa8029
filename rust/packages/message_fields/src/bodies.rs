// Made from crates/message_fields/src/bodies.rt by rust/erase.
//! The fields of messages behind what their checksums say, and hop-by-hop options.

use crate::icmp::{show_icmp4, show_icmp6, show_igmp};
use crate::message::Message;
use crate::refusal::Refusal;
use crate::udp::{show_dns, show_udp};
use dns_fields::kind::Kind;
use neighbor_fields::hop_by_hop;
use packet_fields::Form;
use rattle_std::io;
use rattle_std::io::Write;

/// Prints the fields of a message, and returns why it is refused or read in part. `is_whole` is false where the capture
/// cut it: then the checksum of extensions (RFC 4884) can't be verified. Where it is true, and a UDP datagram has fewer
/// bytes than its header says, their number is printed.
pub(crate) fn show_body<W: Write>(
    output: &mut W,
    form: Form,
    message: &Message<'_>,
    is_whole: bool,
) -> io::Result<Option<Refusal>> {
    match message {
        Message::Icmp4(octets) => show_icmp4(output, form, octets, is_whole),
        Message::Igmp(octets) => show_igmp(output, form, octets),
        Message::Icmp6(src_addr, dst_addr, octets) => {
            show_icmp6(output, form, src_addr, dst_addr, octets, is_whole)
        }
        Message::Udp(service, _, octets) => show_udp(output, form, *service, octets, is_whole),
        Message::Tcp(_, _, message) => show_dns(output, form, Kind::Dns, message),
    }
}

/// Prints the hop-by-hop options of a packet, where it has any.
pub fn show_hop_by_hop<W: Write>(
    output: &mut W,
    form: Form,
    options: Option<&[u8]>,
) -> io::Result<()> {
    match options {
        Some(octets) => hop_by_hop::show_hop_by_hop(output, form, octets),
        None => Ok(()),
    }
}
