// Made from crates/quote_wire/src/quote.rt by rust/erase.
//! The quote in an error: the fields of the quoted header, and all that follows it.

mod refusal;
mod upper;

use super::icmpv4_error::is_datagram;
use super::icmpv6_error::is_packet_front;
use crate::wirebase::{
    Error, Field, IPV6_HEADER_LEN, IpProtocol, Ipv4Address, Ipv4Packet, Ipv6Address, Ipv6Packet,
    Octets, Result,
};
use core::fmt;
pub use refusal::Refusal;
pub(crate) use refusal::{why_no_datagram, why_no_packet};
pub use upper::Upper;

// The type of service of an IPv4 header, and the end of its fixed fields.
const TYPE_OF_SERVICE: Field = 1..2;

const FIXED_END: usize = 20;

// The version, the traffic class and the flow label of an IPv6 header.
const FIRST_WORD: Field = 0..4;

/// The quote in an ICMPv4 error (RFC 792): the header of the datagram that the error is about (RFC 791 section 3.1),
/// and all that follows it, which begins with the quoted part of the payload.
#[derive(Debug, PartialEq, Eq, Clone, Copy)]
pub struct Ipv4Quote<'a> {
    /// The type of service: the differentiated services field and the congestion notification (RFC 2474, RFC 3168).
    pub type_of_service: u8,
    /// The length of the whole datagram, header and payload, in bytes.
    pub total_len: u16,
    /// The identification, by which a probe finds its answer.
    pub ident: u16,
    /// Whether the datagram must not be fragmented.
    pub dont_frag: bool,
    /// Whether more fragments follow.
    pub more_frags: bool,
    /// The offset of the payload in that of the unfragmented datagram, in bytes.
    pub frag_offset: u16,
    /// The hops that are left.
    pub hop_limit: u8,
    /// The protocol of the payload.
    pub next_header: IpProtocol,
    /// The address of the sender.
    pub src_addr: Ipv4Address,
    /// The address of the receiver.
    pub dst_addr: Ipv4Address,
    /// The options, 0 to 40 bytes.
    pub options: &'a [u8],
    /// All that follows the header: the quoted part of the payload and, where a router appends extensions to its error,
    /// such as MPLS labels, these too (RFC 4884 sections 4 and 7). Extensions follow at least 128 bytes of the
    /// datagram, padded with zeros where it has fewer. Nothing is cut at `total_len`, which may be smaller;
    /// `icmpv4_error::Repr::parts` has the octets without extensions.
    pub payload: &'a [u8],
}

impl<'a> Ipv4Quote<'a> {
    /// The quote in these octets, which are `icmpv4_error::Repr::quoted`, or what its `parts` has of it. Refused where
    /// they are not the start of a datagram of version 4: a header of 20 bytes or more by its own length, and 8 bytes
    /// or more after it.
    pub fn parse(octets: &'a [u8]) -> Result<Ipv4Quote<'a>> {
        if !is_datagram(octets) {
            return Err(Error);
        }
        let packet = Ipv4Packet::new_unchecked(octets);
        let header_len = packet.header_len() as usize;
        Ok(Ipv4Quote {
            type_of_service: octets.u8_at(TYPE_OF_SERVICE),
            total_len: packet.total_len(),
            ident: packet.ident(),
            dont_frag: packet.dont_frag(),
            more_frags: packet.more_frags(),
            frag_offset: packet.frag_offset(),
            hop_limit: packet.hop_limit(),
            next_header: packet.next_header(),
            src_addr: packet.src_addr(),
            dst_addr: packet.dst_addr(),
            options: &octets[FIXED_END..header_len],
            payload: &octets[header_len..],
        })
    }
}

/// The fields in the order of the header, the protocol by its number, and the bytes of the options and of the payload.
impl fmt::Display for Ipv4Quote<'_> {
    fn fmt(&self, f: &mut fmt::Formatter<'_>) -> fmt::Result {
        fmt_front(f, self)?;
        fmt_back(f, self)
    }
}

// The fields up to the fragment offset, as they are printed.
fn fmt_front(f: &mut fmt::Formatter<'_>, header: &Ipv4Quote<'_>) -> fmt::Result {
    write!(
        f,
        "IPv4 quote type_of_service={} total_len={} ident={} dont_frag={} more_frags={} frag_offset={}",
        header.type_of_service,
        header.total_len,
        header.ident,
        header.dont_frag,
        header.more_frags,
        header.frag_offset
    )
}

// The fields after the fragment offset, as they are printed.
fn fmt_back(f: &mut fmt::Formatter<'_>, header: &Ipv4Quote<'_>) -> fmt::Result {
    write!(
        f,
        " hop_limit={} next_header={} src_addr={} dst_addr={} options={} payload={}",
        header.hop_limit,
        u8::from(header.next_header),
        header.src_addr,
        header.dst_addr,
        header.options.len(),
        header.payload.len()
    )
}

/// The quote in an ICMPv6 error (RFC 4443 section 3): the header of the packet that the error is about (RFC 8200
/// section 3), and all that follows it, which begins with the quoted part of the payload, extension headers included.
///
/// ```
/// use control_wire::quotes::quote::Ipv6Quote;
/// use control_wire::IpProtocol;
///
/// let mut quoted = [0; 44];
/// quoted[..8].copy_from_slice(&[0x60, 0, 0, 0, 0, 20, 58, 64]);
/// let quote = Ipv6Quote::parse(&quoted)?;
/// assert_eq!((quote.next_header, quote.payload_len), (IpProtocol::Icmpv6, 20));
/// assert_eq!(quote.payload.len(), 4);
/// # Ok::<(), control_wire::Error>(())
/// ```
#[derive(Debug, PartialEq, Eq, Clone, Copy)]
pub struct Ipv6Quote<'a> {
    /// The traffic class: the differentiated services field and the congestion notification (RFC 2474, RFC 3168).
    pub traffic_class: u8,
    /// The flow label, 20 bits.
    pub flow_label: u32,
    /// The length of the whole packet's payload in bytes.
    pub payload_len: u16,
    /// The protocol of the payload, or its first extension header.
    pub next_header: IpProtocol,
    /// The hops that are left.
    pub hop_limit: u8,
    /// The address of the sender.
    pub src_addr: Ipv6Address,
    /// The address of the receiver.
    pub dst_addr: Ipv6Address,
    /// All that follows the header: the quoted part of the payload and, where a router appends extensions to its error,
    /// these too (RFC 4884 sections 4 and 7). Extensions follow at least 128 bytes of the packet, padded with zeros
    /// where it has fewer. Nothing is cut at `payload_len`, which may be smaller; `icmpv6_error::Repr::parts` has the
    /// octets without extensions.
    pub payload: &'a [u8],
}

impl<'a> Ipv6Quote<'a> {
    /// The quote in these octets, which are `icmpv6_error::Repr::quoted`, or what its `parts` has of it. Refused where
    /// they do not begin with a header of version 6, 40 bytes.
    pub fn parse(octets: &'a [u8]) -> Result<Ipv6Quote<'a>> {
        if !is_packet_front(octets) {
            return Err(Error);
        }
        let packet = Ipv6Packet::new_unchecked(octets);
        let word = octets.u32_at(FIRST_WORD);
        Ok(Ipv6Quote {
            traffic_class: (word / (1 << 20) % (1 << 8)) as u8,
            flow_label: word % (1 << 20),
            payload_len: packet.payload_len(),
            next_header: packet.next_header(),
            hop_limit: packet.hop_limit(),
            src_addr: packet.src_addr(),
            dst_addr: packet.dst_addr(),
            payload: &octets[IPV6_HEADER_LEN..],
        })
    }
}

/// The fields in the order of the header, the protocol by its number, and the bytes of the payload.
impl fmt::Display for Ipv6Quote<'_> {
    fn fmt(&self, f: &mut fmt::Formatter<'_>) -> fmt::Result {
        write!(
            f,
            "IPv6 quote traffic_class={} flow_label={} payload_len={} next_header={} hop_limit={} src_addr={} \
             dst_addr={} payload={}",
            self.traffic_class,
            self.flow_label,
            self.payload_len,
            u8::from(self.next_header),
            self.hop_limit,
            self.src_addr,
            self.dst_addr,
            self.payload.len()
        )
    }
}
