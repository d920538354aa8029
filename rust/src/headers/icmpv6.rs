// Made from crates/header_wire/src/icmpv6.rt by rust/erase.
//! Messages of ICMPv6 beside echoes, errors, neighbor discovery and multicast listeners: node information (RFC 4620)
//! and extended echoes (RFC 8335).

mod display;
mod reading;
mod writing;

pub use crate::headers::extended_echo::{ExtendedEchoReply, ExtendedEchoRequest};
use crate::wirebase::{IpProtocol, Ipv6Address, checksum};

mod field {
    use crate::wirebase::Field;

    pub const CODE: usize = 1;

    pub const CHECKSUM: Field = 2..4;

    pub const QTYPE: Field = 4..6;

    pub const FLAGS: Field = 6..8;

    pub const HEADER_END: usize = 8;

    pub const NONCE: Field = 8..16;
}

/// A message.
#[derive(Debug, PartialEq, Eq, Clone, Copy)]
pub enum Message<'a> {
    /// A query about a node: type 139 (RFC 4620 section 4).
    NodeInformationQuery(NodeInformation<'a>),
    /// The answer about the node: type 140 (RFC 4620 section 4).
    NodeInformationReply(NodeInformation<'a>),
    /// A request about an interface of the receiver, or of a node beside it: type 160 (RFC 8335 section 2).
    ExtendedEchoRequest(ExtendedEchoRequest<'a>),
    /// The answer about the interface: type 161 (RFC 8335 section 3).
    ExtendedEchoReply(ExtendedEchoReply),
}

/// What is asked or told of a node.
#[derive(Debug, PartialEq, Eq, Clone, Copy)]
pub struct NodeInformation<'a> {
    /// The code. Of a query it says what the data is: 0 an address of IPv6, 1 a name or nothing, 2 an address of IPv4.
    /// Of a reply: 0 where it answers, 1 where the node refuses to, and 2 where it does not know the type of the query.
    pub code: u8,
    /// The type of the query (RFC 4620 section 6): 0 asks nothing, 2 the names of the node, 3 its addresses of IPv6, 4
    /// those of IPv4.
    pub qtype: u16,
    /// The flags, whose meaning depends on the type of the query.
    pub flags: u16,
    /// The nonce, which the answer has too, as a number, its highest byte first.
    pub nonce: u64,
    /// The node that a query is about, or the answer: all that follows the fields.
    pub data: &'a [u8],
}

/// Why octets are refused as a message: the first check that fails.
#[derive(Debug, PartialEq, Eq, Clone, Copy)]
#[non_exhaustive]
pub enum Refusal {
    /// Fewer than 8 bytes.
    Short,
    /// The checksum is wrong.
    Checksum,
    /// A type that is not read, by its number.
    UnknownType(u8),
    /// Fewer bytes than a message of this type has.
    Length,
}

// The kinds of messages.
#[derive(Debug, PartialEq, Eq, Clone, Copy)]
pub(crate) enum Kind {
    NodeInformationQuery,
    NodeInformationReply,
    ExtendedEchoRequest,
    ExtendedEchoReply,
}

impl Kind {
    // The type of a message of this kind.
    pub(crate) fn number(self) -> u8 {
        match self {
            Kind::NodeInformationQuery => 139,
            Kind::NodeInformationReply => 140,
            Kind::ExtendedEchoRequest => 160,
            Kind::ExtendedEchoReply => 161,
        }
    }
}

// The kind of message that has this type.
pub(crate) fn kind_numbered(number: u8) -> Option<Kind> {
    match number {
        139 => Some(Kind::NodeInformationQuery),
        140 => Some(Kind::NodeInformationReply),
        160 => Some(Kind::ExtendedEchoRequest),
        161 => Some(Kind::ExtendedEchoReply),
        _ => None,
    }
}

impl<'a> Message<'a> {
    /// The message that these octets of ICMPv6 are, from their type on; what follows its fields is ignored. Its
    /// checksum, of all the octets and of the addresses of the packet, is verified. Reserved bits are not looked at,
    /// and neither is the code of an extended request.
    pub fn parse(
        octets: &'a [u8],
        src_addr: &Ipv6Address,
        dst_addr: &Ipv6Address,
    ) -> Result<Message<'a>, Refusal> {
        let sum = message_sum(octets, src_addr, dst_addr);
        reading::read(octets, sum)
    }

    /// The bytes that the message takes.
    pub fn buffer_len(&self) -> usize {
        match self {
            Message::NodeInformationQuery(node) | Message::NodeInformationReply(node) => {
                field::NONCE.end + node.data.len()
            }
            Message::ExtendedEchoRequest(request) => field::HEADER_END + request.data.len(),
            Message::ExtendedEchoReply(_) => field::HEADER_END,
        }
    }

    /// Writes the message over the front of the octets, with the checksum of all of them and of the addresses of the
    /// packet; the other octets are unchanged. Requires at least `buffer_len` bytes, and a state below 8; give exactly
    /// as many bytes, since the checksum covers what follows, and data goes on to the end.
    ///
    /// # Panics
    ///
    /// May panic where what is asked for above does not hold.
    pub fn emit_into(&self, octets: &mut [u8], src_addr: &Ipv6Address, dst_addr: &Ipv6Address) {
        let sum = message_sum(octets, src_addr, dst_addr);
        writing::write(self, octets);
        checksum::fill(octets, field::CHECKSUM, sum);
    }
}

// The sum of the pseudo header of these octets of ICMPv6, of which the lower 32 bits of their number count.
fn message_sum(octets: &[u8], src_addr: &Ipv6Address, dst_addr: &Ipv6Address) -> u16 {
    let len = octets.len() as u64 % (1 << 32);
    checksum::pseudo_header_v6(src_addr, dst_addr, IpProtocol::Icmpv6, len as u32)
}
