// Made from crates/header_wire/src/icmpv4.rt by rust/erase.
//! Messages of ICMPv4 beside echoes and errors: timestamps (RFC 792), address masks (RFC 950), the solicitations
//! and advertisements of routers (RFC 1256) and extended echoes (RFC 8335).

mod display;
mod reading;
mod routers;
mod writing;

pub use crate::headers::extended_echo::{ExtendedEchoReply, ExtendedEchoRequest};
use crate::wirebase::{Ipv4Address, checksum};
pub use routers::{Router, Routers, RoutersIterator};

mod field {
    use crate::wirebase::Field;

    pub const CODE: usize = 1;

    pub const CHECKSUM: Field = 2..4;

    pub const IDENT: Field = 4..6;

    pub const SEQ_NO: Field = 6..8;

    pub const HEADER_END: usize = 8;

    pub const ORIGINATE: Field = 8..12;

    pub const RECEIVE: Field = 12..16;

    pub const TRANSMIT: Field = 16..20;

    pub const MASK: Field = 8..12;

    // the number of routers, the words of each, and how long they are valid
    pub const ROUTER_COUNT: usize = 4;

    pub const ENTRY_WORDS: usize = 5;

    pub const LIFETIME: Field = 6..8;
}

/// A message.
#[derive(Debug, PartialEq, Eq, Clone, Copy)]
pub enum Message<'a> {
    /// A request for the time of the receiver: type 13 (RFC 792).
    Timestamp(Timestamp),
    /// The answer to a timestamp: type 14 (RFC 792).
    TimestampReply(Timestamp),
    /// A request for the address mask of the network: type 17 (RFC 950).
    AddressMaskRequest(AddressMask),
    /// The address mask of the network: type 18 (RFC 950).
    AddressMaskReply(AddressMask),
    /// A host asks routers to advertise themselves: type 10 (RFC 1256 section 3).
    RouterSolicitation,
    /// A router advertises routers: type 9 (RFC 1256 section 3).
    RouterAdvertisement(RouterAdvertisement<'a>),
    /// A request about an interface of the receiver, or of a node beside it: type 42 (RFC 8335 section 2).
    ExtendedEchoRequest(ExtendedEchoRequest<'a>),
    /// The answer about the interface: type 43 (RFC 8335 section 3).
    ExtendedEchoReply(ExtendedEchoReply),
}

/// The times of a request and of its answer, in milliseconds since midnight, universal time. Where the highest bit is
/// set, a time is of another kind (RFC 792).
#[derive(Debug, PartialEq, Eq, Clone, Copy)]
pub struct Timestamp {
    /// The identifier, which the answer has too.
    pub ident: u16,
    /// The sequence number, which the answer has too.
    pub seq_no: u16,
    /// When the request was sent.
    pub originate: u32,
    /// When the request was received.
    pub receive: u32,
    /// When the answer was sent.
    pub transmit: u32,
}

/// The address mask of a network.
#[derive(Debug, PartialEq, Eq, Clone, Copy)]
pub struct AddressMask {
    /// The identifier, which the answer has too.
    pub ident: u16,
    /// The sequence number, which the answer has too.
    pub seq_no: u16,
    /// The mask; 0.0.0.0 in a request.
    pub mask: Ipv4Address,
}

/// The routers of a network.
#[derive(Debug, PartialEq, Eq, Clone, Copy)]
pub struct RouterAdvertisement<'a> {
    /// How long the addresses are valid, in seconds.
    pub lifetime: u16,
    /// The routers: at least one.
    pub routers: Routers<'a>,
}

/// Why octets are refused as a message: the first check that fails.
#[derive(Debug, PartialEq, Eq, Clone, Copy)]
#[non_exhaustive]
pub enum Refusal {
    /// Fewer than 8 bytes.
    Short,
    /// The checksum is wrong.
    Checksum,
    /// A type that is not read, by its number.
    UnknownType(u8),
    /// The code is not 0, in a message of another kind than an extended echo: this is its number.
    Code(u8),
    /// Fewer bytes than a message of this type has.
    Length,
    /// An advertisement of no routers.
    NoRouters,
    /// An advertisement whose entries have fewer than two words; this is their number.
    EntrySize(u8),
    /// An advertisement ends before its routers do.
    Cut,
}

// The kinds of messages.
#[derive(Debug, PartialEq, Eq, Clone, Copy)]
pub(crate) enum Kind {
    Timestamp,
    TimestampReply,
    AddressMaskRequest,
    AddressMaskReply,
    RouterSolicitation,
    RouterAdvertisement,
    ExtendedEchoRequest,
    ExtendedEchoReply,
}

impl Kind {
    // The type of a message of this kind.
    pub(crate) fn number(self) -> u8 {
        match self {
            Kind::Timestamp => 13,
            Kind::TimestampReply => 14,
            Kind::AddressMaskRequest => 17,
            Kind::AddressMaskReply => 18,
            Kind::RouterSolicitation => 10,
            Kind::RouterAdvertisement => 9,
            Kind::ExtendedEchoRequest => 42,
            Kind::ExtendedEchoReply => 43,
        }
    }
}

// The kind of message that has this type.
pub(crate) fn kind_numbered(number: u8) -> Option<Kind> {
    match number {
        13 => Some(Kind::Timestamp),
        14 => Some(Kind::TimestampReply),
        17 => Some(Kind::AddressMaskRequest),
        18 => Some(Kind::AddressMaskReply),
        10 => Some(Kind::RouterSolicitation),
        9 => Some(Kind::RouterAdvertisement),
        42 => Some(Kind::ExtendedEchoRequest),
        43 => Some(Kind::ExtendedEchoReply),
        _ => None,
    }
}

impl<'a> Message<'a> {
    /// The message that these octets are; what follows its fields is ignored. Its checksum, of all the octets, is
    /// verified. Reserved bits are not looked at, and neither is the code of an extended request.
    pub fn parse(octets: &'a [u8]) -> Result<Message<'a>, Refusal> {
        reading::read(octets)
    }

    /// The bytes that the message takes.
    pub fn buffer_len(&self) -> usize {
        match self {
            Message::Timestamp(_) | Message::TimestampReply(_) => field::TRANSMIT.end,
            Message::AddressMaskRequest(_) | Message::AddressMaskReply(_) => field::MASK.end,
            Message::RouterSolicitation | Message::ExtendedEchoReply(_) => field::HEADER_END,
            Message::RouterAdvertisement(advertisement) => {
                field::HEADER_END + advertisement.routers.octets.len()
            }
            Message::ExtendedEchoRequest(request) => field::HEADER_END + request.data.len(),
        }
    }

    /// Writes the message over the front of the octets, with the checksum of all of them; the other octets are
    /// unchanged. Requires at least `buffer_len` bytes, a state below 8, and fewer than 256 words for each router,
    /// as all have that `parse` gives; give exactly as many bytes, since the checksum covers what follows, and the data
    /// of an extended request goes on to the end.
    ///
    /// # Panics
    ///
    /// May panic where what is asked for above does not hold.
    pub fn emit_into(&self, octets: &mut [u8]) {
        writing::write(self, octets);
        checksum::fill(octets, field::CHECKSUM, 0);
    }
}
