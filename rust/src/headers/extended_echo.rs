// Made from crates/header_wire/src/extended_echo.rt by rust/erase.
//! Requests about an interface and their answers (RFC 8335), which ICMPv4 and ICMPv6 have in common but for their
//! types.

mod display;

use crate::wirebase::{ByteWriter, Octets};

mod field {
    use crate::wirebase::Field;

    pub const CODE: usize = 1;

    pub const IDENT: Field = 4..6;

    pub const SEQ_NO: usize = 6;

    // the flag L of a request; the state and the flags of its reply
    pub const FLAGS: usize = 7;

    pub const HEADER_END: usize = 8;
}

// The unit of the state of a reply, and the flags below it.
const STATE_UNIT: u8 = 32;

const ACTIVE: u8 = 4;

const IPV4: u8 = 2;

const IPV6: u8 = 1;

// The flag of a request.
const LOCAL: u8 = 1;

/// A request about an interface.
#[derive(Debug, PartialEq, Eq, Clone, Copy)]
pub struct ExtendedEchoRequest<'a> {
    /// The identifier, which the answer has too.
    pub ident: u16,
    /// The sequence number, which the answer has too.
    pub seq_no: u8,
    /// The flag L: the interface is one of the receiver itself, and not of a node beside it.
    pub local: bool,
    /// The extension structure with the object that names the interface (RFC 4884 section 7, RFC 8335 section 2.1): all
    /// that follows the fields.
    pub data: &'a [u8],
}

/// The answer about an interface.
#[derive(Debug, PartialEq, Eq, Clone, Copy)]
pub struct ExtendedEchoReply {
    /// The code: 0 where the interface was found; 1 for a malformed query, 2 where there is no such interface, 3 where
    /// there is no such table entry, and 4 where several interfaces are meant.
    pub code: u8,
    /// The identifier of the request.
    pub ident: u16,
    /// The sequence number of the request.
    pub seq_no: u8,
    /// The state of the table entry of a node beside the receiver, below 8: 1 incomplete, 2 reachable, 3 stale, 4
    /// delay, 5 probe, 6 failed.
    pub state: u8,
    /// The flag A: the interface is active.
    pub active: bool,
    /// The flag 4: the interface runs IPv4.
    pub ipv4: bool,
    /// The flag 6: the interface runs IPv6.
    pub ipv6: bool,
}

// The request about an interface.
pub(crate) fn read_request(octets: &[u8]) -> ExtendedEchoRequest<'_> {
    ExtendedEchoRequest {
        ident: octets.u16_at(field::IDENT),
        seq_no: octets[field::SEQ_NO],
        local: octets[field::FLAGS] % 2 == 1,
        data: &octets[field::HEADER_END..],
    }
}

// The answer about an interface.
pub(crate) fn read_reply(octets: &[u8]) -> ExtendedEchoReply {
    let flags = octets[field::FLAGS];
    ExtendedEchoReply {
        code: octets[field::CODE],
        ident: octets.u16_at(field::IDENT),
        seq_no: octets[field::SEQ_NO],
        state: flags / STATE_UNIT,
        active: flags / ACTIVE % 2 == 1,
        ipv4: flags / IPV4 % 2 == 1,
        ipv6: flags % 2 == 1,
    }
}

// Writes what follows the checksum of a request. Always inlined, as that of an answer: for both families it would be a
// call, which costs more than these few bytes.
#[inline(always)]
pub(crate) fn put_request(w: &mut ByteWriter<'_>, request: &ExtendedEchoRequest<'_>) {
    w.put_u16(request.ident);
    w.put_u8(request.seq_no);
    w.put_u8(bit(request.local, LOCAL));
    w.put_bytes(request.data);
}

// Writes what follows the checksum of an answer.
#[inline(always)]
pub(crate) fn put_reply(w: &mut ByteWriter<'_>, reply: &ExtendedEchoReply) {
    w.put_u16(reply.ident);
    w.put_u8(reply.seq_no);
    w.put_u8(reply_flags(reply));
}

// The state and the flags of an answer.
fn reply_flags(reply: &ExtendedEchoReply) -> u8 {
    STATE_UNIT * reply.state
        + bit(reply.active, ACTIVE)
        + bit(reply.ipv4, IPV4)
        + bit(reply.ipv6, IPV6)
}

// A flag of this value.
fn bit(flag: bool, value: u8) -> u8 {
    if flag { value } else { 0 }
}
