// Made from crates/header_wire/src/icmpv6/reading.rt by rust/erase.
//! Messages read from octets.

use super::{Kind, Message, NodeInformation, Refusal, field, kind_numbered};
use crate::headers::extended_echo;
use crate::wirebase::{Octets, checksum};
use byteorder::{BigEndian, ByteOrder};

// The message that these octets are, where the sum of their pseudo header is this.
pub(super) fn read(octets: &[u8], extra: u16) -> Result<Message<'_>, Refusal> {
    if octets.len() < field::HEADER_END {
        return Err(Refusal::Short);
    }
    if !checksum::is_good(octets, extra) {
        return Err(Refusal::Checksum);
    }
    read_content(octets)
}

// What the octets say, whose checksum is good.
fn read_content(octets: &[u8]) -> Result<Message<'_>, Refusal> {
    let number = octets[0];
    match kind_numbered(number) {
        Some(Kind::NodeInformationQuery) => Ok(Message::NodeInformationQuery(read_node(octets)?)),
        Some(Kind::NodeInformationReply) => Ok(Message::NodeInformationReply(read_node(octets)?)),
        Some(Kind::ExtendedEchoRequest) => Ok(Message::ExtendedEchoRequest(
            extended_echo::read_request(octets),
        )),
        Some(Kind::ExtendedEchoReply) => Ok(Message::ExtendedEchoReply(extended_echo::read_reply(
            octets,
        ))),
        None => Err(Refusal::UnknownType(number)),
    }
}

// What is asked or told of a node.
fn read_node(octets: &[u8]) -> Result<NodeInformation<'_>, Refusal> {
    if octets.len() < field::NONCE.end {
        return Err(Refusal::Length);
    }
    Ok(NodeInformation {
        code: octets[field::CODE],
        qtype: octets.u16_at(field::QTYPE),
        flags: octets.u16_at(field::FLAGS),
        nonce: BigEndian::read_u64(octets.field(field::NONCE)),
        data: &octets[field::NONCE.end..],
    })
}
