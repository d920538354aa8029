// Made from crates/header_wire/src/icmpv4/reading.rt by rust/erase.
//! Messages read from octets.

use super::routers::ENTRY_WORDS;
use super::{
    AddressMask, Kind, Message, Refusal, RouterAdvertisement, Routers, Timestamp, field,
    kind_numbered,
};
use crate::headers::extended_echo;
use crate::wirebase::{Ipv4Address, Octets, checksum};

// The message that these octets are.
pub(super) fn read(octets: &[u8]) -> Result<Message<'_>, Refusal> {
    if octets.len() < field::HEADER_END {
        return Err(Refusal::Short);
    }
    if !checksum::is_good(octets, 0) {
        return Err(Refusal::Checksum);
    }
    read_content(octets)
}

// What the octets say, whose checksum is good.
fn read_content(octets: &[u8]) -> Result<Message<'_>, Refusal> {
    let number = octets[0];
    match kind_numbered(number) {
        Some(Kind::Timestamp) => Ok(Message::Timestamp(read_timestamp(octets)?)),
        Some(Kind::TimestampReply) => Ok(Message::TimestampReply(read_timestamp(octets)?)),
        Some(Kind::AddressMaskRequest) => Ok(Message::AddressMaskRequest(read_mask(octets)?)),
        Some(Kind::AddressMaskReply) => Ok(Message::AddressMaskReply(read_mask(octets)?)),
        Some(Kind::RouterSolicitation) => {
            check_fixed(octets, field::HEADER_END)?;
            Ok(Message::RouterSolicitation)
        }
        Some(Kind::RouterAdvertisement) => {
            Ok(Message::RouterAdvertisement(read_advertisement(octets)?))
        }
        Some(Kind::ExtendedEchoRequest) => Ok(Message::ExtendedEchoRequest(
            extended_echo::read_request(octets),
        )),
        Some(Kind::ExtendedEchoReply) => Ok(Message::ExtendedEchoReply(extended_echo::read_reply(
            octets,
        ))),
        None => Err(Refusal::UnknownType(number)),
    }
}

// Refused where the code is not 0, or the octets are fewer than `len`.
fn check_fixed(octets: &[u8], len: usize) -> Result<(), Refusal> {
    let code = octets[field::CODE];
    if code != 0 {
        return Err(Refusal::Code(code));
    }
    if octets.len() < len {
        return Err(Refusal::Length);
    }
    Ok(())
}

// The times of a request or an answer.
fn read_timestamp(octets: &[u8]) -> Result<Timestamp, Refusal> {
    check_fixed(octets, field::TRANSMIT.end)?;
    Ok(Timestamp {
        ident: octets.u16_at(field::IDENT),
        seq_no: octets.u16_at(field::SEQ_NO),
        originate: octets.u32_at(field::ORIGINATE),
        receive: octets.u32_at(field::RECEIVE),
        transmit: octets.u32_at(field::TRANSMIT),
    })
}

// The address mask of a request or an answer.
fn read_mask(octets: &[u8]) -> Result<AddressMask, Refusal> {
    check_fixed(octets, field::MASK.end)?;
    Ok(AddressMask {
        ident: octets.u16_at(field::IDENT),
        seq_no: octets.u16_at(field::SEQ_NO),
        mask: Ipv4Address::from_octets(octets.field(field::MASK).try_into().unwrap()),
    })
}

// The advertisement of routers.
fn read_advertisement(octets: &[u8]) -> Result<RouterAdvertisement<'_>, Refusal> {
    let code = octets[field::CODE];
    if code != 0 {
        return Err(Refusal::Code(code));
    }
    let count = octets[field::ROUTER_COUNT];
    if count == 0 {
        return Err(Refusal::NoRouters);
    }
    let words = octets[field::ENTRY_WORDS];
    if words < ENTRY_WORDS {
        return Err(Refusal::EntrySize(words));
    }
    let end = field::HEADER_END + 4 * (words as usize * count as usize);
    if octets.len() < end {
        return Err(Refusal::Cut);
    }
    Ok(RouterAdvertisement {
        lifetime: octets.u16_at(field::LIFETIME),
        routers: Routers {
            count,
            spare_words: words - ENTRY_WORDS,
            octets: &octets[field::HEADER_END..end],
        },
    })
}
