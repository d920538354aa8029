// Made from crates/header_wire/src/icmpv4/display.rt by rust/erase.
//! What messages and their refusals print.

use super::{AddressMask, Message, Refusal, RouterAdvertisement, Timestamp};
use core::fmt;

/// The numbers and the times.
impl fmt::Display for Timestamp {
    fn fmt(&self, f: &mut fmt::Formatter<'_>) -> fmt::Result {
        let ident = self.ident;
        let seq_no = self.seq_no;
        let originate = self.originate;
        let receive = self.receive;
        let transmit = self.transmit;
        write!(
            f,
            "id={ident} seq={seq_no} originate={originate} receive={receive} transmit={transmit}"
        )
    }
}

/// The numbers and the mask.
impl fmt::Display for AddressMask {
    fn fmt(&self, f: &mut fmt::Formatter<'_>) -> fmt::Result {
        let ident = self.ident;
        let seq_no = self.seq_no;
        let mask = self.mask;
        write!(f, "id={ident} seq={seq_no} mask={mask}")
    }
}

/// The lifetime and the number of routers.
impl fmt::Display for RouterAdvertisement<'_> {
    fn fmt(&self, f: &mut fmt::Formatter<'_>) -> fmt::Result {
        let lifetime = self.lifetime;
        let routers = self.routers.len();
        write!(f, "lifetime={lifetime} routers={routers}")
    }
}

/// The type by its name, and what the message says.
impl fmt::Display for Message<'_> {
    fn fmt(&self, f: &mut fmt::Formatter<'_>) -> fmt::Result {
        match self {
            Message::Timestamp(times) => write!(f, "ICMPv4 timestamp {times}"),
            Message::TimestampReply(times) => write!(f, "ICMPv4 timestamp reply {times}"),
            Message::AddressMaskRequest(mask) => write!(f, "ICMPv4 address mask request {mask}"),
            Message::AddressMaskReply(mask) => write!(f, "ICMPv4 address mask reply {mask}"),
            Message::RouterSolicitation => write!(f, "ICMPv4 router solicitation"),
            Message::RouterAdvertisement(advertisement) => {
                write!(f, "ICMPv4 router advertisement {advertisement}")
            }
            Message::ExtendedEchoRequest(request) => {
                write!(f, "ICMPv4 extended echo request {request}")
            }
            Message::ExtendedEchoReply(reply) => write!(f, "ICMPv4 extended echo reply {reply}"),
        }
    }
}

/// The reason, as a phrase.
impl fmt::Display for Refusal {
    fn fmt(&self, f: &mut fmt::Formatter<'_>) -> fmt::Result {
        match self {
            Refusal::Short => write!(f, "fewer than 8 bytes"),
            Refusal::Checksum => write!(f, "the checksum does not hold"),
            Refusal::UnknownType(number) => write!(f, "type {number} is not read"),
            Refusal::Code(code) => write!(f, "code {code} is not 0"),
            Refusal::Length => write!(f, "fewer bytes than a message of this type has"),
            Refusal::NoRouters => write!(f, "an advertisement of no routers"),
            Refusal::EntrySize(words) => write!(f, "entries of {words} words are below 2"),
            Refusal::Cut => write!(f, "the routers of an advertisement are cut short"),
        }
    }
}
