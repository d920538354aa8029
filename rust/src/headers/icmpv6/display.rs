// Made from crates/header_wire/src/icmpv6/display.rt by rust/erase.
//! What messages and their refusals print.

use super::{Message, NodeInformation, Refusal};
use core::fmt;

/// The numbers, and the number of bytes of the data.
impl fmt::Display for NodeInformation<'_> {
    fn fmt(&self, f: &mut fmt::Formatter<'_>) -> fmt::Result {
        let code = self.code;
        let qtype = self.qtype;
        let flags = self.flags;
        let nonce = self.nonce;
        let len = self.data.len();
        write!(
            f,
            "code={code} qtype={qtype} flags={flags} nonce={nonce} len={len}"
        )
    }
}

/// The type by its name, and what the message says.
impl fmt::Display for Message<'_> {
    fn fmt(&self, f: &mut fmt::Formatter<'_>) -> fmt::Result {
        match self {
            Message::NodeInformationQuery(node) => {
                write!(f, "ICMPv6 node information query {node}")
            }
            Message::NodeInformationReply(node) => {
                write!(f, "ICMPv6 node information reply {node}")
            }
            Message::ExtendedEchoRequest(request) => {
                write!(f, "ICMPv6 extended echo request {request}")
            }
            Message::ExtendedEchoReply(reply) => write!(f, "ICMPv6 extended echo reply {reply}"),
        }
    }
}

/// The reason, as a phrase.
impl fmt::Display for Refusal {
    fn fmt(&self, f: &mut fmt::Formatter<'_>) -> fmt::Result {
        match self {
            Refusal::Short => write!(f, "fewer than 8 bytes"),
            Refusal::Checksum => write!(f, "the checksum does not hold"),
            Refusal::UnknownType(number) => write!(f, "type {number} is not read"),
            Refusal::Length => write!(f, "fewer bytes than a message of this type has"),
        }
    }
}
