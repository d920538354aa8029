// Made from crates/header_wire/src/icmpv6/writing.rt by rust/erase.
//! Messages written into octets.

use super::{ExtendedEchoReply, ExtendedEchoRequest, Kind, Message, NodeInformation};
use crate::headers::extended_echo;
use crate::wirebase::ByteWriter;

// Writes the fields of the message over the front of the octets, with a checksum of zero.
pub(super) fn write(message: &Message<'_>, octets: &mut [u8]) {
    let mut w = ByteWriter::new(octets);
    match message {
        Message::NodeInformationQuery(node) => put_node(&mut w, Kind::NodeInformationQuery, node),
        Message::NodeInformationReply(node) => put_node(&mut w, Kind::NodeInformationReply, node),
        Message::ExtendedEchoRequest(request) => put_extended_request(&mut w, request),
        Message::ExtendedEchoReply(reply) => put_extended_reply(&mut w, reply),
    }
}

// Writes what a message begins with: its type, its code and a checksum of zero.
fn put_header(w: &mut ByteWriter<'_>, kind: Kind, code: u8) {
    w.put_u8(kind.number());
    w.put_u8(code);
    w.put_u16(0);
}

// Writes the fields of a query about a node, or of its answer.
fn put_node(w: &mut ByteWriter<'_>, kind: Kind, node: &NodeInformation<'_>) {
    put_header(w, kind, node.code);
    w.put_u16(node.qtype);
    w.put_u16(node.flags);
    w.put_bytes(&node.nonce.to_be_bytes());
    w.put_bytes(node.data);
}

// Writes the fields of a request about an interface.
fn put_extended_request(w: &mut ByteWriter<'_>, request: &ExtendedEchoRequest<'_>) {
    put_header(w, Kind::ExtendedEchoRequest, 0);
    extended_echo::put_request(w, request);
}

// Writes the fields of an answer about an interface.
fn put_extended_reply(w: &mut ByteWriter<'_>, reply: &ExtendedEchoReply) {
    put_header(w, Kind::ExtendedEchoReply, reply.code);
    extended_echo::put_reply(w, reply);
}
