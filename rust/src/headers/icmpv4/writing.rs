// Made from crates/header_wire/src/icmpv4/writing.rt by rust/erase.
//! Messages written into octets.

use super::routers::ENTRY_WORDS;
use super::{
    AddressMask, ExtendedEchoReply, ExtendedEchoRequest, Kind, Message, RouterAdvertisement,
    Timestamp,
};
use crate::headers::extended_echo;
use crate::wirebase::ByteWriter;

// Writes the fields of the message over the front of the octets, with a checksum of zero.
pub(super) fn write(message: &Message<'_>, octets: &mut [u8]) {
    let mut w = ByteWriter::new(octets);
    match message {
        Message::Timestamp(timestamp) => put_timestamp(&mut w, Kind::Timestamp, timestamp),
        Message::TimestampReply(timestamp) => {
            put_timestamp(&mut w, Kind::TimestampReply, timestamp)
        }
        Message::AddressMaskRequest(mask) => put_mask(&mut w, Kind::AddressMaskRequest, mask),
        Message::AddressMaskReply(mask) => put_mask(&mut w, Kind::AddressMaskReply, mask),
        Message::RouterSolicitation => put_solicitation(&mut w),
        Message::RouterAdvertisement(advertisement) => put_advertisement(&mut w, advertisement),
        Message::ExtendedEchoRequest(request) => put_extended_request(&mut w, request),
        Message::ExtendedEchoReply(reply) => put_extended_reply(&mut w, reply),
    }
}

// Writes what a message begins with: its type, its code and a checksum of zero.
fn put_header(w: &mut ByteWriter<'_>, kind: Kind, code: u8) {
    w.put_u8(kind.number());
    w.put_u8(code);
    w.put_u16(0);
}

// Writes the fields of a request for the time, or of its answer.
fn put_timestamp(w: &mut ByteWriter<'_>, kind: Kind, timestamp: &Timestamp) {
    put_header(w, kind, 0);
    w.put_u16(timestamp.ident);
    w.put_u16(timestamp.seq_no);
    w.put_u32(timestamp.originate);
    w.put_u32(timestamp.receive);
    w.put_u32(timestamp.transmit);
}

// Writes the fields of a request for the address mask, or of its answer.
fn put_mask(w: &mut ByteWriter<'_>, kind: Kind, mask: &AddressMask) {
    put_header(w, kind, 0);
    w.put_u16(mask.ident);
    w.put_u16(mask.seq_no);
    w.put_bytes(&mask.mask.octets());
}

// Writes the fields of a solicitation.
fn put_solicitation(w: &mut ByteWriter<'_>) {
    put_header(w, Kind::RouterSolicitation, 0);
    w.put_u32(0);
}

// Writes the fields of an advertisement.
fn put_advertisement(w: &mut ByteWriter<'_>, advertisement: &RouterAdvertisement<'_>) {
    let routers = advertisement.routers;
    put_header(w, Kind::RouterAdvertisement, 0);
    w.put_u8(routers.count);
    w.put_u8(ENTRY_WORDS + routers.spare_words);
    w.put_u16(advertisement.lifetime);
    w.put_bytes(routers.octets);
}

// Writes the fields of a request about an interface.
fn put_extended_request(w: &mut ByteWriter<'_>, request: &ExtendedEchoRequest<'_>) {
    put_header(w, Kind::ExtendedEchoRequest, 0);
    extended_echo::put_request(w, request);
}

// Writes the fields of an answer about an interface.
fn put_extended_reply(w: &mut ByteWriter<'_>, reply: &ExtendedEchoReply) {
    put_header(w, Kind::ExtendedEchoReply, reply.code);
    extended_echo::put_reply(w, reply);
}
