// Made from crates/icmp6_wire/src/icmpv6/quote.rt by rust/erase.
//! The packet that an error quotes, from its header on, as much of it as the error may carry (RFC 4443 section 2.4).

use super::tables::Message;
use super::{MAX_QUOTED_DATA, field};
use crate::opt_wire::writing::put_header;
use crate::wirebase::{ByteWriter, IPV6_HEADER_LEN, Ipv6Packet, Ipv6Repr, icmp};

// The bytes of an error that quotes this header and as much of this data as it may.
pub(super) fn error_len(quoted: &Ipv6Repr, data: &[u8]) -> usize {
    field::HEADER_END + quoted.buffer_len() + quotable(data).len()
}

// Writes an error of this type over the front of the octets, with as much of its data as it may quote.
pub(super) fn write_error(
    octets: &mut [u8],
    kind: Message,
    code: u8,
    word: u32,
    quoted: &Ipv6Repr,
    data: &[u8],
) {
    put_error(&mut ByteWriter::new(octets), kind, code, word, quoted, data);
}

// Writes an error of this type with a writer.
fn put_error(
    w: &mut ByteWriter<'_>,
    kind: Message,
    code: u8,
    word: u32,
    quoted: &Ipv6Repr,
    data: &[u8],
) {
    icmp::put_header(w, kind.into(), code, word.to_be_bytes());
    put_header(w, quoted);
    w.put_bytes(quotable(data));
}

// The part of the data that an error may quote.
fn quotable(data: &[u8]) -> &[u8] {
    &data[..data.len().min(MAX_QUOTED_DATA)]
}

// The header that an error quotes, and all that follows it (RFC 4443 section 3).
pub(super) fn read_quote(octets: &[u8]) -> (Ipv6Repr, &[u8]) {
    let packet = Ipv6Packet::new_unchecked(octets);
    let header = Ipv6Repr {
        src_addr: packet.src_addr(),
        dst_addr: packet.dst_addr(),
        next_header: packet.next_header(),
        payload_len: packet.payload_len() as usize,
        hop_limit: packet.hop_limit(),
    };
    (header, &octets[IPV6_HEADER_LEN..])
}
