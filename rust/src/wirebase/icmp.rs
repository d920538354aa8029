// Made from crates/wirebase/src/icmp.rt by rust/erase.
//! Parts of messages that ICMP for IPv4 (RFC 792), ICMP for IPv6 (RFC 4443) and IGMP (RFC 2236) share.

use crate::wirebase::byte_writer::ByteWriter;

/// Writes the eight bytes that a message begins with: its type, its code, a checksum of zero, and the four bytes after
/// them. Requires that eight are free.
///
/// # Panics
///
/// May panic where what is asked for above does not hold.
// In one write, since the checksum reads these bytes as one word: a processor waits where a word that it reads was
// written in pieces just before.
#[inline]
pub fn put_header(w: &mut ByteWriter<'_>, kind: u8, code: u8, rest: [u8; 4]) {
    let [a, b, c, d] = rest;
    let header = u64::from_be_bytes([kind, code, 0, 0, a, b, c, d]);
    w.put_bytes(&header.to_be_bytes());
}

/// Writes an echo of this type (RFC 792, RFC 4443 section 4), with a checksum of zero and as much of its data as there
/// is room for. Requires that eight bytes are free.
///
/// # Panics
///
/// May panic where what is asked for above does not hold.
#[inline]
pub fn put_echo(w: &mut ByteWriter<'_>, kind: u8, ident: u16, seq_no: u16, data: &[u8]) {
    let [ident_high, ident_low] = ident.to_be_bytes();
    let [seq_high, seq_low] = seq_no.to_be_bytes();
    put_header(w, kind, 0, [ident_high, ident_low, seq_high, seq_low]);
    w.put_front(data);
}
