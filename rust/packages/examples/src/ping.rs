// Made from crates/examples/src/ping.rt by rust/erase.
//! A host that is pinged: the answers to echo requests of ICMPv4 (RFC 792) and of ICMPv6 (RFC 4443 section 4).

use control_wire::icmpv4::{Packet, Repr};
use control_wire::{ChecksumCapabilities, Ipv6Address, icmpv6};

/// Writes the answer to an echo request over the front of the reply, and says how many bytes it takes. None exactly
/// where the request is no echo request with a good checksum, or where the reply has no room for the answer; then the
/// reply is as it was. Requires a request of at most 65,535 bytes, as IPv4 carries.
pub fn answer(request: &[u8], reply: &mut [u8]) -> Option<usize> {
    let caps = ChecksumCapabilities::default();
    let message = match Repr::parse(&Packet::new_unchecked(request), &caps) {
        Ok(message) => message,
        Err(_) => return None,
    };
    let Repr::EchoRequest {
        ident,
        seq_no,
        data,
    } = message
    else {
        return None;
    };
    let answer = Repr::EchoReply {
        ident,
        seq_no,
        data,
    };
    let len = answer.buffer_len();
    if reply.len() < len {
        return None;
    }
    answer.emit_into(&mut reply[..len], &caps);
    Some(len)
}

/// The reply over IPv6, from the address of this host: the request came from `peer` and went to `asked`, which is this
/// host's address or one of a group that it is in (RFC 4443 section 4.2).
pub fn answer_v6(
    peer: &Ipv6Address,
    asked: &Ipv6Address,
    own: &Ipv6Address,
    request: &[u8],
    reply: &mut [u8],
) -> Option<usize> {
    let caps = ChecksumCapabilities::default();
    let packet = icmpv6::Packet::new_unchecked(request);
    let message = match icmpv6::Repr::parse(peer, asked, &packet, &caps) {
        Ok(message) => message,
        Err(_) => return None,
    };
    let icmpv6::Repr::EchoRequest {
        ident,
        seq_no,
        data,
    } = message
    else {
        return None;
    };
    write_reply_v6(own, peer, ident, seq_no, data, reply)
}

// Writes a reply of ICMPv6 to the start of the octets, where they are long enough.
fn write_reply_v6(
    own: &Ipv6Address,
    peer: &Ipv6Address,
    ident: u16,
    seq_no: u16,
    data: &[u8],
    out: &mut [u8],
) -> Option<usize> {
    let message = icmpv6::Repr::EchoReply {
        ident,
        seq_no,
        data,
    };
    let len = message.buffer_len();
    if len > out.len() {
        return None;
    }
    let caps = ChecksumCapabilities::default();
    message.emit_into(own, peer, &mut out[..len], &caps);
    Some(len)
}
