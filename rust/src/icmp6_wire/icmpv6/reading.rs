// Made from crates/icmp6_wire/src/icmpv6/reading.rt by rust/erase.
//! Messages read from the octets of a packet, by their types.

use super::field;
use super::packet::Packet;
use super::quote::read_quote;
use super::repr::Repr;
use super::tables::Message;
use crate::wirebase::{Error, IPV6_HEADER_LEN, Result};

// The error in octets of such a type, where their checks by the type hold.
#[inline(always)]
pub(super) fn read_error<'a, B: AsRef<[u8]> + ?Sized>(
    packet: &Packet<&'a B>,
    kind: Message,
) -> Result<Repr<'a>> {
    let payload = behind_header(packet);
    if payload.len() < IPV6_HEADER_LEN {
        return Err(Error);
    }
    let code = packet.msg_code();
    let (header, data) = read_quote(payload);
    match kind {
        Message::DstUnreachable => {
            return Ok(Repr::DstUnreachable {
                reason: code.into(),
                header,
                data,
            });
        }
        Message::PktTooBig if code == 0 => {
            return Ok(Repr::PktTooBig {
                mtu: packet.pkt_too_big_mtu(),
                header,
                data,
            });
        }
        Message::TimeExceeded => {
            return Ok(Repr::TimeExceeded {
                reason: code.into(),
                header,
                data,
            });
        }
        Message::ParamProblem => {
            return Ok(Repr::ParamProblem {
                reason: code.into(),
                pointer: packet.param_problem_ptr(),
                header,
                data,
            });
        }
        _ => {
            return Err(Error);
        }
    }
}

// The echo request in octets of that type and of code 0.
#[inline(always)]
pub(super) fn read_echo_request<'a, B: AsRef<[u8]> + ?Sized>(packet: &Packet<&'a B>) -> Repr<'a> {
    Repr::EchoRequest {
        ident: packet.echo_ident(),
        seq_no: packet.echo_seq_no(),
        data: behind_header(packet),
    }
}

// The echo reply in octets of that type and of code 0.
#[inline(always)]
pub(super) fn read_echo_reply<'a, B: AsRef<[u8]> + ?Sized>(packet: &Packet<&'a B>) -> Repr<'a> {
    Repr::EchoReply {
        ident: packet.echo_ident(),
        seq_no: packet.echo_seq_no(),
        data: behind_header(packet),
    }
}

// What follows the header of an error or an echo, which has 8 bytes.
#[inline(always)]
fn behind_header<'a, B: AsRef<[u8]> + ?Sized>(packet: &Packet<&'a B>) -> &'a [u8] {
    &packet.buffer.as_ref()[field::HEADER_END..]
}
