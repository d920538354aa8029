// Made from crates/tests_icmp/src/icmp6/plain_reader/control.rt by rust/erase.
// Messages of ICMPv6 (RFC 4443), and what they carry.

use super::{listener, neighbor, split_header, split_ip_header};
use control_wire::icmpv6::Repr;

// Three errors have any code, and the other messages the code 0.
pub(crate) fn message(octets: &[u8]) -> Option<Repr<'_>> {
    let (header, behind) = split_header(octets)?;
    let [kind, code, _, _, word @ ..] = header else {
        return None;
    };
    match (*kind, *code) {
        (1..=4, _) => error(*kind, *code, word, behind),
        (128 | 129, 0) => echo(*kind, word, behind),
        (130 | 143, 0) => match listener::message(octets) {
            Some(message) => Some(Repr::Mld(message)),
            None => None,
        },
        (133..=137, 0) => match neighbor::message(octets) {
            Some(message) => Some(Repr::Ndisc(message)),
            None => None,
        },
        _ => None,
    }
}

fn echo<'a>(kind: u8, word: &[u8], data: &'a [u8]) -> Option<Repr<'a>> {
    let [id_high, id_low, seq_high, seq_low] = word else {
        return None;
    };
    let ident = u16::from_be_bytes([*id_high, *id_low]);
    let seq_no = u16::from_be_bytes([*seq_high, *seq_low]);
    Some(match kind {
        128 => Repr::EchoRequest {
            ident,
            seq_no,
            data,
        },
        _ => Repr::EchoReply {
            ident,
            seq_no,
            data,
        },
    })
}

// An error, which quotes a whole header.
fn error<'a>(kind: u8, code: u8, word: &[u8], quote: &'a [u8]) -> Option<Repr<'a>> {
    let (word, _) = word.split_first_chunk::<4>()?;
    let word = u32::from_be_bytes(*word);
    let (header, data) = split_ip_header(quote)?;
    match (kind, code) {
        (1, _) => Some(Repr::DstUnreachable {
            reason: code.into(),
            header,
            data,
        }),
        (2, 0) => Some(Repr::PktTooBig {
            mtu: word,
            header,
            data,
        }),
        (3, _) => Some(Repr::TimeExceeded {
            reason: code.into(),
            header,
            data,
        }),
        (4, _) => Some(Repr::ParamProblem {
            reason: code.into(),
            pointer: word,
            header,
            data,
        }),
        _ => None,
    }
}
