// Made from crates/workloads/src/digest/icmp.rt by rust/erase.
//! Adds ICMP messages, of both families.

use crate::digest::Digest;
use crate::digest::groups::add_mld;
use crate::digest::ip::{
    add_ipv4_address, add_ipv4_header, add_ipv6_address, add_ipv6_header, add_protocol,
};
use crate::digest::neighbors::add_ndisc;
use control_wire::quotes::quote::{Ipv4Quote, Ipv6Quote};
use control_wire::quotes::{icmpv4_error, icmpv6_error};
use control_wire::{icmpv4, icmpv6};

// Adds an echo of a type.
#[inline(always)]
fn add_echo(type_: u64, ident: u16, seq_no: u16, data: &[u8], digest: &mut Digest) {
    digest.add(type_);
    digest.add(ident as u64);
    digest.add(seq_no as u64);
    digest.add_front(data);
}

/// Adds what an ICMPv4 message says.
pub fn add_icmpv4(message: &icmpv4::Repr<'_>, digest: &mut Digest) {
    match message {
        icmpv4::Repr::EchoRequest {
            ident,
            seq_no,
            data,
        } => add_echo(1, *ident, *seq_no, data, digest),
        icmpv4::Repr::EchoReply {
            ident,
            seq_no,
            data,
        } => add_echo(2, *ident, *seq_no, data, digest),
        icmpv4::Repr::DstUnreachable {
            reason,
            header,
            data,
        } => {
            let is_named = !matches!(reason, icmpv4::DstUnreachable::Unknown(_));
            digest.add(3);
            digest.add_numbered(u8::from(*reason) as u16, is_named);
            add_ipv4_header(header, digest);
            digest.add_front(data);
        }
        icmpv4::Repr::TimeExceeded {
            reason,
            header,
            data,
        } => {
            let is_named = !matches!(reason, icmpv4::TimeExceeded::Unknown(_));
            digest.add(4);
            digest.add_numbered(u8::from(*reason) as u16, is_named);
            add_ipv4_header(header, digest);
            digest.add_front(data);
        }
        _ => unreachable!(),
    }
}

/// Adds what an ICMPv6 message says.
pub fn add_icmpv6(message: &icmpv6::Repr<'_>, digest: &mut Digest) {
    match message {
        icmpv6::Repr::EchoRequest {
            ident,
            seq_no,
            data,
        } => add_echo(1, *ident, *seq_no, data, digest),
        icmpv6::Repr::EchoReply {
            ident,
            seq_no,
            data,
        } => add_echo(2, *ident, *seq_no, data, digest),
        icmpv6::Repr::Ndisc(message) => {
            digest.add(3);
            add_ndisc(message, digest);
        }
        icmpv6::Repr::Mld(message) => {
            digest.add(4);
            add_mld(message, digest);
        }
        icmpv6::Repr::DstUnreachable {
            reason,
            header,
            data,
        } => {
            let is_named = !matches!(reason, icmpv6::DstUnreachable::Unknown(_));
            digest.add(5);
            digest.add_numbered(u8::from(*reason) as u16, is_named);
            add_ipv6_header(header, digest);
            digest.add_front(data);
        }
        icmpv6::Repr::PktTooBig { mtu, header, data } => {
            digest.add(6);
            digest.add(*mtu as u64);
            add_ipv6_header(header, digest);
            digest.add_front(data);
        }
        icmpv6::Repr::TimeExceeded {
            reason,
            header,
            data,
        } => {
            let is_named = !matches!(reason, icmpv6::TimeExceeded::Unknown(_));
            digest.add(7);
            digest.add_numbered(u8::from(*reason) as u16, is_named);
            add_ipv6_header(header, digest);
            digest.add_front(data);
        }
        icmpv6::Repr::ParamProblem {
            reason,
            pointer,
            header,
            data,
        } => {
            let is_named = !matches!(reason, icmpv6::ParamProblem::Unknown(_));
            digest.add(8);
            digest.add_numbered(u8::from(*reason) as u16, is_named);
            digest.add(*pointer as u64);
            add_ipv6_header(header, digest);
            digest.add_front(data);
        }
        _ => unreachable!(),
    }
}

/// Adds what an ICMPv4 error says, and what it quotes.
pub fn add_icmpv4_error(error: &icmpv4_error::Repr<'_>, digest: &mut Digest) {
    let icmpv4_error::Repr {
        kind,
        code,
        rest,
        quoted,
    } = error;
    digest.add(kind.number() as u64);
    digest.add(*code as u64);
    digest.add(*rest as u64);
    digest.add_front(quoted);
}

/// Adds what an ICMPv6 error says, and what it quotes.
pub fn add_icmpv6_error(error: &icmpv6_error::Repr<'_>, digest: &mut Digest) {
    let icmpv6_error::Repr {
        kind,
        code,
        rest,
        quoted,
    } = error;
    digest.add(kind.number() as u64);
    digest.add(*code as u64);
    digest.add(*rest as u64);
    digest.add_front(quoted);
}

/// Adds the datagram that an ICMPv4 error quotes.
pub fn add_ipv4_quote(quote: &Ipv4Quote<'_>, digest: &mut Digest) {
    let Ipv4Quote {
        type_of_service,
        total_len,
        ident,
        dont_frag,
        more_frags,
        frag_offset,
        hop_limit,
        next_header,
        src_addr,
        dst_addr,
        options,
        payload,
    } = quote;
    digest.add(*type_of_service as u64);
    digest.add(*total_len as u64);
    digest.add_numbered(*ident, *dont_frag);
    digest.add_numbered(*frag_offset, *more_frags);
    digest.add(*hop_limit as u64);
    add_protocol(*next_header, digest);
    add_ipv4_address(src_addr, digest);
    add_ipv4_address(dst_addr, digest);
    digest.add_octets(options);
    digest.add_ends(payload);
}

/// Adds the packet that an ICMPv6 error quotes.
pub fn add_ipv6_quote(quote: &Ipv6Quote<'_>, digest: &mut Digest) {
    let Ipv6Quote {
        traffic_class,
        flow_label,
        payload_len,
        next_header,
        hop_limit,
        src_addr,
        dst_addr,
        payload,
    } = quote;
    digest.add(*traffic_class as u64);
    digest.add(*flow_label as u64);
    digest.add(*payload_len as u64);
    add_protocol(*next_header, digest);
    digest.add(*hop_limit as u64);
    add_ipv6_address(src_addr, digest);
    add_ipv6_address(dst_addr, digest);
    digest.add_ends(payload);
}
