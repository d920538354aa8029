// Made from crates/dump_captures/src/fragments.rt by rust/erase.
//! Fragments, and the datagrams that are put together from them.

use crate::kind::Reason;
use crate::path::Path;
use crate::place::{follow, inside};
use crate::ports::Ports;
use crate::refusal::Refusal;
use crate::refused::told;
use crate::sight::{Finding, Sight, is_cut, look_at_end, whole};
use capture::Record;
use control_wire::frames::Datagram;
use packet_fields::ports::ports_of;
use reassembly::{Fragment, Whole};

/// What is known of a fragment that is refused.
pub fn refused_fragment<'a>(
    given: &Ports,
    path: &Path<'a>,
    fragment: &Fragment<'_>,
    refusal: Refusal,
) -> Sight<'a> {
    let ports = first_ports(fragment);
    told(
        given,
        path,
        fragment.addresses,
        fragment.protocol,
        ports,
        Reason::Fragment,
        refusal,
    )
}

// The ports in a fragment, which only the first one of a datagram begins with.
fn first_ports(fragment: &Fragment<'_>) -> Option<(u16, u16)> {
    if fragment.frag_offset == 0 {
        ports_of(fragment.protocol, fragment.payload)
    } else {
        None
    }
}

/// What a datagram tells that was put together with a packet, by the way to it.
pub fn look_at_joined<'a>(
    given: &Ports,
    captured: &Record,
    octets: &[u8],
    path: &Path<'a>,
    joined: &'a Whole,
) -> Sight<'a> {
    let payload = joined.payload.as_slice();
    match Datagram::joined(joined.addresses, joined.protocol, payload) {
        Ok(datagram) => {
            let datagram = Datagram {
                hop_by_hop: options_of(joined),
                ..datagram
            };
            look_within(given, captured, octets, path, &datagram)
        }
        Err(refusal) => {
            let refusal = Refusal::Datagram(refusal);
            let reason = refusal.reason(is_cut(captured, octets));
            told(
                given,
                path,
                joined.addresses,
                joined.protocol,
                None,
                reason,
                refusal,
            )
        }
    }
}

// The hop-by-hop options of a datagram that was put together.
fn options_of(joined: &Whole) -> Option<&[u8]> {
    match &joined.hop_by_hop {
        Some(options) => Some(options.as_slice()),
        None => None,
    }
}

// What a datagram tells that was put together.
fn look_within<'a>(
    given: &Ports,
    captured: &Record,
    octets: &[u8],
    path: &Path<'a>,
    datagram: &Datagram<'a>,
) -> Sight<'a> {
    match inside(path, datagram) {
        Some(step) => unless_fragment(given, look_at_end(given, captured, octets, &follow(step))),
        None => whole(given, path, false, datagram),
    }
}

// In a datagram that was put together no fragment is put together with others.
fn unless_fragment<'a>(given: &Ports, finding: Finding<'a>) -> Sight<'a> {
    match finding {
        Finding::Sight(sight) => sight,
        Finding::Fragment(path, fragment) => {
            refused_fragment(given, &path, &fragment, Refusal::Nested)
        }
    }
}
