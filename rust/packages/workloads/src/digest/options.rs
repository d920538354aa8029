// Made from crates/workloads/src/digest/options.rt by rust/erase.
//! Adds the options of a hop-by-hop header.

use crate::digest::Digest;
use control_wire::ipv6hbh;
use control_wire::ipv6option::{Repr, RouterAlert, Type};

/// Adds the options of a header.
pub fn add_hop_by_hop(header: &ipv6hbh::Repr<'_>, digest: &mut Digest) {
    let ipv6hbh::Repr { options } = header;
    for option in options.as_slice() {
        add_option(option, digest);
    }
    digest.add(options.len() as u64);
}

/// Adds an option.
pub fn add_option(option: &Repr<'_>, digest: &mut Digest) {
    match option {
        Repr::Pad1 => digest.add(0),
        Repr::PadN(len) => digest.add(256 + *len as u64),
        Repr::RouterAlert(alert) => {
            let is_named = !matches!(alert, RouterAlert::Unknown(_));
            digest.add(1);
            digest.add_numbered(u16::from(*alert), is_named);
        }
        Repr::Unknown {
            type_,
            length,
            data,
        } => {
            let is_named = !matches!(type_, Type::Unknown(_));
            digest.add_numbered(u8::from(*type_) as u16, is_named);
            digest.add(*length as u64);
            digest.add_octets(data);
        }
        _ => unreachable!(),
    }
}
