// Made from crates/packet_stats/src/names.rt by rust/erase.
//! Names in lower case.

use arrayvec::ArrayVec;
use control_wire::dns::Packet;
use control_wire::record::Name;
use control_wire::record::name::MAX_NAME_LEN;

/// The name with its letters of ASCII in lower case.
pub(crate) fn lowered(name: &Name) -> Name {
    let octets = lower_octets(name);
    let octets = octets.as_slice();
    // A whole name has no pointers, so any message will do.
    Name::read(&Packet::new_unchecked(octets), octets).unwrap()
}

fn lower_octets(name: &Name) -> ArrayVec<u8, MAX_NAME_LEN> {
    let mut octets = ArrayVec::new();
    for octet in name.octets() {
        octets.push(octet.to_ascii_lowercase());
    }
    octets
}
