// Made from crates/icmp6_wire/src/ndisc/options.rt by rust/erase.
//! Writes the options of a message, each of which may be absent.

use crate::opt_wire::ndiscoption::{PrefixInformation, RedirectedHeader, Type};
use crate::opt_wire::writing;
use crate::wirebase::{ByteWriter, RawHardwareAddress};

// The bytes of the option of a link-layer address of the sender.
pub(super) fn source_len(lladdr: &Option<RawHardwareAddress>) -> usize {
    match lladdr {
        Some(addr) => writing::link_layer_addr_len(addr),
        None => 0,
    }
}

// The bytes of the option of a link-layer address of the target.
pub(super) fn target_len(lladdr: &Option<RawHardwareAddress>) -> usize {
    match lladdr {
        Some(addr) => writing::link_layer_addr_len(addr),
        None => 0,
    }
}

// The bytes of the option of an MTU.
pub(super) fn mtu_len(mtu: &Option<u32>) -> usize {
    match mtu {
        Some(_) => writing::MTU_LEN,
        None => 0,
    }
}

// The bytes of the option of a prefix.
pub(super) fn prefix_len(prefix_info: &Option<PrefixInformation>) -> usize {
    match prefix_info {
        Some(_) => writing::PREFIX_OPTION_LEN,
        None => 0,
    }
}

// The bytes of the option of a redirected packet.
pub(super) fn redirected_len(header: &Option<RedirectedHeader<'_>>) -> usize {
    match header {
        Some(header) => writing::redirected_len(header),
        None => 0,
    }
}

// Writes the option of a link-layer address of the sender.
pub(super) fn put_source(w: &mut ByteWriter<'_>, lladdr: &Option<RawHardwareAddress>) {
    match lladdr {
        Some(addr) => writing::put_link_layer_addr(w, Type::SourceLinkLayerAddr, addr),
        None => {}
    }
}

// Writes the option of a link-layer address of the target.
pub(super) fn put_target(w: &mut ByteWriter<'_>, lladdr: &Option<RawHardwareAddress>) {
    match lladdr {
        Some(addr) => writing::put_link_layer_addr(w, Type::TargetLinkLayerAddr, addr),
        None => {}
    }
}

// Writes the option of an MTU.
pub(super) fn put_mtu(w: &mut ByteWriter<'_>, mtu: &Option<u32>) {
    match mtu {
        Some(mtu) => writing::put_mtu(w, *mtu),
        None => {}
    }
}

// Writes the option of a prefix.
pub(super) fn put_prefix(w: &mut ByteWriter<'_>, prefix_info: &Option<PrefixInformation>) {
    match prefix_info {
        Some(info) => writing::put_prefix(w, info),
        None => {}
    }
}

// Writes the option of a redirected packet.
pub(super) fn put_redirected(w: &mut ByteWriter<'_>, header: &Option<RedirectedHeader<'_>>) {
    match header {
        Some(header) => writing::put_redirected(w, header),
        None => {}
    }
}
