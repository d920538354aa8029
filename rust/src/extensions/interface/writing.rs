// Made from crates/extension_wire/src/interface/writing.rt by rust/erase.
//! What an object says of an interface, written into octets.

use super::{InterfaceAddress, InterfaceInformation};
use crate::wirebase::ByteWriter;

// Writes the parts that there are.
pub(super) fn put(w: &mut ByteWriter<'_>, interface: &InterfaceInformation<'_>) {
    put_number(w, interface.index);
    put_address(w, &interface.address);
    put_name(w, &interface.name);
    put_number(w, interface.mtu);
}

// Writes a number of four bytes, where it is there.
fn put_number(w: &mut ByteWriter<'_>, number: Option<u32>) {
    if let Some(number) = number {
        w.put_u32(number);
    }
}

// Writes an address, where it is there.
fn put_address(w: &mut ByteWriter<'_>, address: &Option<InterfaceAddress<'_>>) {
    if let Some(address) = address {
        w.put_u16(address.family.number());
        w.put_u16(0);
        w.put_bytes(address.octets);
    }
}

// Writes a name with its length and its padding, where it is there.
fn put_name(w: &mut ByteWriter<'_>, name: &Option<&[u8]>) {
    if let Some(name) = name {
        let len = padded_len(name);
        w.put_u8(len as u8);
        w.put_bytes(name);
        w.put_zeros(len - 1 - name.len());
    }
}

// The bytes of an address with those before it, where it is there.
pub(super) fn address_len(address: &Option<InterfaceAddress<'_>>) -> usize {
    match address {
        Some(address) => 4 + address.family.width(),
        None => 0,
    }
}

// The bytes of a name with its length and its padding, where it is there.
pub(super) fn name_len(name: &Option<&[u8]>) -> usize {
    match name {
        Some(name) => padded_len(name),
        None => 0,
    }
}

// The bytes of a name with its length and its padding.
fn padded_len(name: &[u8]) -> usize {
    (name.len() + 4) / 4 * 4
}
