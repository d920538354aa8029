// Made from crates/dhcp_wire/src/dhcpv4/option_data.rt by rust/erase.
//! The data of options, written from the fields of a value (RFC 2132).

use super::MAX_DNS_SERVER_COUNT;
use super::repr::ETHERNET;
use super::tables::MessageType;
use crate::wirebase::{ByteWriter, EthernetAddress, Ipv4Address};
use arrayvec::ArrayVec;

// A value that is written as the data of an option.
pub(super) trait Data {
    // The number of bytes.
    fn len(&self) -> usize;

    // Writes the bytes. Requires that as many are free.
    fn put(&self, w: &mut ByteWriter<'_>);
}

impl Data for &[u8] {
    fn len(&self) -> usize {
        <[u8]>::len(*self)
    }

    fn put(&self, w: &mut ByteWriter<'_>) {
        w.put_bytes(*self);
    }
}

impl Data for MessageType {
    fn len(&self) -> usize {
        1
    }

    fn put(&self, w: &mut ByteWriter<'_>) {
        w.put_u8((*self).into());
    }
}

impl Data for u16 {
    fn len(&self) -> usize {
        2
    }

    fn put(&self, w: &mut ByteWriter<'_>) {
        w.put_u16(*self);
    }
}

impl Data for u32 {
    fn len(&self) -> usize {
        4
    }

    fn put(&self, w: &mut ByteWriter<'_>) {
        w.put_u32(*self);
    }
}

impl Data for Ipv4Address {
    fn len(&self) -> usize {
        4
    }

    fn put(&self, w: &mut ByteWriter<'_>) {
        w.put_bytes(&self.octets());
    }
}

// The hardware type of Ethernet, and the address.
impl Data for EthernetAddress {
    fn len(&self) -> usize {
        7
    }

    fn put(&self, w: &mut ByteWriter<'_>) {
        let [a, b, c, d, e, f] = self.0;
        w.put_bytes(&[ETHERNET, a, b, c, d, e, f]);
    }
}

// The addresses one after another.
impl Data for &ArrayVec<Ipv4Address, MAX_DNS_SERVER_COUNT> {
    fn len(&self) -> usize {
        4 * ArrayVec::len(*self)
    }

    fn put(&self, w: &mut ByteWriter<'_>) {
        for address in self.as_slice() {
            w.put_bytes(&address.octets());
        }
    }
}
