// Made from crates/icmp6_wire/src/writing.rt by rust/erase.
// Writers that the messages of all three protocols share.

use crate::wirebase::{ByteWriter, Ipv6Address};

// Writes an address.
pub(crate) fn put_address(w: &mut ByteWriter<'_>, address: &Ipv6Address) {
    w.put_bytes(&address.octets());
}
