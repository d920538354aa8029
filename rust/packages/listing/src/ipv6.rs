// Made from crates/listing/src/ipv6.rt by rust/erase.
//! IPv6 addresses and headers, which occur in messages of several formats.

use crate::printer::{Value, part_field};
use control_wire::{Ipv6Address, Ipv6Repr};
use rattle_std::io;
use rattle_std::io::Write;

// The octets of an address.
impl Value for Ipv6Address {
    fn write_to<W: Write>(self, output: &mut W) -> io::Result<()> {
        self.octets().as_slice().write_to(output)
    }
}

/// Prints the fields of a header that is a part of a value, whose name and a dot are `part`.
pub fn show_header<W: Write>(output: &mut W, part: &str, header: &Ipv6Repr) -> io::Result<()> {
    part_field(output, part, "src_addr", header.src_addr)?;
    part_field(output, part, "dst_addr", header.dst_addr)?;
    part_field(output, part, "next_header", u8::from(header.next_header))?;
    part_field(output, part, "payload_len", header.payload_len)?;
    part_field(output, part, "hop_limit", header.hop_limit)
}
