// Made from crates/examples/src/first.rt by rust/erase.
//! A first use of the library: prints what a packet of ICMPv4 holds.

use control_wire::ChecksumCapabilities;
use control_wire::icmpv4::{Packet, Repr};
use rattle_std::io;
use rattle_std::io::Write;

/// Prints the message in a packet of ICMPv4, or that the packet is refused.
pub fn print_message<W: Write>(output: &mut W, octets: &[u8]) -> io::Result<()> {
    let packet = Packet::new_unchecked(octets);
    match Repr::parse(&packet, &ChecksumCapabilities::default()) {
        Ok(message) => writeln!(output, "{message}"),
        Err(_) => writeln!(output, "refused"),
    }
}
