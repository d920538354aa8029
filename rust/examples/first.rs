//! A first use of the library: prints what a packet of ICMPv4 holds.

use control_wire::ChecksumCapabilities;
use control_wire::icmpv4::{Packet, Repr};

fn main() {
    let octets = b"\x08\x00\x8e\xfe\x12\x34\xab\xcd\xaa\x00\x00\xff";
    let packet = Packet::new_unchecked(&octets[..]);
    match Repr::parse(&packet, &ChecksumCapabilities::default()) {
        Ok(message) => println!("{message}"),
        Err(_) => println!("refused"),
    }
}
