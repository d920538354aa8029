// Made from crates/frame_wire/src/lib.rt by rust/erase.
//! The layers below a control packet: frames of links, IP datagrams with their options and extension headers, and UDP.
//!
//! ```
//! use control_wire::frames::{Datagram, Link, Network, UdpPacket, UdpRepr};
//! use control_wire::{ChecksumCapabilities, IpProtocol};
//!
//! // A frame of Ethernet, with a datagram of IPv4, with one of UDP that has one byte.
//! let octets = [
//!     0x02, 0, 0, 0, 0, 2, 0x02, 0, 0, 0, 0, 1, 0x08, 0x00, //
//!     0x45, 0, 0, 29, 0, 1, 0, 0, 64, 17, 0, 0, 192, 0, 2, 1, 192, 0, 2, 2, //
//!     0x9c, 0x40, 0, 53, 0, 9, 0, 0, b'x',
//! ];
//! let frame = Link::Ethernet.frame(&octets)?;
//! assert_eq!(frame.network, Network::Ipv4);
//! let datagram = Datagram::parse_v4(frame.payload).unwrap();
//! assert_eq!(datagram.protocol, IpProtocol::Udp);
//!
//! let udp = UdpPacket::new_checked(datagram.payload)?;
//! let ports = UdpRepr::parse(&udp, &datagram.addresses, &ChecksumCapabilities::default())?;
//! assert_eq!((ports.src_port, ports.dst_port), (40_000, 53));
//! assert_eq!(udp.payload(), b"x");
//! # Ok::<(), control_wire::Error>(())
//! ```

pub mod datagram;
pub mod link;
pub mod names;
pub mod tcp;
pub mod tunnel;
pub mod udp;

pub use datagram::{Addresses, Captured, Datagram, Extent, Head, Refusal};
pub use link::{EthernetHeader, Frame, Link, Network, VlanTag, VlanTags};
pub use tcp::TcpSegment;
pub use tunnel::{Inner, Tunnel};
pub use udp::{CapturedUdp, UdpPacket, UdpRepr};
