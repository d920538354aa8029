// Made from crates/wirebase/src/lib.rt by rust/erase.
//! The base of every format: the one type of refusal, the octets under a view, checksums, spans of time, and the IP
//! protocols and addresses.

pub mod byte_writer;
pub mod capabilities;
pub mod checksum;
pub mod config;
pub mod duration;
pub mod error;
pub mod ethernet;
pub mod hardware;
pub mod icmp;
pub mod ip;
pub mod ipv4;
pub mod ipv6;
pub mod octets;
pub mod text;

pub use byte_writer::ByteWriter;
pub use capabilities::{Checksum, ChecksumCapabilities};
pub use config::IPV6_HBH_MAX_OPTIONS;
pub use duration::Duration;
pub use error::{Error, Result};
pub use ethernet::{EthernetAddress, MAX_HARDWARE_ADDRESS_LEN, RawHardwareAddress};
pub use hardware::Hardware;
pub use ip::IpProtocol;
pub use ipv4::{Ipv4Address, Ipv4Packet, Ipv4Repr};
pub use ipv6::{
    IPV6_HEADER_LEN, IPV6_LINK_LOCAL_ALL_NODES, IPV6_LINK_LOCAL_ALL_ROUTERS, IPV6_MIN_MTU,
    Ipv6Address, Ipv6Packet, Ipv6Refusal, Ipv6Repr,
};
pub use octets::{Field, Octets, OctetsMut};
