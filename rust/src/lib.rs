// Made from crates/control_wire/src/lib.rt by rust/erase.
#![doc = include_str!("../README.md")]
#![no_std]
#![forbid(unsafe_code)]

mod by_hand;
pub mod dhcp_options;
mod dhcp_wire;
mod dns_wire;
pub mod extensions;
pub mod frames;
pub mod groups;
pub mod headers;
mod icmp4_wire;
mod icmp6_wire;
pub mod neighbors;
mod opt_wire;
pub mod quotes;
pub mod record;
mod wirebase;

pub use by_hand::smoltcp::{self, phy, time, wire};

/// What the modules share and the tests try. It is no part of the API.
#[doc(hidden)]
pub mod inside {
    pub use crate::dns_wire::octets;
    pub use crate::wirebase::text;
}

pub mod icmp;

pub use crate::dhcp_wire::dhcpv4;
pub use crate::dns_wire::dns;
pub use crate::icmp4_wire::{icmpv4, igmp};
pub use crate::icmp6_wire::icmpv6::Repr as Icmpv6Repr;
pub use crate::icmp6_wire::mld::Repr as MldRepr;
pub use crate::icmp6_wire::ndisc::Repr as NdiscRepr;
pub use crate::icmp6_wire::{icmpv6, mld, ndisc};
pub use crate::opt_wire::ipv6option::{Ipv6Option, Ipv6OptionsIterator, Repr as Ipv6OptionRepr};
pub use crate::opt_wire::ndiscoption::{
    NdiscOption, PrefixInformation as NdiscPrefixInformation,
    RedirectedHeader as NdiscRedirectedHeader, Repr as NdiscOptionRepr,
};
pub use crate::opt_wire::{ipv6ext_header, ipv6hbh, ipv6option, ndiscoption};
pub use crate::wirebase::{
    ByteWriter, Checksum, ChecksumCapabilities, Duration, Error, EthernetAddress, Field, Hardware,
    IPV6_HBH_MAX_OPTIONS, IPV6_HEADER_LEN, IPV6_LINK_LOCAL_ALL_NODES, IPV6_LINK_LOCAL_ALL_ROUTERS,
    IPV6_MIN_MTU, IpProtocol, Ipv4Address, Ipv4Packet, Ipv4Repr, Ipv6Address, Ipv6Packet,
    Ipv6Refusal, Ipv6Repr, MAX_HARDWARE_ADDRESS_LEN, Octets, OctetsMut, RawHardwareAddress, Result,
    checksum, octets,
};
