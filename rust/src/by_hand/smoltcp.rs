//! The items under the names that they have in smoltcp 0.14.
//!
//! The modules [`wire`](crate::wire), [`phy`](crate::phy) and [`time`](crate::time) stand at the root too. So the paths
//! of a program that reads and writes packets by smoltcp stay as they are where its manifest has the line
//! `smoltcp = { package = "control_wire", .. }`, or its root `extern crate control_wire as smoltcp;`, in each module; and
//! by `use control_wire::smoltcp;` in the module that has this line:
//!
//! ```
//! use control_wire::smoltcp;
//! use smoltcp::phy::ChecksumCapabilities;
//! use smoltcp::wire::{Icmpv4Packet, Icmpv4Repr};
//!
//! let packet = Icmpv4Packet::new_checked([8, 0, 0xf7, 0xff, 0, 0, 0, 0])?;
//! # assert_eq!(packet.checksum(), 0xf7ff);
//! let octets = packet.into_inner();
//! let view = Icmpv4Packet::new_unchecked(&octets);
//! let request = Icmpv4Repr::parse(&view, &ChecksumCapabilities::default())?;
//! assert_eq!(request, Icmpv4Repr::EchoRequest { ident: 0, seq_no: 0, data: &[] });
//! # Ok::<(), smoltcp::wire::Error>(())
//! ```
//!
//! ```
//! extern crate control_wire as smoltcp;
//!
//! mod within {
//!     use smoltcp::phy::ChecksumCapabilities;
//!     use smoltcp::time::Duration;
//!     use smoltcp::wire::{IgmpRepr, Ipv4Address};
//!
//!     pub fn is_answered(message: &IgmpRepr) -> bool {
//!         matches!(message, IgmpRepr::MembershipQuery { max_resp_time, .. } if *max_resp_time > Duration::ZERO)
//!     }
//! # pub fn other(_: ChecksumCapabilities, _: Ipv4Address) {}
//! }
//! # assert!(!within::is_answered(&smoltcp::wire::IgmpRepr::LeaveGroup { group_addr: smoltcp::wire::Ipv4Address::new(224, 0, 0, 1) }));
//! ```

/// What `smoltcp::wire` has of these protocols.
pub mod wire {
    pub use crate::dhcpv4::{
        CLIENT_PORT as DHCP_CLIENT_PORT, DhcpOption, DhcpOptionWriter, Flags as DhcpFlags,
        MAX_DNS_SERVER_COUNT as DHCP_MAX_DNS_SERVER_COUNT, MessageType as DhcpMessageType,
        OpCode as DhcpOpCode, Packet as DhcpPacket, Repr as DhcpRepr,
        SERVER_PORT as DHCP_SERVER_PORT,
    };
    pub use crate::dns::{
        Flags as DnsFlags, Opcode as DnsOpcode, Packet as DnsPacket, Question as DnsQuestion,
        Rcode as DnsRcode, Record as DnsRecord, RecordData as DnsRecordData, Repr as DnsRepr,
        Type as DnsQueryType,
    };
    pub use crate::icmp::Repr as IcmpRepr;
    pub use crate::icmpv4::{
        DstUnreachable as Icmpv4DstUnreachable, Message as Icmpv4Message, Packet as Icmpv4Packet,
        ParamProblem as Icmpv4ParamProblem, Redirect as Icmpv4Redirect, Repr as Icmpv4Repr,
        TimeExceeded as Icmpv4TimeExceeded,
    };
    pub use crate::icmpv6::{
        DstUnreachable as Icmpv6DstUnreachable, Message as Icmpv6Message, Packet as Icmpv6Packet,
        ParamProblem as Icmpv6ParamProblem, Repr as Icmpv6Repr, TimeExceeded as Icmpv6TimeExceeded,
    };
    pub use crate::igmp::{IgmpVersion, Packet as IgmpPacket, Repr as IgmpRepr};
    pub use crate::ipv6ext_header::{Header as Ipv6ExtHeader, Repr as Ipv6ExtHeaderRepr};
    pub use crate::ipv6hbh::{Header as Ipv6HopByHopHeader, Repr as Ipv6HopByHopRepr};
    pub use crate::ipv6option::{
        FailureType as Ipv6OptionFailureType, Ipv6Option, Ipv6OptionsIterator,
        Repr as Ipv6OptionRepr, RouterAlert as Ipv6OptionRouterAlert, Type as Ipv6OptionType,
    };
    pub use crate::mld::{
        AddressRecord as MldAddressRecord, AddressRecordRepr as MldAddressRecordRepr,
        RecordType as MldRecordType, Repr as MldRepr,
    };
    pub use crate::ndisc::{
        NeighborFlags as NdiscNeighborFlags, Repr as NdiscRepr, RouterFlags as NdiscRouterFlags,
    };
    pub use crate::ndiscoption::{
        NdiscOption, PrefixInfoFlags as NdiscPrefixInfoFlags,
        PrefixInformation as NdiscPrefixInformation, RedirectedHeader as NdiscRedirectedHeader,
        Repr as NdiscOptionRepr, Type as NdiscOptionType,
    };
    pub use crate::{
        Error, EthernetAddress, Hardware as ArpHardware, IPV6_HEADER_LEN,
        IPV6_LINK_LOCAL_ALL_NODES, IPV6_LINK_LOCAL_ALL_ROUTERS, IPV6_MIN_MTU, IpProtocol,
        Ipv4Address, Ipv4Packet, Ipv4Repr, Ipv6Address, Ipv6Packet, Ipv6Repr,
        MAX_HARDWARE_ADDRESS_LEN, RawHardwareAddress, Result,
    };
}

/// What `smoltcp::phy` has of checksums.
pub mod phy {
    pub use crate::{Checksum, ChecksumCapabilities};
}

/// What `smoltcp::time` has of spans of time.
pub mod time {
    pub use crate::Duration;
}
