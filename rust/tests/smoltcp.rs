//! The names that the items have in smoltcp 0.14: each is there, and is the type of its module.

use control_wire::smoltcp;
use std::any::TypeId;

macro_rules! same {
    ($($long:ty, $short:ty;)+) => { $(
        assert_eq!(TypeId::of::<$long>(), TypeId::of::<$short>(), stringify!($long));
    )+ };
}

type Bytes = &'static [u8];

#[test]
fn values_and_parts() {
    use control_wire::*;
    use smoltcp::wire;
    same! {
        wire::Icmpv4Repr<'static>, icmpv4::Repr<'static>;
        wire::Icmpv6Repr<'static>, icmpv6::Repr<'static>;
        wire::IcmpRepr<'static>, icmp::Repr<'static>;
        wire::IgmpRepr, igmp::Repr;
        wire::MldRepr<'static>, mld::Repr<'static>;
        wire::MldAddressRecordRepr<'static>, mld::AddressRecordRepr<'static>;
        wire::NdiscRepr<'static>, ndisc::Repr<'static>;
        wire::NdiscOptionRepr<'static>, ndiscoption::Repr<'static>;
        wire::NdiscPrefixInformation, ndiscoption::PrefixInformation;
        wire::NdiscRedirectedHeader<'static>, ndiscoption::RedirectedHeader<'static>;
        wire::Ipv6OptionRepr<'static>, ipv6option::Repr<'static>;
        wire::Ipv6OptionsIterator<'static>, ipv6option::Ipv6OptionsIterator<'static>;
        wire::Ipv6HopByHopRepr<'static>, ipv6hbh::Repr<'static>;
        wire::Ipv6ExtHeaderRepr<'static>, ipv6ext_header::Repr<'static>;
        wire::DhcpRepr<'static>, dhcpv4::Repr<'static>;
        wire::DhcpOption<'static>, dhcpv4::DhcpOption<'static>;
        wire::DhcpOptionWriter<'static>, dhcpv4::DhcpOptionWriter<'static>;
        wire::DnsRepr<'static>, dns::Repr<'static>;
        wire::DnsQuestion<'static>, dns::Question<'static>;
        wire::DnsRecord<'static>, dns::Record<'static>;
        wire::DnsRecordData<'static>, dns::RecordData<'static>;
        wire::Ipv4Repr, Ipv4Repr;
        wire::Ipv6Repr, Ipv6Repr;
        wire::Error, Error;
        wire::Result<u8>, Result<u8>;
    }
}

#[test]
fn views() {
    use control_wire::*;
    use smoltcp::wire;
    same! {
        wire::Icmpv4Packet<Bytes>, icmpv4::Packet<Bytes>;
        wire::Icmpv6Packet<Bytes>, icmpv6::Packet<Bytes>;
        wire::IgmpPacket<Bytes>, igmp::Packet<Bytes>;
        wire::MldAddressRecord<Bytes>, mld::AddressRecord<Bytes>;
        wire::NdiscOption<Bytes>, ndiscoption::NdiscOption<Bytes>;
        wire::Ipv6Option<Bytes>, ipv6option::Ipv6Option<Bytes>;
        wire::Ipv6HopByHopHeader<Bytes>, ipv6hbh::Header<Bytes>;
        wire::Ipv6ExtHeader<Bytes>, ipv6ext_header::Header<Bytes>;
        wire::DhcpPacket<Bytes>, dhcpv4::Packet<Bytes>;
        wire::DnsPacket<Bytes>, dns::Packet<Bytes>;
        wire::Ipv4Packet<Bytes>, Ipv4Packet<Bytes>;
        wire::Ipv6Packet<Bytes>, Ipv6Packet<Bytes>;
    }
}

#[test]
fn numbers_flags_and_addresses() {
    use control_wire::*;
    use smoltcp::{phy, time, wire};
    same! {
        wire::Icmpv4Message, icmpv4::Message;
        wire::Icmpv4DstUnreachable, icmpv4::DstUnreachable;
        wire::Icmpv4Redirect, icmpv4::Redirect;
        wire::Icmpv4TimeExceeded, icmpv4::TimeExceeded;
        wire::Icmpv4ParamProblem, icmpv4::ParamProblem;
        wire::Icmpv6Message, icmpv6::Message;
        wire::Icmpv6DstUnreachable, icmpv6::DstUnreachable;
        wire::Icmpv6TimeExceeded, icmpv6::TimeExceeded;
        wire::Icmpv6ParamProblem, icmpv6::ParamProblem;
        wire::IgmpVersion, igmp::IgmpVersion;
        wire::MldRecordType, mld::RecordType;
        wire::NdiscRouterFlags, ndisc::RouterFlags;
        wire::NdiscNeighborFlags, ndisc::NeighborFlags;
        wire::NdiscPrefixInfoFlags, ndiscoption::PrefixInfoFlags;
        wire::NdiscOptionType, ndiscoption::Type;
        wire::Ipv6OptionType, ipv6option::Type;
        wire::Ipv6OptionRouterAlert, ipv6option::RouterAlert;
        wire::Ipv6OptionFailureType, ipv6option::FailureType;
        wire::DhcpFlags, dhcpv4::Flags;
        wire::DhcpMessageType, dhcpv4::MessageType;
        wire::DhcpOpCode, dhcpv4::OpCode;
        wire::DnsFlags, dns::Flags;
        wire::DnsOpcode, dns::Opcode;
        wire::DnsRcode, dns::Rcode;
        wire::DnsQueryType, dns::Type;
        wire::ArpHardware, Hardware;
        wire::IpProtocol, IpProtocol;
        wire::EthernetAddress, EthernetAddress;
        wire::RawHardwareAddress, RawHardwareAddress;
        wire::Ipv4Address, Ipv4Address;
        wire::Ipv6Address, Ipv6Address;
        phy::Checksum, Checksum;
        phy::ChecksumCapabilities, ChecksumCapabilities;
        time::Duration, Duration;
    }
}

#[test]
fn constants() {
    use smoltcp::wire::*;
    assert_eq!([DHCP_SERVER_PORT, DHCP_CLIENT_PORT], [67, 68]);
    assert_eq!([IPV6_HEADER_LEN, IPV6_MIN_MTU], [40, 1280]);
    assert_eq!(
        [DHCP_MAX_DNS_SERVER_COUNT, MAX_HARDWARE_ADDRESS_LEN],
        [5, 8]
    );
    assert_eq!(IPV6_LINK_LOCAL_ALL_NODES.to_string(), "ff02::1");
    assert_eq!(IPV6_LINK_LOCAL_ALL_ROUTERS.to_string(), "ff02::2");
}

// These calls are const there, so a program may have them in its constants.
#[test]
fn views_and_lengths_are_constants() {
    use smoltcp::wire::*;
    macro_rules! views {
        ($($view:ident),+ $(,)?) => { $( {
            const VIEW: $view<Bytes> = $view::new_unchecked(&[1, 2, 3]);
            assert_eq!(VIEW.into_inner(), [1, 2, 3], stringify!($view));
        } )+ };
    }
    views! {
        Icmpv4Packet, Icmpv6Packet, IgmpPacket, MldAddressRecord, NdiscOption, Ipv6Option, Ipv6HopByHopHeader,
        Ipv6ExtHeader, DhcpPacket, DnsPacket, Ipv4Packet, Ipv6Packet,
    }
    const fn lens(v4: &Ipv4Repr, v6: &Ipv6Repr) -> [usize; 2] {
        [v4.buffer_len(), v6.buffer_len()]
    }
    let v4 = Ipv4Repr {
        src_addr: Ipv4Address::UNSPECIFIED,
        dst_addr: Ipv4Address::UNSPECIFIED,
        next_header: IpProtocol::Icmp,
        payload_len: 0,
        hop_limit: 64,
    };
    let v6 = Ipv6Repr {
        src_addr: Ipv6Address::UNSPECIFIED,
        dst_addr: Ipv6Address::UNSPECIFIED,
        next_header: IpProtocol::Icmpv6,
        payload_len: 0,
        hop_limit: 64,
    };
    assert_eq!(lens(&v4, &v6), [20, 40]);
}
