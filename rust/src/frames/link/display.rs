// Made from crates/frame_wire/src/link/display.rt by rust/erase.
//! What links, frames and their refusals print.

use super::{Frame, Link, Network, Refusal};
use core::fmt;

/// The name of the link type in the registry of pcap and pcapng, without `LINKTYPE_`.
impl fmt::Display for Link {
    fn fmt(&self, f: &mut fmt::Formatter<'_>) -> fmt::Result {
        match self {
            Link::Null => write!(f, "NULL"),
            Link::Ethernet => write!(f, "ETHERNET"),
            Link::Ppp => write!(f, "PPP"),
            Link::PppEther => write!(f, "PPP_ETHER"),
            Link::Raw => write!(f, "RAW"),
            Link::LinuxSll => write!(f, "LINUX_SLL"),
            Link::LinuxSll2 => write!(f, "LINUX_SLL2"),
            Link::CHdlc => write!(f, "C_HDLC"),
            Link::FrameRelay => write!(f, "FRELAY"),
            Link::Ipnet => write!(f, "IPNET"),
            Link::Nflog => write!(f, "NFLOG"),
            Link::Ipoib => write!(f, "IPOIB"),
        }
    }
}

/// The name of the network, or its number on the link.
impl fmt::Display for Network {
    fn fmt(&self, f: &mut fmt::Formatter<'_>) -> fmt::Result {
        match self {
            Network::Ipv4 => write!(f, "IPv4"),
            Network::Ipv6 => write!(f, "IPv6"),
            Network::Other(number) => write!(f, "{number}"),
        }
    }
}

/// The network, the number of VLAN tags, and the number of bytes of the payload.
impl fmt::Display for Frame<'_> {
    fn fmt(&self, f: &mut fmt::Formatter<'_>) -> fmt::Result {
        let network = self.network;
        let vlans = self.vlans();
        let len = self.payload.len();
        write!(f, "{network} vlans={vlans} len={len}")
    }
}

/// The reason, as a phrase.
impl fmt::Display for Refusal {
    fn fmt(&self, f: &mut fmt::Formatter<'_>) -> fmt::Result {
        match self {
            Refusal::Short => write!(f, "fewer bytes than the header of the link has"),
            Refusal::Tag => write!(f, "a VLAN tag is cut short"),
            Refusal::Protocol => write!(f, "the PPP protocol is cut short"),
            Refusal::SessionVersion(version) => write!(f, "PPPoE version {version} is not read"),
            Refusal::SessionType(number) => write!(f, "PPPoE type {number} is not read"),
            Refusal::SessionCode(code) => write!(f, "PPPoE code {code} is not read"),
            Refusal::FrameRelayAddress => {
                write!(f, "the frame relay address has the wrong length")
            }
            Refusal::FrameRelayControl(control) => {
                write!(f, "frame relay control {control} is not read")
            }
            Refusal::NflogVersion(version) => write!(f, "NFLOG version {version} is not read"),
            Refusal::NflogLen(len) => write!(f, "NFLOG attribute length {len} is below 4"),
        }
    }
}
