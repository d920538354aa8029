//! The octets of a packet, for whoever asks for `AsRef<[u8]>`.

use crate::wirebase::octets::Octets;
use crate::{Ipv6Packet, icmpv4, icmpv6};

impl<T: Octets> AsRef<[u8]> for icmpv4::Packet<T> {
    fn as_ref(&self) -> &[u8] {
        icmpv4::Packet::as_ref(self)
    }
}

impl<T: Octets> AsRef<[u8]> for icmpv6::Packet<T> {
    fn as_ref(&self) -> &[u8] {
        icmpv6::Packet::as_ref(self)
    }
}

impl<T: Octets> AsRef<[u8]> for Ipv6Packet<T> {
    fn as_ref(&self) -> &[u8] {
        Ipv6Packet::as_ref(self)
    }
}
