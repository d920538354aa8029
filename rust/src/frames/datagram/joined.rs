// Made from crates/frame_wire/src/datagram/joined.rt by rust/erase.
//! Datagrams that were put together from fragments.

use super::headers::{is_fragment, pass_headers};
use super::{Addresses, Datagram, Refusal, told_of_fragment};
use crate::wirebase::{IpProtocol, Ipv6Address};

impl<'a> Datagram<'a> {
    /// The datagram whose payload was put together from fragments, by the addresses that these have and the protocol
    /// that the one at offset 0 names. In IPv6 the payload begins with the headers that extend it: they are passed as
    /// [`Datagram::parse_v6`] passes them, and refused where one is cut (`Extension`) or where they lead to a fragment
    /// again (`Fragment`). The hop limit is 0, since fragments may differ in it. There are no hop-by-hop options, since
    /// their header is in front of each fragment (RFC 8200 section 4.5).
    ///
    /// ```
    /// use control_wire::frames::{Addresses, Datagram};
    /// use control_wire::{IpProtocol, Ipv6Address};
    ///
    /// // A header of destination options, before two bytes of UDP.
    /// let payload = [17, 0, 1, 4, 0, 0, 0, 0, 0, 53];
    /// let any = Ipv6Address::UNSPECIFIED;
    /// let datagram = Datagram::joined(Addresses::V6(any, any), IpProtocol::Ipv6Opts, &payload).unwrap();
    /// assert_eq!(datagram.protocol, IpProtocol::Udp);
    /// assert_eq!(datagram.payload, [0, 53]);
    /// ```
    pub fn joined(
        addresses: Addresses,
        protocol: IpProtocol,
        payload: &'a [u8],
    ) -> Result<Datagram<'a>, Refusal> {
        match addresses {
            Addresses::V4(_, _) => Ok(Datagram {
                addresses,
                protocol,
                hop_limit: 0,
                hop_by_hop: None,
                payload,
            }),
            Addresses::V6(src_addr, dst_addr) => joined_v6(src_addr, dst_addr, protocol, payload),
        }
    }
}

// The datagram of IPv6 whose payload begins with the headers that extend it.
fn joined_v6<'a>(
    src_addr: Ipv6Address,
    dst_addr: Ipv6Address,
    protocol: IpProtocol,
    payload: &'a [u8],
) -> Result<Datagram<'a>, Refusal> {
    let upper = match pass_headers(protocol, payload, dst_addr) {
        Ok(upper) => upper,
        Err(protocol) => return Err(Refusal::Extension(protocol)),
    };
    if is_fragment(upper.protocol) {
        return Err(told_of_fragment(src_addr, upper.dst_addr, upper.payload));
    }
    Ok(Datagram {
        addresses: Addresses::V6(src_addr, upper.dst_addr),
        protocol: upper.protocol,
        hop_limit: 0,
        hop_by_hop: None,
        payload: upper.payload,
    })
}
