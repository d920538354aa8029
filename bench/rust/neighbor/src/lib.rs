//! A host of IPv6 as a firmware has it: it answers who looks for its address, reads what its router advertises, and
//! reports its multicast group where it is asked for groups.
#![no_std]

use control_wire::icmpv6::{Packet, Repr};
use control_wire::mld::{self, AddressRecordRepr, RecordType};
use control_wire::ndisc::{self, NeighborFlags};
use control_wire::{ChecksumCapabilities, EthernetAddress, Ipv6Address};

// The routers that listen to reports (RFC 3810 section 5.2.14).
const REPORTS: Ipv6Address = Ipv6Address::new(0xff02, 0, 0, 0, 0, 0, 0, 0x16);

/// The host: its address, its address on the link, and the group that it listens to.
pub struct Host {
    /// Its address.
    pub address: Ipv6Address,
    /// Its address on the link.
    pub link: EthernetAddress,
    /// The group that it listens to.
    pub group: Ipv6Address,
}

/// What a router advertises.
pub struct Router {
    /// Its prefix, and how many bits of it count.
    pub prefix: Ipv6Address,
    /// These bits.
    pub prefix_len: u8,
    /// The greatest packet of the link.
    pub mtu: u32,
    /// How long it is a router, in seconds.
    pub seconds: u64,
}

// Writes a message over the front of `out`, and says how many bytes it takes: 0 where it has no room.
fn write(host: &Host, destination: &Ipv6Address, message: &Repr<'_>, out: &mut [u8]) -> usize {
    let len = message.packet_len();
    let Some(out) = out.get_mut(..len) else {
        return 0;
    };
    message.emit_into(
        &host.address,
        destination,
        out,
        &ChecksumCapabilities::default(),
    );
    len
}

/// Reads a message, writes its answer, and says how many bytes that takes: 0 where there is none.
#[unsafe(no_mangle)]
pub fn answer(
    host: &Host,
    source: &Ipv6Address,
    destination: &Ipv6Address,
    octets: &[u8],
    router: &mut Router,
    out: &mut [u8],
) -> usize {
    let packet = Packet::new_unchecked(octets);
    let caps = ChecksumCapabilities::default();
    match Repr::parse(source, destination, &packet, &caps) {
        Ok(Repr::Ndisc(ndisc::Repr::NeighborSolicit { target_addr, .. }))
            if target_addr == host.address =>
        {
            let answer = ndisc::Repr::NeighborAdvert {
                flags: NeighborFlags::SOLICITED | NeighborFlags::OVERRIDE,
                target_addr,
                lladdr: Some(host.link.into()),
            };
            write(host, source, &Repr::Ndisc(answer), out)
        }
        Ok(Repr::Ndisc(ndisc::Repr::RouterAdvert {
            router_lifetime,
            mtu,
            prefix_info: Some(prefix),
            ..
        })) => {
            *router = Router {
                prefix: prefix.prefix,
                prefix_len: prefix.prefix_len,
                mtu: mtu.unwrap_or(1_500),
                seconds: router_lifetime.secs(),
            };
            0
        }
        Ok(Repr::Mld(mld::Repr::Query { .. })) => report(host, out),
        _ => 0,
    }
}

// Writes the report of the host's group.
fn report(host: &Host, out: &mut [u8]) -> usize {
    let records = [AddressRecordRepr::new(
        RecordType::ModeIsExclude,
        host.group,
    )];
    let report = mld::Repr::ReportRecordReprs(&records);
    write(host, &REPORTS, &Repr::Mld(report), out)
}

unsafe extern "C" {
    safe fn halt() -> !;
}

#[panic_handler]
fn panic(_: &core::panic::PanicInfo<'_>) -> ! {
    halt()
}
