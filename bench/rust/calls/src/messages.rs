//! Messages as a network has them: the values that the cases of ICMP write, and the octets that they read.

use crate::random::{Random, many};
use control_wire::icmpv6::{self, Repr as Icmpv6};
use control_wire::mld::{self, AddressRecordRepr, RecordType};
use control_wire::ndisc::{self, NeighborFlags, RouterFlags};
use control_wire::ndiscoption::{PrefixInfoFlags, PrefixInformation, RedirectedHeader};
use control_wire::{ChecksumCapabilities, Duration, IpProtocol, Ipv4Repr, Ipv6Address, Ipv6Repr};

/// A message of ICMPv6, and where it comes from and goes to.
#[derive(Debug, Clone, Copy)]
pub struct Sent<'a> {
    /// Its source.
    pub source: Ipv6Address,
    /// Its destination.
    pub destination: Ipv6Address,
    /// What it says.
    pub message: Icmpv6<'a>,
}

/// The octets of a message of ICMPv6, and where it comes from and goes to.
pub struct Got {
    /// Its source.
    pub source: Ipv6Address,
    /// Its destination.
    pub destination: Ipv6Address,
    /// Its octets.
    pub octets: Vec<u8>,
}

/// The octets of a message of ICMPv6.
pub fn write(sent: &Sent<'_>) -> Got {
    let mut octets = vec![0; sent.message.packet_len()];
    let (source, destination) = (sent.source, sent.destination);
    let caps = ChecksumCapabilities::default();
    sent.message
        .emit_into(&source, &destination, &mut octets, &caps);
    Got {
        source,
        destination,
        octets,
    }
}

/// Some messages of ICMPv6.
pub fn sent(seed: u64, make: impl Fn(&mut Random, usize) -> Icmpv6<'static>) -> Vec<Sent<'static>> {
    many(seed, |random, place| Sent {
        source: random.ipv6(),
        destination: random.ipv6(),
        message: make(random, place),
    })
}

/// A protocol above IP.
pub fn protocol(random: &mut Random) -> IpProtocol {
    IpProtocol::from([1, 2, 6, 17, 58, 99][random.below(6) as usize])
}

/// A header of IPv4.
pub fn ipv4_header(random: &mut Random, payload_len: usize) -> Ipv4Repr {
    Ipv4Repr {
        src_addr: random.ipv4(),
        dst_addr: random.ipv4(),
        next_header: protocol(random),
        payload_len,
        hop_limit: random.octet(),
    }
}

/// A header of IPv6.
pub fn ipv6_header(random: &mut Random, payload_len: usize) -> Ipv6Repr {
    Ipv6Repr {
        src_addr: random.ipv6(),
        dst_addr: random.ipv6(),
        next_header: protocol(random),
        payload_len,
        hop_limit: random.octet(),
    }
}

/// An echo request of ICMPv6 with 56 octets, or its reply.
pub fn echo(random: &mut Random, place: usize) -> Icmpv6<'static> {
    let (ident, seq_no, data) = (random.u16(), random.u16(), random.leaked(56));
    if place % 2 == 0 {
        Icmpv6::EchoRequest {
            ident,
            seq_no,
            data,
        }
    } else {
        Icmpv6::EchoReply {
            ident,
            seq_no,
            data,
        }
    }
}

/// An error of ICMPv6 of each kind by turns, which quotes 32 octets behind the header.
pub fn error(random: &mut Random, place: usize) -> Icmpv6<'static> {
    let data = random.leaked(32);
    let header = ipv6_header(random, data.len());
    match place % 4 {
        0 => Icmpv6::DstUnreachable {
            reason: icmpv6::DstUnreachable::from(random.octet() % 9),
            header,
            data,
        },
        1 => Icmpv6::PktTooBig {
            mtu: random.u32(),
            header,
            data,
        },
        2 => Icmpv6::TimeExceeded {
            reason: icmpv6::TimeExceeded::from(random.octet() % 3),
            header,
            data,
        },
        _ => Icmpv6::ParamProblem {
            reason: icmpv6::ParamProblem::from(random.octet() % 5),
            pointer: random.u32(),
            header,
            data,
        },
    }
}

/// A solicitation of the routers.
pub fn router_solicit(random: &mut Random, _: usize) -> Icmpv6<'static> {
    let lladdr = Some(random.link_address());
    Icmpv6::Ndisc(ndisc::Repr::RouterSolicit { lladdr })
}

/// Some seconds, or another duration of whole milliseconds.
fn seconds(random: &mut Random) -> Duration {
    Duration::from_secs(random.below(65_536))
}

/// A prefix of a link.
pub fn prefix(random: &mut Random) -> PrefixInformation {
    PrefixInformation {
        prefix_len: random.octet() % 129,
        flags: PrefixInfoFlags::from_bits_truncate(random.octet()),
        valid_lifetime: seconds(random),
        preferred_lifetime: seconds(random),
        prefix: random.ipv6(),
    }
}

/// The advertisement of a router with its address, the greatest packet and a prefix.
pub fn router_advert(random: &mut Random, _: usize) -> Icmpv6<'static> {
    Icmpv6::Ndisc(ndisc::Repr::RouterAdvert {
        hop_limit: random.octet(),
        flags: RouterFlags::from_bits_truncate(random.octet()),
        router_lifetime: seconds(random),
        reachable_time: Duration::from_millis(random.below(3_600_000)),
        retrans_time: Duration::from_millis(random.below(60_000)),
        lladdr: Some(random.link_address()),
        mtu: Some(random.u32()),
        prefix_info: Some(prefix(random)),
    })
}

/// A solicitation of a neighbor.
pub fn neighbor_solicit(random: &mut Random, _: usize) -> Icmpv6<'static> {
    Icmpv6::Ndisc(ndisc::Repr::NeighborSolicit {
        target_addr: random.ipv6(),
        lladdr: Some(random.link_address()),
    })
}

/// The advertisement of a neighbor.
pub fn neighbor_advert(random: &mut Random, _: usize) -> Icmpv6<'static> {
    Icmpv6::Ndisc(ndisc::Repr::NeighborAdvert {
        flags: NeighborFlags::from_bits_truncate(random.octet()),
        target_addr: random.ipv6(),
        lladdr: Some(random.link_address()),
    })
}

/// The header and the octets of a packet that a redirect answers.
pub fn redirected(random: &mut Random) -> RedirectedHeader<'static> {
    let data = random.leaked(56);
    RedirectedHeader {
        header: ipv6_header(random, data.len()),
        data,
    }
}

/// A redirect.
pub fn redirect(random: &mut Random, _: usize) -> Icmpv6<'static> {
    Icmpv6::Ndisc(ndisc::Repr::Redirect {
        target_addr: random.ipv6(),
        dest_addr: random.ipv6(),
        lladdr: Some(random.link_address()),
        redirected_hdr: Some(redirected(random)),
    })
}

/// A query of multicast listeners, of up to three sources.
pub fn query(random: &mut Random, place: usize) -> Icmpv6<'static> {
    let sources = place % 4;
    Icmpv6::Mld(mld::Repr::Query {
        max_resp_code: random.u16(),
        mcast_addr: random.group(),
        s_flag: random.is_even(),
        qrv: random.octet() % 8,
        qqic: random.octet(),
        num_srcs: sources as u16,
        data: random.leaked(16 * sources),
    })
}

/// Records of groups, of which every other one has two sources.
pub fn records(random: &mut Random, count: usize) -> Vec<AddressRecordRepr<'static>> {
    (0..count)
        .map(|place| {
            let kind = RecordType::from(1 + random.octet() % 6);
            let mut record = AddressRecordRepr::new(kind, random.group());
            if place % 2 == 1 {
                record.num_srcs = 2;
                record.payload = random.leaked(32);
            }
            record
        })
        .collect()
}

/// The octets of records.
pub fn octets_of(records: &[AddressRecordRepr<'_>]) -> Vec<u8> {
    let mut octets = Vec::new();
    for record in records {
        let start = octets.len();
        octets.resize(start + record.buffer_len(), 0);
        record.emit_into(&mut octets[start..]);
        octets.extend_from_slice(record.payload);
    }
    octets
}

/// A report of listeners, of four records by their octets.
pub fn report(random: &mut Random, _: usize) -> Icmpv6<'static> {
    let records = records(random, 4);
    Icmpv6::Mld(mld::Repr::Report {
        nr_mcast_addr_rcrds: 4,
        data: octets_of(&records).leak(),
    })
}

/// A report of listeners, of four records without sources.
pub fn report_of_records(random: &mut Random, _: usize) -> Icmpv6<'static> {
    let records: Vec<AddressRecordRepr<'_>> = (0..4)
        .map(|_| {
            let kind = RecordType::from(1 + random.octet() % 6);
            AddressRecordRepr::new(kind, random.group())
        })
        .collect();
    Icmpv6::Mld(mld::Repr::ReportRecordReprs(records.leak()))
}
