// Made from crates/workloads/src/hosts.rt by rust/erase.
//! Hosts and routers of a link speak with their neighbors: solicitations and advertisements, reports of multicast
//! groups of both families, and the hop-by-hop header before reports.

use crate::digest::Digest;
use crate::digest::groups::{add_address_record, add_igmp};
use crate::digest::icmp::add_icmpv6;
use crate::digest::options::add_hop_by_hop;
use crate::random::{Pool, Random};
use control_wire::ipv6option::{self, RouterAlert};
use control_wire::mld::{self, AddressRecord, AddressRecordRepr, RecordType};
use control_wire::ndisc::{self, NeighborFlags, RouterFlags};
use control_wire::ndiscoption::{PrefixInfoFlags, PrefixInformation};
use control_wire::{
    ChecksumCapabilities, Duration, EthernetAddress, IPV6_HBH_MAX_OPTIONS,
    IPV6_LINK_LOCAL_ALL_NODES, Ipv4Address, Ipv6Address, RawHardwareAddress, icmpv6, igmp, ipv6hbh,
};
use rattle_std::io;

// The bytes of a packet of the link.
const PACKET_LEN: usize = 1_500;

// The most records of a report, and the bytes of one without sources.
const MOST_RECORDS: usize = 60;

const RECORD_LEN: usize = 20;

// The bytes of a source.
const SOURCE_LEN: usize = 16;

// Types of option that are neither padding nor an alert, of the registry of IANA: of RPL, a limit of encapsulations,
// a label of security, a request of rate, a trace, MPL, a long packet and a home address.
const OTHER_OPTIONS: [u8; 8] = [0x63, 0x04, 0x07, 0x26, 0x31, 0x6d, 0xc2, 0xc9];

/// Exchanges messages, in each round others, and returns a digest of what was read and written.
pub fn digest(seed: u64, rounds: u32) -> io::Result<u64> {
    let mut random = Random::new(seed);
    let pool = Pool::new(&mut random)?;
    let mut digest = Digest::new();
    let mut packet = [0; PACKET_LEN];
    for round in 0..rounds {
        solicit(&mut random, &mut packet, &mut digest);
        advertise_router(&mut random, &mut packet, &mut digest);
        query(&mut random, &pool, &mut packet, &mut digest);
        match round % 4 {
            0 => report(&mut random, &mut packet, &mut digest),
            1 => join(&mut random, &mut packet, &mut digest),
            _ => report_sources(&mut random, &pool, &mut packet, &mut digest),
        }
        ask_members(&mut random, &mut packet, &mut digest);
        lead(&mut random, &pool, &mut packet, &mut digest);
    }
    Ok(digest.value())
}

// The lower 16 bits of a number.
fn low(number: u64) -> u16 {
    (number % 65_536) as u16
}

// The lower 8 bits of a number.
fn lowest(number: u64) -> u8 {
    (number % 256) as u8
}

// A link-local address that the number determines.
fn host(number: u64) -> Ipv6Address {
    Ipv6Address::new(
        0xfe80,
        0,
        0,
        0,
        0x5054,
        low(number >> 16),
        low(number >> 32),
        low(number),
    )
}

// A multicast group of the link that the number determines.
fn group(number: u64) -> Ipv6Address {
    Ipv6Address::new(0xff02, 0, 0, 0, 0, 1, low(number >> 16), low(number))
}

// An address on an Ethernet that the number determines.
fn link_address(number: u64) -> RawHardwareAddress {
    let address = EthernetAddress([
        0x52,
        0x54,
        0,
        lowest(number),
        lowest(number >> 8),
        lowest(number >> 16),
    ]);
    RawHardwareAddress::from(address)
}

// Sends a solicitation of a neighbor, and the advertisement that answers it.
fn solicit(random: &mut Random, packet: &mut [u8], digest: &mut Digest) {
    let number = random.next();
    let own = host(number);
    let target = host(number.rotate_left(17));
    let message = ndisc::Repr::NeighborSolicit {
        target_addr: target,
        lladdr: Some(link_address(number)),
    };
    exchange(&message, &own, &target, packet, digest);
    let message = ndisc::Repr::NeighborAdvert {
        flags: NeighborFlags::from_bits_truncate(lowest(number >> 40)),
        target_addr: target,
        lladdr: Some(link_address(number >> 24)),
    };
    exchange(&message, &target, &own, packet, digest);
}

// The greatest packet of the link, in every other advertisement.
fn mtu(number: u64) -> Option<u32> {
    if number % 2 == 0 {
        Some(1_280 + low(number >> 16) as u32)
    } else {
        None
    }
}

// Sends the advertisement of a router.
fn advertise_router(random: &mut Random, packet: &mut [u8], digest: &mut Digest) {
    let number = random.next();
    let prefix = PrefixInformation {
        prefix_len: 48 + lowest(number >> 24) % 17,
        flags: PrefixInfoFlags::from_bits_truncate(lowest(number >> 32)),
        valid_lifetime: Duration::from_secs(number % 2_592_000),
        preferred_lifetime: Duration::from_secs(number % 604_800),
        prefix: Ipv6Address::new(0x2001, 0xdb8, low(number), low(number >> 16), 0, 0, 0, 0),
    };
    let message = ndisc::Repr::RouterAdvert {
        hop_limit: lowest(number >> 40),
        flags: RouterFlags::from_bits_truncate(lowest(number >> 48)),
        router_lifetime: Duration::from_secs(number % 9_000),
        reachable_time: Duration::from_millis(number % 3_600_000),
        retrans_time: Duration::from_millis(number % 1_000),
        lladdr: Some(link_address(number)),
        mtu: mtu(number),
        prefix_info: if number % 8 == 0 { None } else { Some(prefix) },
    };
    exchange(
        &message,
        &host(number),
        &IPV6_LINK_LOCAL_ALL_NODES,
        packet,
        digest,
    );
}

// Writes a message, and reads it.
fn exchange(
    message: &ndisc::Repr<'_>,
    source: &Ipv6Address,
    destination: &Ipv6Address,
    packet: &mut [u8],
    digest: &mut Digest,
) {
    let caps = ChecksumCapabilities::default();
    let message = icmpv6::Repr::Ndisc(*message);
    let len = message.buffer_len();
    if len > packet.len() {
        return;
    }
    message.emit_into(source, destination, &mut packet[..len], &caps);
    let view = icmpv6::Packet::new_unchecked(&packet[..len]);
    match icmpv6::Repr::parse(source, destination, &view, &caps) {
        Ok(message) => {
            digest.add(view.checksum() as u64);
            add_icmpv6(&message, digest);
        }
        Err(_) => digest.add(1),
    }
}

// Writes a message of multicast listener discovery with its checksum, and reads it.
fn exchange_listener(
    message: &mld::Repr<'_>,
    source: &Ipv6Address,
    packet: &mut [u8],
    digest: &mut Digest,
) {
    let caps = ChecksumCapabilities::default();
    let message = icmpv6::Repr::Mld(*message);
    let len = message.packet_len();
    if len > packet.len() {
        return;
    }
    message.emit_into(
        source,
        &IPV6_LINK_LOCAL_ALL_NODES,
        &mut packet[..len],
        &caps,
    );
    let view = icmpv6::Packet::new_unchecked(&packet[..len]);
    match icmpv6::Repr::parse(source, &IPV6_LINK_LOCAL_ALL_NODES, &view, &caps) {
        Ok(message) => {
            digest.add(view.checksum() as u64);
            add_icmpv6(&message, digest);
            if let icmpv6::Repr::Mld(mld::Repr::Report { data, .. }) = message {
                read_records(data, digest);
            }
        }
        Err(_) => digest.add(1),
    }
}

// Reads the records of a report, each with the sources that it counts.
fn read_records(records: &[u8], digest: &mut Digest) {
    let mut rest = records;
    while rest.len() >= RECORD_LEN {
        let Ok(record) = AddressRecordRepr::parse(&AddressRecord::new_unchecked(rest)) else {
            return;
        };
        add_address_record(&record, digest);
        let len = RECORD_LEN + SOURCE_LEN * record.num_srcs as usize;
        rest = &rest[len.min(rest.len())..];
    }
}

// Sends a query for a group and some of its sources.
fn query(random: &mut Random, pool: &Pool, packet: &mut [u8], digest: &mut Digest) {
    let number = random.next();
    let sources = number % 8;
    let message = mld::Repr::Query {
        max_resp_code: low(number),
        mcast_addr: group(number),
        s_flag: number % 2 == 0,
        qrv: lowest(number >> 48) % 8,
        qqic: lowest(number >> 40),
        num_srcs: sources as u16,
        data: pool.part(number >> 16, SOURCE_LEN * sources as usize),
    };
    exchange_listener(&message, &host(number), packet, digest);
}

// Sends a report of the groups that a host listens to.
fn report(random: &mut Random, packet: &mut [u8], digest: &mut Digest) {
    let number = random.next();
    let mut records = [0; RECORD_LEN * MOST_RECORDS];
    let count = 1 + (number % MOST_RECORDS as u64) as usize;
    for place in 0..count {
        let start = RECORD_LEN * place;
        let group_addr = group(number.wrapping_mul(2 * place as u64 + 1));
        write_record(group_addr, &mut records[start..start + RECORD_LEN]);
    }
    let message = mld::Repr::Report {
        nr_mcast_addr_rcrds: count as u16,
        data: &records[..RECORD_LEN * count],
    };
    exchange_listener(&message, &host(number), packet, digest);
}

// Writes the record of a group.
fn write_record(group_addr: Ipv6Address, octets: &mut [u8]) {
    if group_addr.is_multicast() {
        AddressRecordRepr::new(RecordType::ModeIsExclude, group_addr).emit_into(octets);
    }
}

// Sends a report that a host joins a group.
fn join(random: &mut Random, packet: &mut [u8], digest: &mut Digest) {
    let number = random.next();
    let group_addr = group(number);
    if group_addr.is_multicast() {
        let records = [AddressRecordRepr::new(
            RecordType::ChangeToExclude,
            group_addr,
        )];
        let message = mld::Repr::ReportRecordReprs(&records);
        exchange_listener(&message, &host(number), packet, digest);
    }
}

// Sends a report of one group and the sources from which a host listens.
fn report_sources(random: &mut Random, pool: &Pool, packet: &mut [u8], digest: &mut Digest) {
    let number = random.next();
    let message = mld::Repr::Report {
        nr_mcast_addr_rcrds: 1,
        data: pool.part(number, RECORD_LEN + SOURCE_LEN * (number % 4) as usize),
    };
    exchange_listener(&message, &host(number), packet, digest);
}

// Sends a query of IGMP, and a report or a message that a host leaves.
fn ask_members(random: &mut Random, packet: &mut [u8], digest: &mut Digest) {
    let number = random.next();
    let group_addr = Ipv4Address::new(
        224 + lowest(number) % 16,
        lowest(number >> 8),
        lowest(number >> 16),
        1,
    );
    let message = igmp::Repr::MembershipQuery {
        max_resp_time: Duration::from_millis(100 * (number % 128)),
        group_addr,
        version: igmp::IgmpVersion::Version2,
    };
    exchange_member(&message, packet, digest);
    exchange_member(&answer(number >> 24, group_addr), packet, digest);
}

// What a host says of a group.
fn answer(number: u64, group_addr: Ipv4Address) -> igmp::Repr {
    match number % 4 {
        0 => igmp::Repr::LeaveGroup { group_addr },
        1 => igmp::Repr::MembershipReport {
            group_addr,
            version: igmp::IgmpVersion::Version1,
        },
        _ => igmp::Repr::MembershipReport {
            group_addr,
            version: igmp::IgmpVersion::Version2,
        },
    }
}

// Writes a message of IGMP, and reads it.
fn exchange_member(message: &igmp::Repr, packet: &mut [u8], digest: &mut Digest) {
    let len = message.buffer_len();
    if len > packet.len() {
        return;
    }
    message.emit_into(&mut packet[..len]);
    let view = igmp::Packet::new_unchecked(&packet[..len]);
    match igmp::Repr::parse(&view) {
        Ok(message) => {
            digest.add(view.checksum() as u64);
            digest.add(view.verify_checksum() as u64);
            add_igmp(&message, digest);
        }
        Err(_) => digest.add(1),
    }
}

// Writes the header before a report, with up to seven options more, and reads it.
fn lead(random: &mut Random, pool: &Pool, packet: &mut [u8], digest: &mut Digest) {
    let number = random.next();
    let mut header = ipv6hbh::Repr::mldv2_router_alert();
    for place in 0..(number % IPV6_HBH_MAX_OPTIONS as u64) as u32 {
        push_option(&mut header, option(pool, number.rotate_left(9 * place + 8)));
    }
    let len = header.buffer_len();
    if len > packet.len() {
        return;
    }
    header.emit_into(&mut packet[..len]);
    let view = ipv6hbh::Header::new_unchecked(&packet[..len]);
    match ipv6hbh::Repr::parse(&view) {
        Ok(header) => add_hop_by_hop(&header, digest),
        Err(_) => digest.add(1),
    }
}

// Adds an option to a header that has room for it.
fn push_option<'a>(header: &mut ipv6hbh::Repr<'a>, option: ipv6option::Repr<'a>) {
    let _ = header.options.try_push(option);
}

// An option that the number determines.
fn option(pool: &Pool, number: u64) -> ipv6option::Repr<'_> {
    match number % 8 {
        0 => ipv6option::Repr::Pad1,
        1 | 2 => ipv6option::Repr::PadN(lowest(number >> 8) % 64),
        3 => ipv6option::Repr::RouterAlert(RouterAlert::from(low(number >> 8) % 4)),
        _ => other_option(pool, number),
    }
}

// An option with data of the pool.
fn other_option(pool: &Pool, number: u64) -> ipv6option::Repr<'_> {
    let data = pool.part(number, lowest(number >> 8) as usize % 32);
    ipv6option::Repr::Unknown {
        type_: ipv6option::Type::from(OTHER_OPTIONS[(number >> 3) as usize % 8]),
        length: data.len() as u8,
        data,
    }
}
