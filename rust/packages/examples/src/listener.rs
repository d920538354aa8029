// Made from crates/examples/src/listener.rt by rust/erase.
//! A host that listens to multicast groups over IPv6: multicast listener discovery, version 2 (RFC 3810). Its messages
//! go from its link-local address to all routers that listen to reports, `ff02::16`, with hop limit 1 and after the
//! options of `router_alert`.

pub mod version1;

use control_wire::mld::{self, AddressRecordRepr, RecordType};
use control_wire::{
    ChecksumCapabilities, Duration, IpProtocol, Ipv6Address, icmpv6, ipv6ext_header, ipv6hbh,
};

// The destination of reports, ff02::16 (RFC 3810 section 5.2.14).
const REPORTS_TO: [u8; 16] = [0xff, 0x02, 0, 0, 0, 0, 0, 0, 0, 0, 0, 0, 0, 0, 0, 0x16];

// The hop limit of a query (RFC 3810 section 5.1.14).
const HOP_LIMIT: u8 = 1;

// The bytes of a record before its sources, and of one source.
const RECORD_LEN: usize = 20;

const SOURCE_LEN: usize = 16;

/// The most sources of a query that is answered: as many as fit in a query on an Ethernet (RFC 3810 section 5.1.10).
pub const MAX_SOURCES: usize = 89;

// The bytes of a record of this many sources.
const MAX_RECORD_LEN: usize = 1_444;

// A code with this bit has an exponent and a mantissa: one without it is a number of milliseconds.
const FLOATING: u16 = 0x8000;

/// The record of a group that the host listens to, from any source (RFC 3810 section 5.2.12).
pub fn listens(group_addr: Ipv6Address) -> AddressRecordRepr<'static> {
    AddressRecordRepr::new(RecordType::ModeIsExclude, group_addr)
}

/// The record by which a host says that it begins to listen to a group.
pub fn joins(group_addr: Ipv6Address) -> AddressRecordRepr<'static> {
    AddressRecordRepr::new(RecordType::ChangeToExclude, group_addr)
}

/// The record by which a host says that it no longer listens to a group.
pub fn leaves(group_addr: Ipv6Address) -> AddressRecordRepr<'static> {
    AddressRecordRepr::new(RecordType::ChangeToInclude, group_addr)
}

/// Writes the report of these records from the host's address to the start of the octets, and returns its length in
/// bytes: 8, and 20 for each record. None exactly where the octets are too short; then they are unchanged. Requires
/// records of multicast groups, and at most 65,535 of them.
pub fn report(
    own: &Ipv6Address,
    records: &[AddressRecordRepr<'_>],
    out: &mut [u8],
) -> Option<usize> {
    write(mld::Repr::ReportRecordReprs(records), own, out)
}

// Writes a report to the start of the octets, and returns its length in bytes.
fn write(message: mld::Repr<'_>, own: &Ipv6Address, out: &mut [u8]) -> Option<usize> {
    let message = icmpv6::Repr::Mld(message);
    let len = message.packet_len();
    if out.len() < len {
        return None;
    }
    let caps = ChecksumCapabilities::default();
    let to = Ipv6Address::from_octets(REPORTS_TO);
    message.emit_into(own, &to, &mut out[..len], &caps);
    Some(len)
}

/// A report that answers a query.
#[derive(Debug, PartialEq, Eq, Clone, Copy)]
pub struct Response {
    /// The longest time that it may wait: a host picks a time at random up to it (RFC 3810 section 6.2).
    pub max_delay: Duration,
    /// The length in bytes.
    pub len: usize,
}

/// Writes the report that answers a query to the start of the octets. The query came from `querier` with this hop limit
/// and went to `asked`; the host listens to the groups of the records. A query for all groups is answered by those
/// records, one for a group by the record of the group, and one for sources of a group by a record of these sources,
/// from which the host listens, too (RFC 3810 sections 5.1.9 and 6.3). None exactly where the octets are no valid query
/// (RFC 3810 section 6.2), where the host doesn't listen to what it asks for, where it names more than 89 sources, or
/// where the report is longer than its buffer; then it is unchanged. The caller checks that the query came with a
/// router alert. Requires records of multicast groups, and at most 65,535 of them.
pub fn answer(
    querier: &Ipv6Address,
    asked: &Ipv6Address,
    hop_limit: u8,
    own: &Ipv6Address,
    listening: &[AddressRecordRepr<'_>],
    query: &[u8],
    out: &mut [u8],
) -> Option<Response> {
    let query = match read_query(querier, asked, hop_limit, query) {
        Some(query) => query,
        None => return None,
    };
    match answer_query(own, listening, &query, out) {
        Some(len) => Some(Response {
            max_delay: max_response_delay(query.max_resp_code),
            len,
        }),
        None => None,
    }
}

// What a query asks for.
#[derive(Clone, Copy)]
struct Query<'a> {
    max_resp_code: u16,
    group: Ipv6Address,
    // As many addresses as it counts.
    sources: &'a [u8],
}

// The query in the octets.
fn read_query<'a>(
    querier: &Ipv6Address,
    asked: &Ipv6Address,
    hop_limit: u8,
    octets: &'a [u8],
) -> Option<Query<'a>> {
    if hop_limit != HOP_LIMIT || !querier.is_link_local() {
        return None;
    }
    let caps = ChecksumCapabilities::default();
    let packet = icmpv6::Packet::new_unchecked(octets);
    let message = match icmpv6::Repr::parse(querier, asked, &packet, &caps) {
        Ok(message) => message,
        Err(_) => return None,
    };
    let icmpv6::Repr::Mld(mld::Repr::Query {
        max_resp_code,
        mcast_addr,
        num_srcs,
        data,
        ..
    }) = message
    else {
        return None;
    };
    match data.get(..SOURCE_LEN * num_srcs as usize) {
        Some(sources) => Some(Query {
            max_resp_code,
            group: mcast_addr,
            sources,
        }),
        None => None,
    }
}

// Writes the report that answers a query.
fn answer_query(
    own: &Ipv6Address,
    listening: &[AddressRecordRepr<'_>],
    query: &Query<'_>,
    out: &mut [u8],
) -> Option<usize> {
    if query.group.is_unspecified() {
        if listening.is_empty() {
            return None;
        }
        return report(own, listening, out);
    }
    if !query.group.is_multicast() || !is_listed(listening, &query.group) {
        return None;
    }
    if query.sources.is_empty() {
        return report(own, &[listens(query.group)], out);
    }
    report_sources(own, &query.group, query.sources, out)
}

// Whether there is a record of this group.
fn is_listed(records: &[AddressRecordRepr<'_>], group: &Ipv6Address) -> bool {
    for record in records {
        if is_of(record, group) {
            return true;
        }
    }
    false
}

// Whether a record is of this group.
fn is_of(record: &AddressRecordRepr<'_>, group: &Ipv6Address) -> bool {
    record.mcast_addr.octets() == group.octets()
}

// Writes the report that the host listens to these sources of a group, where they are not too many.
fn report_sources(
    own: &Ipv6Address,
    group: &Ipv6Address,
    sources: &[u8],
    out: &mut [u8],
) -> Option<usize> {
    if sources.len() > SOURCE_LEN * MAX_SOURCES {
        return None;
    }
    let mut octets = [0; MAX_RECORD_LEN];
    let record = &mut octets[..RECORD_LEN + sources.len()];
    write_record(group, sources, record);
    let message = mld::Repr::Report {
        nr_mcast_addr_rcrds: 1,
        data: record,
    };
    write(message, own, out)
}

// Writes the record of these sources into just its octets.
fn write_record(group: &Ipv6Address, sources: &[u8], out: &mut [u8]) {
    let head = AddressRecordRepr {
        record_type: RecordType::ModeIsInclude,
        aux_data_len: 0,
        num_srcs: (sources.len() / SOURCE_LEN) as u16,
        mcast_addr: *group,
        payload: &[],
    };
    let (front, behind) = out.split_at_mut(RECORD_LEN);
    write_head(&head, front);
    behind.copy_from_slice(sources);
}

// Writes what a record has before its sources.
fn write_head(head: &AddressRecordRepr<'_>, out: &mut [u8]) {
    head.emit_into(out);
}

/// The time of a maximum response code, at most 8,387,584 ms (RFC 3810 section 5.1.3).
pub fn max_response_delay(code: u16) -> Duration {
    let millis = if code < FLOATING {
        code as u64
    } else {
        let exponent = code / 0x1000 % 8 + 3;
        let mantissa = 0x1000 + code % 0x1000;
        (mantissa as u64) << exponent
    };
    Duration::from_millis(millis)
}

/// Writes the hop-by-hop options that go before a report: the alert of multicast listener discovery, and padding (RFC
/// 3810 section 5, RFC 2711). Requires 8 bytes.
pub fn router_alert(out: &mut [u8]) {
    write_header(&mut out[..2]);
    write_options(&mut out[2..]);
}

// Writes what goes before the options: ICMPv6 follows, and there are no more than eight bytes.
fn write_header(out: &mut [u8]) {
    let header = ipv6ext_header::Repr {
        next_header: IpProtocol::Icmpv6,
        length: 0,
        data: &[],
    };
    header.emit_into(out);
}

// Writes the alert and the padding.
fn write_options(out: &mut [u8]) {
    let mut options = ipv6hbh::Repr::mldv2_router_alert();
    options.push_padn_option(0);
    options.emit_into(out);
}
