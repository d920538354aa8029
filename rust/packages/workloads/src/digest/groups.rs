// Made from crates/workloads/src/digest/groups.rt by rust/erase.
//! Adds what is said of multicast groups, by IGMP and by multicast listener discovery.

use crate::digest::Digest;
use crate::digest::ip::{add_ipv4_address, add_ipv6_address};
use control_wire::mld::{self, AddressRecordRepr, RecordType};
use control_wire::{Duration, igmp};

/// Adds what an IGMP message says.
pub fn add_igmp(message: &igmp::Repr, digest: &mut Digest) {
    match message {
        igmp::Repr::MembershipQuery {
            max_resp_time,
            group_addr,
            version,
        } => {
            digest.add(1);
            digest.add(max_resp_time.total_micros());
            add_ipv4_address(group_addr, digest);
            digest.add(*version as u64);
        }
        igmp::Repr::MembershipReport {
            group_addr,
            version,
        } => {
            digest.add(2);
            add_ipv4_address(group_addr, digest);
            digest.add(*version as u64);
        }
        igmp::Repr::LeaveGroup { group_addr } => {
            digest.add(3);
            add_ipv4_address(group_addr, digest);
        }
    }
}

/// Adds what a message of multicast listener discovery says.
pub fn add_mld(message: &mld::Repr<'_>, digest: &mut Digest) {
    match message {
        mld::Repr::Query {
            max_resp_code,
            mcast_addr,
            s_flag,
            qrv,
            qqic,
            num_srcs,
            data,
        } => {
            digest.add_numbered(*max_resp_code, *s_flag);
            add_ipv6_address(mcast_addr, digest);
            digest.add(*qrv as u64);
            digest.add(*qqic as u64);
            digest.add(*num_srcs as u64);
            digest.add_front(data);
        }
        mld::Repr::Report {
            nr_mcast_addr_rcrds,
            data,
        } => {
            digest.add(*nr_mcast_addr_rcrds as u64);
            digest.add_front(data);
        }
        mld::Repr::ReportRecordReprs(records) => digest.add(65_536 + records.len() as u64),
    }
}

/// Adds what a record of a report says.
pub fn add_address_record(record: &AddressRecordRepr<'_>, digest: &mut Digest) {
    let AddressRecordRepr {
        record_type,
        aux_data_len,
        num_srcs,
        mcast_addr,
        payload,
    } = record;
    let is_named = !matches!(record_type, RecordType::Unknown(_));
    digest.add_numbered(u8::from(*record_type) as u16, is_named);
    digest.add(*aux_data_len as u64);
    digest.add(*num_srcs as u64);
    add_ipv6_address(mcast_addr, digest);
    digest.add_ends(payload);
}
