// Made from crates/group_wire/src/membership/writing.rt by rust/erase.
//! Messages written into octets.

use super::{Membership, Message, field};
use crate::groups::address::Address;
use crate::groups::family::{Family, Kind};
use crate::groups::query::{Query, S_FLAG};
use crate::groups::records::Records;
use crate::wirebase::{ByteWriter, checksum};

// Writes the message over the front of the octets, with the checksum of all of them, where `extra` is the sum of the
// pseudo header of as many bytes.
pub(super) fn emit<A: Address>(message: &Membership<'_, A>, octets: &mut [u8], extra: u16) {
    write(message, octets);
    checksum::fill(octets, field::CHECKSUM, extra);
}

// Writes the fields of the message over the front of the octets, with a checksum of zero.
fn write<A: Address>(message: &Membership<'_, A>, octets: &mut [u8]) {
    let mut w = ByteWriter::new(octets);
    match message {
        Message::OlderQuery {
            max_resp_code,
            group,
        } => put_group(&mut w, Kind::Query, *max_resp_code, group),
        Message::Query(query) => put_query(&mut w, query),
        Message::OldestReport { group } => put_group(&mut w, Kind::OldestReport, 0, group),
        Message::OlderReport { group } => put_group(&mut w, Kind::OlderReport, 0, group),
        Message::Leave { group } => put_group(&mut w, Kind::Leave, 0, group),
        Message::Report { records } => put_report(&mut w, records),
    }
}

// Writes what a message of one group begins with, and the group.
fn put_group<A: Address>(w: &mut ByteWriter<'_>, kind: Kind, code: u16, group: &A) {
    put_header(w, A::family(), kind, code);
    group.put(w);
}

// Writes what a message of one group begins with, before the group.
fn put_header(w: &mut ByteWriter<'_>, family: Family, kind: Kind, code: u16) {
    w.put_u8(family.number(kind));
    match family {
        Family::Igmp => {
            w.put_u8((code % 256) as u8);
            w.put_u16(0);
        }
        Family::Mld => {
            w.put_u8(0);
            w.put_u16(0);
            w.put_u16(code);
            w.put_u16(0);
        }
    }
}

// Writes the fields of a query.
fn put_query<A: Address>(w: &mut ByteWriter<'_>, query: &Query<'_, A>) {
    put_group(w, Kind::Query, query.max_resp_code, &query.group);
    w.put_u8(sqrv(query.s_flag, query.qrv));
    w.put_u8(query.qqic);
    w.put_u16((query.sources.len() % (1 << 16)) as u16);
    w.put_bytes(query.sources.octets);
}

// The flag S and the robustness variable in one byte: one above 7 is stated as 0 (RFC 3376 section 4.1.6, RFC 3810
// section 5.1.8).
fn sqrv(s_flag: bool, qrv: u8) -> u8 {
    let high = if s_flag { S_FLAG } else { 0 };
    let low = if qrv < S_FLAG { qrv } else { 0 };
    high + low
}

// Writes the fields of a report.
fn put_report<A: Address>(w: &mut ByteWriter<'_>, records: &Records<'_, A>) {
    w.put_u8(A::family().number(Kind::Report));
    w.put_u8(0);
    w.put_u16(0);
    w.put_u16(0);
    w.put_u16(records.count);
    w.put_bytes(records.octets);
}
