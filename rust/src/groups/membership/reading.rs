// Made from crates/group_wire/src/membership/reading.rt by rust/erase.
//! Messages read from octets.

use super::{Membership, Message, field};
use crate::groups::address::Address;
use crate::groups::family::{Family, Kind};
use crate::groups::query::{Query, S_FLAG};
use crate::groups::records::{Records, records_len};
use crate::groups::refusal::Refusal;
use crate::groups::sources::Sources;
use crate::wirebase::{Octets, checksum};

// The message that these octets are, where `extra` is the sum of a pseudo header.
pub(super) fn read<A: Address>(octets: &[u8], extra: u16) -> Result<Membership<'_, A>, Refusal> {
    read_message(octets, extra)
}

// The message that these octets are.
fn read_message<A: Address>(octets: &[u8], extra: u16) -> Result<Membership<'_, A>, Refusal> {
    if octets.len() < field::HEADER_END {
        return Err(Refusal::Short);
    }
    if !checksum::is_good(octets, extra) {
        return Err(Refusal::Checksum);
    }
    read_content(octets)
}

// What the octets say, whose checksum is good.
fn read_content<A: Address>(octets: &[u8]) -> Result<Membership<'_, A>, Refusal> {
    let number = octets[0];
    match A::family().kind(number) {
        Some(Kind::Query) => read_query(octets),
        Some(Kind::OldestReport) => Ok(Message::OldestReport {
            group: read_group(octets)?,
        }),
        Some(Kind::OlderReport) => Ok(Message::OlderReport {
            group: read_group(octets)?,
        }),
        Some(Kind::Leave) => Ok(Message::Leave {
            group: read_group(octets)?,
        }),
        Some(Kind::Report) => Ok(Message::Report {
            records: read_records(octets)?,
        }),
        None => Err(Refusal::UnknownType(number)),
    }
}

// The group of a message of an older version.
fn read_group<A: Address>(octets: &[u8]) -> Result<A, Refusal> {
    if octets.len() < A::family().older_len() {
        return Err(Refusal::Length);
    }
    Ok(group_in(octets))
}

// What the octets of a query say.
fn read_query<A: Address>(octets: &[u8]) -> Result<Membership<'_, A>, Refusal> {
    let older_len = A::family().older_len();
    if octets.len() == older_len {
        return Ok(Message::OlderQuery {
            max_resp_code: read_code(A::family(), octets),
            group: group_in(octets),
        });
    }
    let sources_at = older_len + 4;
    if octets.len() < sources_at {
        return Err(Refusal::Length);
    }
    let sources_len = A::width() * octets.u16_at(older_len + 2..sources_at) as usize;
    if octets.len() < sources_at + sources_len {
        return Err(Refusal::Cut);
    }
    let sqrv = octets[older_len];
    Ok(Message::Query(Query {
        max_resp_code: read_code(A::family(), octets),
        group: group_in(octets),
        s_flag: sqrv / S_FLAG % 2 == 1,
        qrv: sqrv % S_FLAG,
        qqic: octets[older_len + 1],
        sources: Sources::of_octets(&octets[sources_at..sources_at + sources_len]),
    }))
}

// The response code.
fn read_code(family: Family, octets: &[u8]) -> u16 {
    match family {
        Family::Igmp => octets[1] as u16,
        Family::Mld => octets.u16_at(4..6),
    }
}

// The group.
fn group_in<A: Address>(octets: &[u8]) -> A {
    let family = A::family();
    A::read(octets.range(family.group_at(), family.older_len()))
}

// The records of a report.
fn read_records<A: Address>(octets: &[u8]) -> Result<Records<'_, A>, Refusal> {
    let count = octets.u16_at(field::RECORD_COUNT);
    let behind = &octets[field::HEADER_END..];
    match records_len::<A>(count, behind) {
        Some(len) => Ok(Records::new(count, &behind[..len])),
        None => Err(Refusal::Cut),
    }
}
