//! Messages about groups, of both protocols: queries and reports of every version, reports of 1 to 8 records of 0 to 3
//! sources.

use crate::measure::{iterates, prints, reads, writes};
use crate::random::{Random, many};
use control_wire::groups::{
    Address, Membership, Message, Query, Record, RecordType, Records, RecordsWriter, Sources,
};
use control_wire::{Ipv4Address, Ipv6Address};

/// The addresses of the packets of MLD.
const SOURCE: Ipv6Address = Ipv6Address::new(0xfe80, 0, 0, 0, 0, 0, 0, 7);

const ROUTERS: Ipv6Address = Ipv6Address::new(0xff02, 0, 0, 0, 0, 0, 0, 0x16);

/// Records of groups with their sources, in octets that last as long as the program.
fn records<A: Address + 'static>(
    random: &mut Random,
    address: impl Fn(&mut Random) -> A,
) -> Records<'static, A> {
    let mut writer = RecordsWriter::new(vec![0; 1_400].leak());
    for _ in 0..=random.below(8) {
        let sources: Vec<A> = (0..random.below(4)).map(|_| address(random)).collect();
        let record_type = RecordType::from(1 + random.octet() % 6);
        writer.push(record_type, address(random), &sources).unwrap();
    }
    Box::leak(Box::new(writer)).records()
}

/// A message of each kind in turn.
fn message<A: Address + 'static>(
    random: &mut Random,
    place: usize,
    address: impl Fn(&mut Random) -> A,
) -> Membership<'static, A> {
    let group = address(random);
    let max_resp_code = u16::from(random.octet());
    match place % 8 {
        0 => Message::OlderQuery {
            max_resp_code,
            group,
        },
        1 => Message::Query(Query {
            max_resp_code,
            group,
            s_flag: random.is_even(),
            qrv: random.octet() % 8,
            qqic: random.octet(),
            sources: Sources::new(random.leaked(48 * (place / 8 % 3))),
        }),
        2 => Message::OlderReport { group },
        3 => Message::Leave { group },
        _ => Message::Report {
            records: records(random, address),
        },
    }
}

/// The cases of this group.
pub fn cases() {
    let igmp = many(31, |random, place| message(random, place, Random::ipv4));
    let mld = many(32, |random, place| message(random, place, Random::ipv6));
    writes(
        "groups_igmp_emit",
        &igmp,
        Membership::<Ipv4Address>::buffer_len,
        |message, out| message.emit_igmp(out),
    );
    writes(
        "groups_mld_emit",
        &mld,
        Membership::<Ipv6Address>::buffer_len,
        |message, out| message.emit_mld(out, &SOURCE, &ROUTERS),
    );
    let octets: Vec<Vec<u8>> = igmp
        .iter()
        .map(|message| {
            let mut octets = vec![0; message.buffer_len()];
            message.emit_igmp(&mut octets);
            octets
        })
        .collect();
    reads("groups_igmp_parse", &octets, |octets| {
        Membership::<Ipv4Address>::parse_igmp(octets)
    });
    let octets: Vec<Vec<u8>> = mld
        .iter()
        .map(|message| {
            let mut octets = vec![0; message.buffer_len()];
            message.emit_mld(&mut octets, &SOURCE, &ROUTERS);
            octets
        })
        .collect();
    reads("groups_mld_parse", &octets, |octets| {
        Membership::<Ipv6Address>::parse_mld(octets, &SOURCE, &ROUTERS)
    });
    let lists: Vec<Records<'_, Ipv6Address>> = mld
        .iter()
        .filter_map(|message| match message {
            Message::Report { records } => Some(*records),
            _ => None,
        })
        .collect();
    iterates("groups_records", &lists, Records::iter);
    let records: Vec<Record<'_, Ipv6Address>> = lists.iter().flat_map(Records::iter).collect();
    iterates("groups_sources", &records, |record| record.sources.iter());
    let values: Vec<(RecordType, Ipv6Address, Vec<Ipv6Address>)> = records
        .iter()
        .map(|record| {
            (
                record.record_type,
                record.group,
                record.sources.iter().collect(),
            )
        })
        .collect();
    writes(
        "groups_push",
        &values,
        |(_, _, sources)| 20 + 16 * sources.len(),
        |(record_type, group, sources), out| {
            RecordsWriter::new(out).push(*record_type, *group, sources)
        },
    );
    prints("groups_igmp_display", &igmp);
    prints("groups_mld_display", &mld);
}
