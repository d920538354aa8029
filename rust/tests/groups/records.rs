// Made from crates/tests_groups/src/records.rt by rust/erase.
//! Records written one after another, and read in turn.

use crate::testing::{prints, same, same_of};
use control_wire::groups::{Full, Membership, Message, Query, RecordType, RecordsWriter, Sources};
use control_wire::{Ipv4Address, Ipv6Address};

// A group, and two of its sources.
fn addresses() -> [Ipv4Address; 3] {
    [
        Ipv4Address::new(239, 1, 2, 3),
        Ipv4Address::new(192, 0, 2, 1),
        Ipv4Address::new(192, 0, 2, 2),
    ]
}

#[test]
fn records_that_are_written_are_read() {
    let [group, first, second] = addresses();
    let mut octets = [0xa5; 24];
    let mut writer = RecordsWriter::<Ipv4Address>::new(&mut octets);
    same(
        writer.push(RecordType::AllowNewSources, group, &[first, second]),
        Ok(()),
    );
    same(
        writer.push(RecordType::ChangeToInclude, group, &[first]),
        Err(Full),
    );
    same(writer.push(RecordType::ChangeToInclude, group, &[]), Ok(()));
    same(writer.records().len(), 2);
    let report: Membership<'_, Ipv4Address> = Message::Report {
        records: writer.records(),
    };
    prints(
        &report,
        "IGMPv3 report records=2 (ALLOW_NEW_SOURCES group=239.1.2.3 sources=192.0.2.1,192.0.2.2 auxiliary=-) \
         (CHANGE_TO_INCLUDE_MODE group=239.1.2.3 sources=- auxiliary=-)",
    );
    let mut packet = [0; 64];
    let len = report.buffer_len().min(64);
    if report.buffer_len() <= 64 {
        report.emit_igmp(&mut packet[..len]);
    }
    let read = Membership::<Ipv4Address>::parse_igmp(&packet[..len]);
    same(read, Ok(report));
    writer.clear();
    same(writer.records().is_empty(), true);
}

#[test]
fn records_in_turn() {
    let mut octets = [0; 64];
    let mut writer = RecordsWriter::<Ipv6Address>::new(&mut octets);
    let group = Ipv6Address::new(0xff15, 0, 0, 0, 0, 0, 1, 3);
    let source = Ipv6Address::new(0x2001, 0xdb8, 0, 0, 0, 0, 0, 5);
    same(
        writer.push(RecordType::BlockOldSources, group, &[source]),
        Ok(()),
    );
    let mut records = writer.records().iter();
    match records.next() {
        Some(record) => {
            same(record.record_type, RecordType::BlockOldSources);
            same(record.group, group);
            same(record.auxiliary, &[][..]);
            let mut sources = record.sources.iter();
            same(sources.next(), Some(source));
            same(sources.next(), None);
        }
        None => same("no record", "a record"),
    }
    same(records.next(), None);
}

#[test]
fn sources_of_a_query() {
    let [group, first, second] = addresses();
    let mut octets = [0; 8];
    same(Sources::write(&[first, second, first], &mut octets), None);
    for count in [0, 1, 2] {
        let mut octets = [0; 8];
        let sources = Sources::write(&[first, second][..count], &mut octets);
        same_of(count, sources.map(|sources| sources.len()), Some(count));
    }
    let mut octets = [0; 8];
    let Some(sources) = Sources::write(&[first, second], &mut octets) else {
        return same("no sources", "sources");
    };
    let query: Membership<'_, Ipv4Address> = Message::Query(Query {
        max_resp_code: 10,
        group,
        s_flag: true,
        qrv: 2,
        qqic: 125,
        sources,
    });
    let mut packet = [0; 20];
    if query.buffer_len() <= 20 {
        query.emit_igmp(&mut packet);
    }
    let wanted = [
        0x11, 0x0a, 0x6f, 0x6d, 0xef, 0x01, 0x02, 0x03, 0x0a, 0x7d, 0x00, 0x02, 0xc0, 0x00, 0x02,
        0x01, 0xc0, 0x00, 0x02, 0x02,
    ];
    same(packet, wanted);
}
