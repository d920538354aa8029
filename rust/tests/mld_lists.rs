//! Lists of MLD records: what is written of them, and that each field of each record is printed.

use control_wire::Ipv6Address;
use control_wire::mld::{AddressRecordRepr, RecordRefusal, RecordType, Records, Repr};

const GROUP: Ipv6Address = Ipv6Address::new(0xff02, 0, 0, 0, 0, 0, 0, 1);

const OTHER: Ipv6Address = Ipv6Address::new(0xff02, 0, 0, 0, 0, 0, 0, 2);

fn bare() -> AddressRecordRepr<'static> {
    AddressRecordRepr::new(RecordType::ChangeToExclude, OTHER)
}

fn with_source() -> AddressRecordRepr<'static> {
    AddressRecordRepr {
        num_srcs: 1,
        payload: &[0x2a; 16],
        ..AddressRecordRepr::new(RecordType::ModeIsInclude, GROUP)
    }
}

fn written(list: &[AddressRecordRepr<'_>]) -> Vec<u8> {
    let report = Repr::ReportRecordReprs(list);
    let mut octets = vec![0x2a; report.packet_len()];
    report.emit_into(&mut octets);
    octets
}

#[test]
fn records_that_count_what_is_not_written_are_not_given_back() {
    // One that counts a source takes 16 bytes of the record behind it, or is cut.
    let octets = written(&[with_source(), bare()]);
    let mut records = Records::new(2, &octets[8..]);
    let first = records.next().unwrap().unwrap();
    assert_eq!((first.num_srcs, first.payload), (1, &octets[28..44]));
    assert_eq!(records.next(), Some(Err(RecordRefusal::Short)));
    let octets = written(&[bare(), with_source()]);
    let mut records = Records::new(2, &octets[8..]);
    assert_eq!(records.next(), Some(Ok(bare())));
    assert_eq!(records.next(), Some(Err(RecordRefusal::Cut)));
    // Those that count nothing behind their fields are the ones which were written.
    let octets = written(&[bare(), bare()]);
    let mut records = Records::new(2, &octets[8..]);
    assert_eq!(records.next(), Some(Ok(bare())));
    assert_eq!(records.next(), Some(Ok(bare())));
    assert_eq!(records.next(), None);
}

#[test]
fn records_that_differ_in_one_field_print_differently() {
    let record = with_source();
    let others = [
        AddressRecordRepr {
            record_type: RecordType::Unknown(4),
            ..record
        },
        AddressRecordRepr {
            aux_data_len: 2,
            ..record
        },
        AddressRecordRepr {
            num_srcs: 2,
            ..record
        },
        AddressRecordRepr {
            mcast_addr: OTHER,
            ..record
        },
        AddressRecordRepr {
            payload: &[0x2b; 16],
            ..record
        },
    ];
    for other in others {
        assert_ne!(record.to_string(), other.to_string());
        assert_ne!(
            Repr::ReportRecordReprs(&[record]).to_string(),
            Repr::ReportRecordReprs(&[other]).to_string()
        );
    }
}
