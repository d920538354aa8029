// Made from crates/tests_icmp/src/icmp6/mld/texts.rt by rust/erase.
use super::{query, report_of, short_record};
use crate::testing::{prints, takes_writes};
use control_wire::IPV6_LINK_LOCAL_ALL_NODES;
use control_wire::mld::{AddressRecordRepr, RecordType, Repr};

#[test]
fn texts_of_messages() {
    prints(
        &query(),
        "MLD query max_resp_code=1024 mcast_addr=ff02::1 s_flag=true qrv=2 qqic=18 num_srcs=1 \
         data=ff020000000000000000000000000002",
    );
    prints(
        &report_of(1),
        "MLD report nr_mcast_addr_rcrds=1 data=04000000ff020000000000000000000000000002",
    );
    let empty = Repr::Report {
        nr_mcast_addr_rcrds: 0,
        data: &[],
    };
    takes_writes(&empty, 4);
}

#[test]
fn a_list_prints_each_record() {
    let none = Repr::ReportRecordReprs(&[]);
    prints(&none, "MLD report nr_mcast_addr_rcrds=0");
    let leaves = AddressRecordRepr::new(RecordType::ChangeToInclude, IPV6_LINK_LOCAL_ALL_NODES);
    let records = [leaves, short_record()];
    prints(
        &Repr::ReportRecordReprs(&records),
        "MLD report nr_mcast_addr_rcrds=2 (MLD record record_type=CHANGE_TO_INCLUDE_MODE aux_data_len=0 num_srcs=0 \
         mcast_addr=ff02::1 payload=-) (MLD record record_type=CHANGE_TO_EXCLUDE_MODE aux_data_len=1 num_srcs=2 \
         mcast_addr=ff02::2 payload=aabb)",
    );
}

#[test]
fn texts_of_records() {
    prints(
        &short_record(),
        "MLD record record_type=CHANGE_TO_EXCLUDE_MODE aux_data_len=1 num_srcs=2 mcast_addr=ff02::2 \
         payload=aabb",
    );
}

// The types of records, with their names.
const NAMES: &[(RecordType, &str)] = &[
    (RecordType::ModeIsInclude, "MODE_IS_INCLUDE"),
    (RecordType::ModeIsExclude, "MODE_IS_EXCLUDE"),
    (RecordType::ChangeToInclude, "CHANGE_TO_INCLUDE_MODE"),
    (RecordType::ChangeToExclude, "CHANGE_TO_EXCLUDE_MODE"),
    (RecordType::AllowNewSources, "ALLOW_NEW_SOURCES"),
    (RecordType::BlockOldSources, "BLOCK_OLD_SOURCES"),
    (RecordType::Unknown(7), "unknown 7"),
];

#[test]
fn texts_of_the_types_of_records() {
    for (record_type, name) in NAMES {
        prints(record_type, name);
    }
}
