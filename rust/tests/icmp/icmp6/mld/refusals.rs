// Made from crates/tests_icmp/src/icmp6/mld/refusals.rt by rust/erase.
use super::{QUERY, REPORT, SHORT_RECORD};
use crate::testing::{prints, same_of};
use control_wire::icmpv6::Packet;
use control_wire::mld::{AddressRecord, AddressRecordRepr, RecordRefusal, Refusal, Repr};

// Checks why these octets are refused.
fn check_refusal(octets: &[u8], wanted: Option<Refusal>) {
    let refusal = Repr::refusal(&Packet::new_unchecked(octets));
    same_of(octets, refusal, wanted);
}

#[test]
fn the_first_check_that_fails_is_told() {
    check_refusal(&QUERY, None);
    check_refusal(&REPORT[..8], None);
    check_refusal(&[], Some(Refusal::Short));
    check_refusal(&REPORT[..7], Some(Refusal::Short));
    check_refusal(&QUERY[..27], Some(Refusal::Length));
    let other = [0x83, 0, 0, 0, 0, 0, 0, 0];
    check_refusal(&other, Some(Refusal::UnknownType(0x83)));
}

#[test]
fn short_records_are_told() {
    let short = AddressRecord::new_unchecked(&SHORT_RECORD[..19]);
    let refusal = AddressRecordRepr::refusal(&short);
    same_of(19, refusal, Some(RecordRefusal::Short));
    let whole = AddressRecord::new_unchecked(&SHORT_RECORD[..20]);
    same_of(20, AddressRecordRepr::refusal(&whole), None);
}

#[test]
fn texts_of_refusals() {
    prints(&Refusal::Short, "fewer than 8 bytes");
    prints(&Refusal::UnknownType(131), "type 131 is not read");
    prints(&Refusal::Length, "fewer bytes than the header of its type");
    prints(&RecordRefusal::Short, "fewer than 20 bytes");
    prints(
        &RecordRefusal::Cut,
        "fewer bytes than its sources and its auxiliary data take",
    );
}
