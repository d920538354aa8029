// Made from crates/tests_icmp/src/icmp6/icmpv6/texts.rt by rust/erase.
use super::{TOO_BIG, behind, read};
use crate::testing::{prints, same, takes_writes};
use control_wire::Checksum;
use control_wire::icmpv6::Repr;
use control_wire::{mld, ndisc};

// Checks what the error prints that is read from these octets.
fn check_error(octets: &[u8], text: &str) {
    match read(octets, Checksum::None) {
        Ok(error) => prints(&error, text),
        Err(_) => same("an error", "refused"),
    }
}

#[test]
fn texts_of_errors() {
    check_error(
        &behind(&[0x01, 0x04, 0, 0, 0, 0, 0, 0]),
        "ICMPv6 destination unreachable (port unreachable)",
    );
    check_error(&TOO_BIG, "ICMPv6 packet too big mtu=1500");
    check_error(
        &behind(&[0x03, 0x00, 0, 0, 0, 0, 0, 0]),
        "ICMPv6 time exceeded (hop limit exceeded in transit)",
    );
    check_error(
        &behind(&[0x04, 0x01, 0, 0, 0, 0, 0, 6]),
        "ICMPv6 parameter problem (unrecognized next header type.) pointer=6",
    );
}

#[test]
fn texts_of_echoes() {
    let request = Repr::EchoRequest {
        ident: 0x1234,
        seq_no: 1,
        data: &[0xaa, 0xff],
    };
    prints(&request, "ICMPv6 echo request id=4660 seq=1 len=2");
    let reply = Repr::EchoReply {
        ident: 0x1234,
        seq_no: 1,
        data: &[],
    };
    prints(&reply, "ICMPv6 echo reply id=4660 seq=1 len=0");
    takes_writes(&reply, 6);
}

#[test]
fn other_messages_print_as_they_do_alone() {
    let solicit = ndisc::Repr::RouterSolicit { lladdr: None };
    prints(&Repr::Ndisc(solicit), "NDISC router solicitation");
    let report = mld::Repr::Report {
        nr_mcast_addr_rcrds: 0,
        data: &[],
    };
    prints(
        &Repr::Mld(report),
        "MLD report nr_mcast_addr_rcrds=0 data=-",
    );
}
