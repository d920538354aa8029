// Made from crates/tests_base/src/options/ipv6option/printing.rt by rust/erase.
//! What options and their parts print.

use crate::testing::{prints, same_of, takes_writes};
use control_wire::ipv6option::{FailureType, Ipv6Option, Refusal, Repr, RouterAlert, Type};

#[test]
fn what_types_print() {
    const ROWS: &[(Type, &str)] = &[
        (Type::Pad1, "Pad1"),
        (Type::PadN, "PadN"),
        (Type::RouterAlert, "RouterAlert"),
        (Type::Rpl, "RPL"),
        (Type::Unknown(0xc5), "197"),
    ];
    for (kind, text) in ROWS {
        prints(kind, text);
    }
}

#[test]
fn what_failure_types_print() {
    const ROWS: &[(FailureType, &str)] = &[
        (FailureType::Skip, "skip"),
        (FailureType::Discard, "discard"),
        (FailureType::DiscardSendAll, "discard and send error"),
        (
            FailureType::DiscardSendUnicast,
            "discard and send error if unicast",
        ),
    ];
    for (failure, text) in ROWS {
        prints(failure, text);
    }
}

#[test]
fn what_router_alerts_print() {
    const ROWS: &[(RouterAlert, &str)] = &[
        (
            RouterAlert::MulticastListenerDiscovery,
            "multicast listener discovery",
        ),
        (RouterAlert::Rsvp, "RSVP"),
        (RouterAlert::ActiveNetworks, "active networks"),
        (RouterAlert::Unknown(0xbeef), "48879"),
    ];
    for (alert, text) in ROWS {
        prints(alert, text);
    }
}

#[test]
fn reasons_of_refused_options() {
    const ROWS: &[(&[u8], Refusal, &str)] = &[
        (&[], Refusal::Empty, "no bytes"),
        (&[0x01], Refusal::Short, "a type without a length"),
        (&[0x05], Refusal::Short, "a type without a length"),
        // The length is told to be cut before it is told not to fit.
        (
            &[0x05, 0x03, 0x00, 0x00],
            Refusal::Cut(5),
            "fewer than the 5 bytes that the option counts",
        ),
        (
            &[0xc5, 0xff],
            Refusal::Cut(257),
            "fewer than the 257 bytes that the option counts",
        ),
        (
            &[0x05, 0x03, 0x00, 0x00, 0x00],
            Refusal::Length(Type::RouterAlert, 3),
            "a length of 3 is not allowed for RouterAlert",
        ),
        (
            &[0x05, 0x00, 0x00, 0x00],
            Refusal::Length(Type::RouterAlert, 0),
            "a length of 0 is not allowed for RouterAlert",
        ),
    ];
    for &(octets, refusal, text) in ROWS {
        let told = Repr::refusal(&Ipv6Option::new_unchecked(octets));
        same_of(octets, told, Some(refusal));
        prints(&refusal, text);
    }
}

#[test]
fn what_options_print() {
    const ROWS: &[(&[u8], &str)] = &[
        (&[0x00], "IPv6 Option Pad1 "),
        (&[0x01, 0x04, 0, 0, 0, 0], "IPv6 Option PadN length=4 "),
        (
            &[0x05, 0x02, 0, 0],
            "IPv6 Option RouterAlert value=MulticastListenerDiscovery",
        ),
        (&[0x05, 0x02, 0, 1], "IPv6 Option RouterAlert value=Rsvp"),
        (
            &[0x05, 0x02, 0, 2],
            "IPv6 Option RouterAlert value=ActiveNetworks",
        ),
        (
            &[0x05, 0x02, 0xbe, 0xef],
            "IPv6 Option RouterAlert value=Unknown(48879)",
        ),
        (&[0x63, 0x01, 0xaa], "IPv6 Option RPL length=1 "),
        (&[0xc5, 0x00, 0xaa], "IPv6 Option 197 length=0 "),
        (&[0x05, 0x01, 0xaa], "IPv6 Extension Option (wire::Error)"),
        (&[], "IPv6 Extension Option (wire::Error)"),
    ];
    for &(octets, text) in ROWS {
        let view = Ipv6Option::new_unchecked(octets);
        prints(&view, text);
        if let Ok(option) = Repr::parse(&view) {
            prints(&option, text);
        }
    }
}

#[test]
fn printing_fails_only_with_its_writer() {
    const ROWS: &[(&[u8], u32)] = &[
        (&[0x00], 1),
        (&[0x01, 0x04, 0, 0, 0, 0], 3),
        (&[0x05, 0x02, 0, 1], 2),
        (&[0x05, 0x02, 0xbe, 0xef], 4),
        (&[0x63, 0x01, 0xaa], 5),
        (&[], 3),
    ];
    for &(octets, calls) in ROWS {
        takes_writes(&Ipv6Option::new_unchecked(octets), calls);
    }
    takes_writes(&Type::Unknown(7), 1);
    takes_writes(&FailureType::Skip, 1);
    takes_writes(&RouterAlert::Unknown(7), 1);
    takes_writes(&Refusal::Length(Type::RouterAlert, 3), 4);
}
