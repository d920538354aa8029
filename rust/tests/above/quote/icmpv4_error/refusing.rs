// Made from crates/tests_above/src/quote/icmpv4_error/refusing.rt by rust/erase.
//! Which errors and quotes are refused, and why.

use super::{ALL, PARAMETER_PROBLEM, TIME_EXCEEDED};
use crate::testing::{prints, same, same_of};
use control_wire::quotes::icmpv4_error::{Refusal, Repr};
use control_wire::quotes::quote;
use control_wire::quotes::quote::Ipv4Quote;
use control_wire::{Checksum, ChecksumCapabilities};

#[test]
fn errors_that_are_refused() {
    const ROWS: &[(&[u8], Option<Refusal>)] = &[
        (&[], Some(Refusal::Short)),
        (&[0x0b, 0, 0, 0, 0, 0, 0], Some(Refusal::Short)),
        (&[0x08, 0, 0, 0, 0, 0, 0, 0], Some(Refusal::UnknownType(8))),
        (
            &[0x0b, 0, 0, 0, 0, 0, 0, 0],
            Some(Refusal::Quote(quote::Refusal::Short)),
        ),
        (TIME_EXCEEDED, None),
    ];
    let caps = ChecksumCapabilities::ignored();
    for row in ROWS {
        same_of(row.0, Repr::refusal(row.0, &caps), row.1);
    }
    let mut octets = [0; 36];
    octets.copy_from_slice(TIME_EXCEEDED);
    octets[0] = 8;
    same(Repr::refusal(&octets, &ALL), Some(Refusal::Checksum));
}

#[test]
fn quotes_that_are_refused() {
    // How many bytes are quoted, and the first of them.
    const ROWS: &[(usize, u8, Option<quote::Refusal>)] = &[
        (28, 0x45, None),
        (68, 0x4f, None),
        (19, 0x65, Some(quote::Refusal::Short)),
        (59, 0x4f, Some(quote::Refusal::Short)),
        (20, 0x64, Some(quote::Refusal::Version(6))),
        (28, 0x44, Some(quote::Refusal::Length(16))),
        (27, 0x45, Some(quote::Refusal::Data)),
        (67, 0x4f, Some(quote::Refusal::Data)),
    ];
    let caps = ChecksumCapabilities::ignored();
    for row in ROWS {
        let mut octets = [0; 76];
        octets[0] = 11;
        octets[8] = row.1;
        let octets = &octets[..row.0.saturating_add(8).min(76)];
        let quoted = &octets[8.min(octets.len())..];
        same_of(row.1, Ipv4Quote::refusal(quoted), row.2);
        same_of(
            row.1,
            Repr::refusal(octets, &caps),
            row.2.map(Refusal::Quote),
        );
    }
}

// Ends the test where a reason is told of an error that is read, or none of another.
fn check_told(octets: &[u8]) {
    let caps = ChecksumCapabilities::ignored();
    let told = Repr::refusal(octets, &caps).is_some();
    same_of(octets, told, Repr::parse(octets, &caps).is_err());
    let told = Repr::refusal(octets, &ALL).is_some();
    same_of(octets, told, Repr::parse(octets, &ALL).is_err());
}

#[test]
fn a_reason_is_told_of_just_the_damaged_errors_that_are_refused() {
    for len in 0..=PARAMETER_PROBLEM.len() {
        check_told(&PARAMETER_PROBLEM[..len]);
    }
    for at in 0..PARAMETER_PROBLEM.len() {
        for value in 0..=255u8 {
            let mut octets = [0; 40];
            octets.copy_from_slice(PARAMETER_PROBLEM);
            octets[at] = value;
            check_told(&octets);
        }
    }
}

#[test]
fn reasons_print_a_phrase() {
    const ROWS: &[(Refusal, &str)] = &[
        (Refusal::Short, "fewer than 8 bytes"),
        (Refusal::Checksum, "the checksum does not hold"),
        (Refusal::UnknownType(8), "type 8 is not that of an error"),
        (
            Refusal::Quote(quote::Refusal::Short),
            "the quoted header is cut",
        ),
        (
            Refusal::Quote(quote::Refusal::Version(6)),
            "the quoted header is of version 6",
        ),
        (
            Refusal::Quote(quote::Refusal::Length(16)),
            "the quoted header has 16 bytes by its own length",
        ),
        (
            Refusal::Quote(quote::Refusal::Data),
            "fewer than 8 bytes stand behind the quoted header",
        ),
    ];
    for row in ROWS {
        prints(&row.0, row.1);
    }
}
