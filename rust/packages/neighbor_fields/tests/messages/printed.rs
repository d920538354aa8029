// Made from crates/tests_neighbor_fields/src/printed.rt by rust/erase.
//! What the public calls print.

use crate::testing::{holds_of, same_of};
use neighbor_fields::Lack;
use neighbor_fields::hop_by_hop::show_hop_by_hop;
use neighbor_fields::igmp::show_igmp;
use neighbor_fields::mld::show_mld;
use neighbor_fields::ndisc::show_ndisc;
use packet_fields::Form;
#[allow(unused_imports)]
use rattle_std::prelude::*;

/// What octets are read as.
#[derive(Debug, Clone, Copy)]
pub(crate) enum Kind {
    HopByHop,
    Ndisc,
    Mld,
    Igmp,
}

/// These octets print as these lines.
pub(crate) fn lines_are(kind: Kind, octets: &[u8], lines: &str) {
    let (printed, _) = printed(kind, Form::Lines, octets);
    same_of(lines, printed.as_slice(), lines.as_bytes());
}

/// These octets print as these members of an object.
pub(crate) fn members_are(kind: Kind, octets: &[u8], json: &str) {
    let (printed, _) = printed(kind, Form::Json, octets);
    same_of(json, printed.as_slice(), json.as_bytes());
}

/// These octets print as lines that end with this one.
pub(crate) fn ends_with_line(kind: Kind, octets: &[u8], line: &str) {
    let (printed, _) = printed(kind, Form::Lines, octets);
    holds_of(line, printed.as_slice().ends_with(line.as_bytes()));
}

/// These octets have less of this than they take or count; None where they have all.
pub(crate) fn lacks(kind: Kind, octets: &[u8], lack: Option<Lack>) {
    let (_, told) = printed(kind, Form::Lines, octets);
    same_of(octets, told, lack);
}

// What is printed, and what is told to be less than it should.
fn printed(kind: Kind, form: Form, octets: &[u8]) -> (Vec<u8>, Option<Lack>) {
    let mut output = Vec::new();
    let result = match kind {
        Kind::HopByHop => show_hop_by_hop(&mut output, form, octets).map(|()| None),
        Kind::Ndisc => show_ndisc(&mut output, form, octets).map(|()| None),
        Kind::Mld => show_mld(&mut output, form, octets),
        Kind::Igmp => show_igmp(&mut output, form, octets),
    };
    match result {
        Ok(lack) => (output, lack),
        Err(_) => {
            holds_of(kind, false);
            (output, None)
        }
    }
}
