// Made from crates/tests_dhcp_fields/src/testing.rt by rust/erase.
// What the tests compare by, over one macro of std: the prover goes through the code of a macro again wherever it is
// used, and through a call of these in a sixth of the time. They take the test's runtime, so they can't be in one
// library for all tests: the gate refuses a public function that may end the process.

use dhcp_fields::{Refusal, show_dhcp};
use packet_fields::Form;
#[allow(unused_imports)]
use rattle_std::prelude::*;
use std::fmt::Debug;

// Ends the test where the two differ, and says what they are of.
pub(crate) fn same_of<T: PartialEq + Debug>(of: impl Debug, left: T, right: T) {
    assert!(left == right, "{of:?}: {left:?} is not {right:?}");
}

// Ends the test where this does not hold, and says what it was to hold of.
pub(crate) fn holds_of(of: impl Debug, is_so: bool) {
    same_of(of, is_so, true);
}

// The octets of these parts, one after another.
pub(crate) fn joined(parts: &[&[u8]]) -> Vec<u8> {
    let mut octets = Vec::new();
    for part in parts {
        holds_of(part, octets.extend_from_slice(part).is_ok());
    }
    octets
}

// Compares what a packet prints in a form, and why it can't be read whole.
pub(crate) fn prints(form: Form, octets: &[u8], text: &[u8], refused: Option<Refusal>) {
    let mut output = Vec::new();
    match show_dhcp(&mut output, form, octets) {
        Ok(told) => same_of(octets, told, refused),
        Err(_) => holds_of(octets, false),
    }
    same_of(octets, output.as_slice(), text);
}
