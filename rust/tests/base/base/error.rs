// Made from crates/tests_base/src/base/error.rt by rust/erase.
use crate::testing::{prints, takes_writes};
use control_wire::Error;

#[test]
fn prints_its_name() {
    prints(&Error, "wire::Error");
}

#[test]
fn printing_fails_only_with_its_writer() {
    takes_writes(&Error, 1);
}
