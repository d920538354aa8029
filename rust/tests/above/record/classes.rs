// Made from crates/tests_above/src/record/classes.rt by rust/erase.
//! Classes by their mnemonics.

use crate::testing::{prints, same_of};
use control_wire::record::classes::{ANY, CH, ClassName, HS, IN, NONE, mnemonic};

#[test]
fn classes_of_the_registry() {
    const ROWS: &[(u16, &str, u16)] = &[
        (IN, "IN", 1),
        (CH, "CH", 3),
        (HS, "HS", 4),
        (NONE, "NONE", 254),
        (ANY, "ANY", 255),
        (2, "CLASS2", 2),
        (65535, "CLASS65535", 65535),
    ];
    for &(class, mnemonic, number) in ROWS {
        prints(&ClassName(class), mnemonic);
        same_of(mnemonic, class, number);
    }
}

#[test]
fn mnemonics_of_classes() {
    same_of(254, mnemonic(254), Some("NONE"));
    same_of(253, mnemonic(253), None);
}
