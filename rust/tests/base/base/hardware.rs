// Made from crates/tests_base/src/base/hardware.rt by rust/erase.
use crate::testing::{prints, same, same_of};
use control_wire::Hardware;

#[test]
fn hardware_by_its_number() {
    const ROWS: &[(u16, Hardware)] = &[
        (0, Hardware::Unknown(0)),
        (1, Hardware::Ethernet),
        (2, Hardware::Unknown(2)),
        (0xffff, Hardware::Unknown(0xffff)),
    ];
    for &(number, hardware) in ROWS {
        same_of(number, Hardware::from(number), hardware);
        same_of(hardware, u16::from(hardware), number);
    }
    same(Hardware::Ethernet < Hardware::Unknown(0), true);
    same(Hardware::Unknown(0) < Hardware::Unknown(2), true);
}

#[test]
fn hardware_by_its_name() {
    prints(&Hardware::Ethernet, "Ethernet");
    prints(&Hardware::Unknown(32), "32");
}
