// Made from crates/tests_base/src/base/capabilities.rt by rust/erase.
use crate::testing::{same, same_of};
use control_wire::{Checksum, ChecksumCapabilities};

#[test]
fn directions_of_each_case() {
    const ROWS: &[(Checksum, [bool; 2])] = &[
        (Checksum::Both, [true, true]),
        (Checksum::Rx, [true, false]),
        (Checksum::Tx, [false, true]),
        (Checksum::None, [false, false]),
    ];
    for &(checksum, wanted) in ROWS {
        same_of(checksum, [checksum.rx(), checksum.tx()], wanted);
    }
    same(Checksum::default(), Checksum::Both);
}

// The checksum of each protocol.
fn checksums(capabilities: &ChecksumCapabilities) -> [Checksum; 5] {
    [
        capabilities.ipv4,
        capabilities.udp,
        capabilities.tcp,
        capabilities.icmpv4,
        capabilities.icmpv6,
    ]
}

#[test]
fn capabilities_of_all_and_of_none() {
    let all = ChecksumCapabilities::default();
    same(checksums(&all), [Checksum::Both; 5]);
    let none = ChecksumCapabilities::ignored();
    same(checksums(&none), [Checksum::None; 5]);
    same(all != none, true);
}
