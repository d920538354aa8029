// Made from crates/tests_dhcp_dns/src/dhcp/dhcpv4_repr/lengths.rt by rust/erase.
use super::held_in;
use crate::dhcp::dhcpv4::discover_with;
use crate::dhcp::plain_reader::compare_damaged;
use crate::testing::same_of;

// Compares what a Discover that has this option too holds of its kind.
fn compare_held(option: &[u8], wanted: Option<u64>) {
    let mut octets = discover_with(option);
    let kind = *option.first().unwrap_or(&0);
    let held = held_in(octets.as_slice(), kind);
    same_of(option, held, Some(wanted));
    compare_damaged(octets.as_mut_slice());
}

// Each kind a byte shorter, of its length and a byte longer. The packet is a Discover already, which a type of another
// length leaves; a list may have any length.
#[test]
fn options_of_three_lengths() {
    const ROWS: &[(&[u8], Option<u64>)] = &[
        (&[1, 3, 255, 255, 255], None),
        (&[1, 4, 255, 255, 255, 0], Some(0xffff_ff00)),
        (&[1, 5, 255, 255, 255, 0, 0], None),
        (&[3, 3, 10, 0, 1], None),
        (&[3, 4, 10, 0, 1, 2], Some(0x0a00_0102)),
        (&[3, 5, 10, 0, 1, 2, 0], None),
        (&[50, 3, 10, 0, 1], None),
        (&[50, 4, 10, 0, 1, 3], Some(0x0a00_0103)),
        (&[50, 5, 10, 0, 1, 3, 0], None),
        (&[54, 3, 10, 0, 1], None),
        (&[54, 4, 10, 0, 1, 4], Some(0x0a00_0104)),
        (&[54, 5, 10, 0, 1, 4, 0], None),
        (&[51, 3, 0, 0x0e, 0x10], None),
        (&[51, 4, 0, 0, 0x0e, 0x10], Some(3600)),
        (&[51, 5, 0, 0, 0, 0x0e, 0x10], None),
        (&[57, 1, 0xdc], None),
        (&[57, 2, 0x05, 0xdc], Some(1500)),
        (&[57, 3, 0, 0x05, 0xdc], None),
        (&[58, 3, 0, 0x07, 0x08], None),
        (&[58, 4, 0, 0, 0x07, 0x08], Some(1800)),
        (&[58, 5, 0, 0, 0, 0x07, 0x08], None),
        (&[59, 3, 0, 0x0c, 0x4e], None),
        (&[59, 4, 0, 0, 0x0c, 0x4e], Some(3150)),
        (&[59, 5, 0, 0, 0, 0x0c, 0x4e], None),
        (&[53, 0], Some(1)),
        (&[53, 1, 3], Some(3)),
        (&[53, 2, 3, 3], Some(1)),
        (&[61, 6, 1, 2, 3, 4, 5, 6], None),
        (&[61, 7, 1, 2, 3, 4, 5, 6, 7], Some(0x0203_0405_0607)),
        (&[61, 8, 1, 2, 3, 4, 5, 6, 7, 8], None),
        (&[6, 3, 8, 8, 8], Some(0)),
        (&[6, 4, 8, 8, 8, 8], Some(1)),
        (&[6, 5, 8, 8, 8, 8, 9], Some(1)),
        (&[55, 0], Some(0)),
        (&[55, 1, 42], Some(1)),
        (&[55, 2, 42, 3], Some(2)),
    ];
    for &(option, wanted) in ROWS {
        compare_held(option, wanted);
    }
}
