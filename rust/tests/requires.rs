//! Calls whose "Requires" is not met. They panic where arithmetic that overflows does, as in a build for tests.
#![cfg(debug_assertions)]

use control_wire::NdiscOption;

#[test]
#[should_panic(expected = "overflow")]
fn link_layer_address_of_an_option_of_no_units_panics() {
    let octets = [1, 0, 0x52, 0x54, 0x00, 0x12, 0x34, 0x56, 0, 0];
    NdiscOption::new_unchecked(&octets).link_layer_addr();
}
