// Made from crates/tests_examples/src/callers/first.rt by rust/erase.
use crate::testing::same;
use examples::first::print_message;
#[allow(unused_imports)]
use rattle_std::prelude::*;

// Ends the test where these octets print another text.
fn check_prints(octets: &[u8], text: &str) {
    let mut output = Vec::new();
    same(print_message(&mut output, octets).is_ok(), true);
    same(output.as_slice(), text.as_bytes());
}

#[test]
fn a_message_is_printed() {
    let octets = b"\x08\x00\x8e\xfe\x12\x34\xab\xcd\xaa\x00\x00\xff";
    check_prints(octets, "ICMPv4 echo request id=4660 seq=43981 len=4\n");
}

#[test]
fn a_message_with_a_wrong_checksum_is_refused() {
    let octets = b"\x08\x00\x8e\xff\x12\x34\xab\xcd\xaa\x00\x00\xff";
    check_prints(octets, "refused\n");
}
