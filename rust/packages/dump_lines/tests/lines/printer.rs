// Made from crates/tests_wiredump/src/printer.rt by rust/erase.
//! Lines and fields, by the values that they are of.

use crate::testing::{holds_of, same_of};
use listing::printer::{Value, field, line, part_field};
#[allow(unused_imports)]
use rattle_std::prelude::*;

// A field of this value prints its name, `=` and this.
fn check_field<V: Value>(value: V, want: &str) {
    let mut output = Vec::new();
    holds_of(want, field(&mut output, "delay", value).is_ok());
    same_of(want, output.as_slice(), want.as_bytes());
}

#[test]
fn fields_of_values() {
    check_field(0u8, "delay=0\n");
    check_field(10u8, "delay=10\n");
    check_field(99u8, "delay=99\n");
    check_field(100u8, "delay=100\n");
    check_field(101u8, "delay=101\n");
    check_field(u8::MAX, "delay=255\n");
    check_field(1_280u16, "delay=1280\n");
    check_field(9_999u16, "delay=9999\n");
    check_field(10_000u16, "delay=10000\n");
    check_field(u32::MAX, "delay=4294967295\n");
    check_field(u64::MAX, "delay=18446744073709551615\n");
    check_field(4_294_967_295usize, "delay=4294967295\n");
    check_field(true, "delay=true\n");
    check_field(false, "delay=false\n");
    check_field(None::<u32>, "delay=none\n");
    check_field(Some(64u8), "delay=64\n");
    check_field(b"".as_slice(), "delay=-\n");
    check_field(b"\xfe\x80\0\x01".as_slice(), "delay=fe800001\n");
}

#[test]
fn lines_and_fields_of_parts() {
    let mut output = Vec::new();
    holds_of("name", line(&mut output, "Redirect").is_ok());
    holds_of("octets", line(&mut output, b"\x61".as_slice()).is_ok());
    let number = part_field(
        &mut output,
        "redirected_hdr.header.",
        "payload_len",
        1_280u16,
    );
    holds_of("number", number.is_ok());
    let data = part_field(&mut output, "redirected_hdr.", "data", b"".as_slice());
    holds_of("data", data.is_ok());
    let want = "Redirect\n61\nredirected_hdr.header.payload_len=1280\nredirected_hdr.data=-\n";
    same_of("all", output.as_slice(), want.as_bytes());
}
