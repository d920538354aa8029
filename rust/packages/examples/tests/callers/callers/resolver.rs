// Made from crates/tests_examples/src/callers/resolver.rt by rust/erase.
//! A response of a real server for www.facebook.com: its canonical name, and the address of that.

use crate::testing::same;
use control_wire::Ipv4Address;
use control_wire::dns::{Rcode, Type};
use examples::resolver::{
    Address, Answers, Response, next_address, query, query_text, read_answers,
};

const NAME: [u8; 18] = [
    0x03, 0x77, 0x77, 0x77, 0x08, 0x66, 0x61, 0x63, 0x65, 0x62, 0x6f, 0x6f, 0x6b, 0x03, 0x63, 0x6f,
    0x6d, 0x00,
];

const RESPONSE: [u8; 79] = [
    0x78, 0x6c, 0x81, 0x80, 0x00, 0x01, 0x00, 0x02, 0x00, 0x00, 0x00, 0x00, 0x03, 0x77, 0x77, 0x77,
    0x08, 0x66, 0x61, 0x63, 0x65, 0x62, 0x6f, 0x6f, 0x6b, 0x03, 0x63, 0x6f, 0x6d, 0x00, 0x00, 0x01,
    0x00, 0x01, 0xc0, 0x0c, 0x00, 0x05, 0x00, 0x01, 0x00, 0x00, 0x05, 0xf3, 0x00, 0x11, 0x09, 0x73,
    0x74, 0x61, 0x72, 0x2d, 0x6d, 0x69, 0x6e, 0x69, 0x04, 0x63, 0x31, 0x30, 0x72, 0xc0, 0x10, 0xc0,
    0x2e, 0x00, 0x01, 0x00, 0x01, 0x00, 0x00, 0x00, 0x05, 0x00, 0x04, 0x1f, 0x0d, 0x53, 0x24,
];

#[test]
fn the_query_is_that_of_a_real_client() {
    let written = [
        0x51, 0x84, 0x01, 0x00, 0x00, 0x01, 0x00, 0x00, 0x00, 0x00, 0x00, 0x00, 0x06, 0x67, 0x6f,
        0x6f, 0x67, 0x6c, 0x65, 0x03, 0x63, 0x6f, 0x6d, 0x00, 0x00, 0x01, 0x00, 0x01,
    ];
    let mut out = [0xa5; 28];
    same(
        query(0x5184, b"\x06google\x03com\x00", Type::A, &mut out),
        Some(28),
    );
    same(out, written);
    let mut short = [0xa5; 27];
    same(
        query(0x5184, b"\x06google\x03com\x00", Type::A, &mut short),
        None,
    );
    same(short, [0xa5; 27]);
}

#[test]
fn the_address_of_an_alias() {
    let address = Ipv4Address::new(31, 13, 83, 36);
    has_addresses(&RESPONSE, 0x786c, &NAME, &[(address, 5)]);
}

// The answers of a response that is whole, and whether it is cut.
fn answers_of<'a>(
    message: &'a [u8],
    transaction_id: u16,
    name: &'a [u8],
    type_: Type,
) -> Option<(Answers<'a>, bool)> {
    match read_answers(message, transaction_id, name, type_) {
        Some(Response::Whole(answers)) => Some((answers, false)),
        Some(Response::Truncated(answers)) => Some((answers, true)),
        _ => None,
    }
}

// Ends the test unless the response has two answers, and these addresses in turn, of these seconds, and no other.
fn has_addresses(
    message: &[u8],
    transaction_id: u16,
    name: &[u8],
    addresses: &[(Ipv4Address, u32)],
) {
    let Some((all, truncated)) = answers_of(message, transaction_id, name, Type::A) else {
        panic!("no response");
    };
    same(truncated, false);
    same(all.left, 2);
    let mut left = all;
    for (address, ttl) in addresses {
        let Some((found, rest)) = next_address(left) else {
            panic!("no address");
        };
        same(found.address == Address::V4(*address), true);
        same(found.ttl, *ttl);
        left = rest;
    }
    same(next_address(left).is_none(), true);
}

#[test]
fn responses_to_others() {
    same(is_response(&RESPONSE, 0x786c, &NAME, Type::A), true);
    same(is_response(&RESPONSE, 0x786d, &NAME, Type::A), false);
    same(is_response(&RESPONSE, 0x786c, &NAME, Type::Aaaa), false);
    same(is_response(&RESPONSE, 0x786c, &NAME[4..], Type::A), false);
    same(is_response(&RESPONSE[..33], 0x786c, &NAME, Type::A), false);
    let mut asked = RESPONSE;
    asked[2] = 0x01;
    same(is_response(&asked, 0x786c, &NAME, Type::A), false);
}

fn is_response(message: &[u8], transaction_id: u16, name: &[u8], type_: Type) -> bool {
    read_answers(message, transaction_id, name, type_).is_some()
}

// How the query failed, where the response says so.
fn failure(message: &[u8], name: &[u8]) -> Option<Rcode> {
    match read_answers(message, 0x786c, name, Type::A) {
        Some(Response::Failed(code)) => Some(code),
        _ => None,
    }
}

// The last four bits of the word of flags are the outcome (RFC 1035 section 4.1.1).
#[test]
fn queries_that_failed() {
    const ROWS: &[(u8, Option<Rcode>)] = &[
        (0x80, None),
        (0x82, Some(Rcode::ServFail)),
        (0x83, Some(Rcode::NXDomain)),
        (0x85, Some(Rcode::Refused)),
    ];
    for &(low_flags, code) in ROWS {
        let mut failed = RESPONSE;
        failed[3] = low_flags;
        same(failure(&failed, &NAME), code);
    }
}

#[test]
fn a_truncated_response() {
    let mut cut = RESPONSE;
    cut[2] = 0x83;
    let truncated = match answers_of(&cut, 0x786c, &NAME, Type::A) {
        Some((_, truncated)) => truncated,
        None => false,
    };
    same(truncated, true);
}

// Servers answer in the case that they have (RFC 4343 section 4.1): the record is of another spelling of the name.
#[test]
fn names_in_either_case() {
    let address = Ipv4Address::new(10, 0, 0, 1);
    let other = Ipv4Address::new(10, 0, 0, 2);
    has_addresses(
        &TWO_ADDRESSES,
        0x1234,
        b"\x01A\x00",
        &[(address, 5), (other, 5)],
    );
    let mut spelled = RESPONSE;
    spelled[13] = 0x57;
    spelled[47] = 0x53;
    has_addresses(
        &spelled,
        0x786c,
        &NAME,
        &[(Ipv4Address::new(31, 13, 83, 36), 5)],
    );
    same(
        is_response(&TWO_ADDRESSES, 0x1234, b"\x01!\x00", Type::A),
        false,
    );
}

// A question for IPv6 addresses, to which an IPv4 address of the name is no answer.
#[test]
fn addresses_of_the_type_that_was_asked() {
    let mut asked = TWO_ADDRESSES;
    asked[16] = 0x1c;
    let none = match answers_of(&asked, 0x1234, b"\x01a\x00", Type::Aaaa) {
        Some((answers, _)) => next_address(answers).is_none(),
        None => false,
    };
    same(none, true);
}

#[test]
fn the_query_for_a_text() {
    let mut out = [0xa5; 28];
    same(
        query_text(0x5184, b"google.com.", Type::A, &mut out),
        Ok(Some(28)),
    );
    let mut of_octets = [0xa5; 28];
    same(
        query(0x5184, b"\x06google\x03com\x00", Type::A, &mut of_octets),
        Some(28),
    );
    same(out, of_octets);
    same(
        query_text(0x5184, b"google..com", Type::A, &mut out).is_err(),
        true,
    );
    let mut short = [0xa5; 27];
    same(
        query_text(0x5184, b"google.com", Type::A, &mut short),
        Ok(None),
    );
}

// The second record is cut, or is of another name: the canonical name of the first has no address then.
#[test]
fn no_address() {
    has_addresses(&RESPONSE[..78], 0x786c, &NAME, &[]);
    let mut other = RESPONSE;
    other[64] = 0x2f;
    has_addresses(&other, 0x786c, &NAME, &[]);
}

// A response with two addresses, each of the name that the question has, to which a pointer leads.
const TWO_ADDRESSES: [u8; 51] = [
    0x12, 0x34, 0x81, 0x80, 0x00, 0x01, 0x00, 0x02, 0x00, 0x00, 0x00, 0x00, 0x01, 0x61, 0x00, 0x00,
    0x01, 0x00, 0x01, 0xc0, 0x0c, 0x00, 0x01, 0x00, 0x01, 0x00, 0x00, 0x00, 0x05, 0x00, 0x04, 0x0a,
    0x00, 0x00, 0x01, 0xc0, 0x0c, 0x00, 0x01, 0x00, 0x01, 0x00, 0x00, 0x00, 0x05, 0x00, 0x04, 0x0a,
    0x00, 0x00, 0x02,
];

#[test]
fn both_addresses_of_a_name() {
    let addresses = [
        (Ipv4Address::new(10, 0, 0, 1), 5),
        (Ipv4Address::new(10, 0, 0, 2), 5),
    ];
    has_addresses(&TWO_ADDRESSES, 0x1234, b"\x01a\x00", &addresses);
}
