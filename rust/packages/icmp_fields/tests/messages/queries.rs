// Made from crates/tests_icmp_fields/src/queries.rt by rust/erase.
//! Messages of both ICMPs that are neither errors nor echoes, by the pictures of RFC 792, RFC 950, RFC 1256, RFC 4620
//! and RFC 8335, with a checksum of zero, which is not looked at.

use crate::testing::{holds_of, same_of};
use icmp_fields::refusal::{Refusal, Told};
use icmp_fields::{icmp4, icmp6};
use packet_fields::Form;
#[allow(unused_imports)]
use rattle_std::prelude::*;

// A reply to a timestamp, whose transmit timestamp is no time of day (RFC 792).
const TIMESTAMP_REPLY: &[u8] = &[
    0x0e, 0x00, 0x00, 0x00, 0x00, 0x07, 0x00, 0x01, 0x02, 0x93, 0x2e, 0x00, 0x02, 0x93, 0x2e, 0x01,
    0x80, 0x00, 0x00, 0x01,
];

const TIMESTAMP_REPLY_LINES: &str = "  type=14 (timestamp_reply)
  code=0
  ident=7
  seq_no=1
  originate=43200000
  receive=43200001
  transmit=2147483649
";

const TIMESTAMP_REPLY_JSON: &str = ",\"type\":14,\"type_name\":\"timestamp_reply\",\"code\":0,\
    \"ident\":7,\"seq_no\":1,\"originate\":43200000,\"receive\":43200001,\
    \"transmit\":2147483649";

// An address mask (RFC 950) with an octet behind it.
const ADDRESS_MASK: &[u8] = &[
    0x12, 0x00, 0x00, 0x00, 0x00, 0x07, 0x00, 0x01, 0xff, 0xff, 0xff, 0x00, 0x05,
];

const ADDRESS_MASK_LINES: &str = "  type=18 (address_mask_reply)
  code=0
  ident=7
  seq_no=1
  mask=255.255.255.0
  additional_data=05
";

const ADDRESS_MASK_JSON: &str = ",\"type\":18,\"type_name\":\"address_mask_reply\",\"code\":0,\
    \"ident\":7,\"seq_no\":1,\"mask\":\"255.255.255.0\",\"additional_data\":\"05\"";

// Two routers, valid for 1,800 seconds, the second with the lowest preference level, in entries of three words
// (RFC 1256).
const ROUTERS: &[u8] = &[
    0x09, 0x00, 0x00, 0x00, 0x02, 0x03, 0x07, 0x08, 0xc0, 0x00, 0x02, 0x01, 0x00, 0x00, 0x00, 0x05,
    0xca, 0xfe, 0xba, 0xbe, 0xc0, 0x00, 0x02, 0x02, 0x80, 0x00, 0x00, 0x00, 0x00, 0x00, 0x00, 0x00,
];

const ROUTERS_LINES: &str = "  type=9 (router_advertisement)
  code=0 (normal)
  lifetime=1800s
  router=192.0.2.1 preference_level=5 additional_data=cafebabe
  router=192.0.2.2 preference_level=-2147483648 additional_data=00000000
";

const ROUTERS_JSON: &str = ",\"type\":9,\"type_name\":\"router_advertisement\",\"code\":0,\
    \"code_name\":\"normal\",\"lifetime\":1800000,\"routers\":[{\"entry\":\"router\",\
    \"addr\":\"192.0.2.1\",\"preference_level\":\"5\",\"additional_data\":\"cafebabe\"},\
    {\"entry\":\"router\",\"addr\":\"192.0.2.2\",\"preference_level\":\"-2147483648\",\
    \"additional_data\":\"00000000\"}]";

// Three routers are counted; the second is cut, and the third is missing.
const CUT_ROUTERS: &[u8] = &[
    0x09, 0x00, 0x00, 0x00, 0x03, 0x02, 0x07, 0x08, 0xc0, 0x00, 0x02, 0x01, 0x00, 0x00, 0x00, 0x05,
    0xc0, 0x00, 0x02, 0x02, 0x80,
];

const CUT_ROUTERS_LINES: &str = "  type=9 (router_advertisement)
  code=0 (normal)
  lifetime=1800s
  router=192.0.2.1 preference_level=5
  router=c000020280 refused=fewer bytes than an entry has
  refused=the entries are cut short
";

const CUT_ROUTERS_JSON: &str = ",\"type\":9,\"type_name\":\"router_advertisement\",\"code\":0,\
    \"code_name\":\"normal\",\"lifetime\":1800000,\"routers\":[{\"entry\":\"router\",\
    \"addr\":\"192.0.2.1\",\"preference_level\":\"5\"},{\"entry\":\"router\",\
    \"data\":\"c000020280\",\"refused\":\"fewer bytes than an entry has\"}],\
    \"refused\":\"the entries are cut short\"";

// A request about an interface of the receiver by its name, of seven characters and a zero (RFC 8335).
const BY_NAME: &[u8] = &[
    0x2a, 0x00, 0x00, 0x00, 0x12, 0x34, 0x07, 0x01, 0x20, 0x00, 0x00, 0x00, 0x00, 0x0c, 0x03, 0x01,
    0x67, 0x65, 0x2d, 0x30, 0x2f, 0x31, 0x22, 0x00,
];

const BY_NAME_LINES: &str = "  type=42 (extended_echo_request)
  code=0 (no_error)
  ident=4660
  seq_no=7
  local=true
  interface_name=ge-0/1\\\"
";

const BY_NAME_JSON: &str = ",\"type\":42,\"type_name\":\"extended_echo_request\",\"code\":0,\
    \"code_name\":\"no_error\",\"ident\":4660,\"seq_no\":7,\"local\":true,\"interface_name\":\"ge-0/1\\\\\\\"\"";

// A request about an interface of a node beside the receiver, by its address of IPv4 (RFC 8335).
const BY_ADDRESS: &[u8] = &[
    0xa0, 0x00, 0x00, 0x00, 0x12, 0x34, 0x07, 0x00, 0x20, 0x00, 0x00, 0x00, 0x00, 0x0c, 0x03, 0x03,
    0x00, 0x01, 0x04, 0x00, 0xc0, 0x00, 0x02, 0x01,
];

const BY_ADDRESS_LINES: &str = "  type=160 (extended_echo_request)
  code=0 (no_error)
  ident=4660
  seq_no=7
  local=false
  interface_addr_family=1 (ipv4)
  interface_addr=192.0.2.1
";

const BY_ADDRESS_JSON: &str = ",\"type\":160,\"type_name\":\"extended_echo_request\",\
    \"code\":0,\"code_name\":\"no_error\",\"ident\":4660,\"seq_no\":7,\"local\":false,\
    \"interface_addr_family\":1,\
    \"interface_addr_family_name\":\"ipv4\",\"interface_addr\":\"192.0.2.1\"";

// The answer that a node beside the one that answers is reachable, and runs both protocols (RFC 8335).
const REACHABLE: &[u8] = &[0xa1, 0x00, 0x00, 0x00, 0x12, 0x34, 0x07, 0x47];

const REACHABLE_LINES: &str = "  type=161 (extended_echo_reply)
  code=0 (no_error)
  ident=4660
  seq_no=7
  state=2 (reachable)
  active=true
  ipv4=true
  ipv6=true
";

const REACHABLE_JSON: &str = ",\"type\":161,\"type_name\":\"extended_echo_reply\",\"code\":0,\
    \"code_name\":\"no_error\",\"ident\":4660,\"seq_no\":7,\"state\":2,\
    \"state_name\":\"reachable\",\"active\":true,\"ipv4\":true,\"ipv6\":true";

// A query for the addresses of a node, of global and link-local scope (RFC 4620).
const NODE_QUERY: &[u8] = &[
    0x8b, 0x00, 0x00, 0x00, 0x00, 0x03, 0x00, 0x28, 0x01, 0x02, 0x03, 0x04, 0x05, 0x06, 0x07, 0x08,
    0x20, 0x01, 0x0d, 0xb8, 0x00, 0x00, 0x00, 0x00, 0x00, 0x00, 0x00, 0x00, 0x00, 0x00, 0x00, 0x01,
];

const NODE_QUERY_LINES: &str = "  type=139 (node_information_query)
  code=0 (ipv6_address)
  qtype=3 (node_addresses)
  flags=global_scope,link_local
  nonce=0102030405060708
  subject_addr=2001:db8::1
";

const NODE_QUERY_JSON: &str = ",\"type\":139,\"type_name\":\"node_information_query\",\
    \"code\":0,\"code_name\":\"ipv6_address\",\"qtype\":3,\"qtype_name\":\"node_addresses\",\
    \"flags\":[\"global_scope\",\"link_local\"],\"nonce\":\"0102030405060708\",\
    \"subject_addr\":\"2001:db8::1\"";

// An address of the node with its time to live, and one that is cut.
const NODE_ANSWER: &[u8] = &[
    0x8c, 0x00, 0x00, 0x00, 0x00, 0x03, 0x00, 0x01, 0x01, 0x02, 0x03, 0x04, 0x05, 0x06, 0x07, 0x08,
    0x00, 0x00, 0x0e, 0x10, 0x20, 0x01, 0x0d, 0xb8, 0x00, 0x00, 0x00, 0x00, 0x00, 0x00, 0x00, 0x00,
    0x00, 0x00, 0x00, 0x01, 0x00, 0x00, 0x00, 0x01, 0x20, 0x01, 0x0d,
];

const NODE_ANSWER_LINES: &str = "  type=140 (node_information_response)
  code=0 (success)
  qtype=3 (node_addresses)
  flags=truncated
  nonce=0102030405060708
  address=2001:db8::1 ttl=3600s
  address=0000000120010d refused=fewer bytes than an address and its time to live
  refused=the entries are cut short
";

const NODE_ANSWER_JSON: &str = ",\"type\":140,\"type_name\":\"node_information_response\",\
    \"code\":0,\"code_name\":\"success\",\"qtype\":3,\"qtype_name\":\"node_addresses\",\
    \"flags\":[\"truncated\"],\"nonce\":\"0102030405060708\",\
    \"addresses\":[{\"entry\":\"address\",\"addr\":\"2001:db8::1\",\
    \"ttl\":3600000},{\"entry\":\"address\",\"data\":\"0000000120010d\",\
    \"refused\":\"fewer bytes than an address and its time to live\"}],\
    \"refused\":\"the entries are cut short\"";

// The fields of a message of ICMPv6, or else of ICMPv4.
fn listing(form: Form, is_v6: bool, octets: &[u8]) -> Vec<u8> {
    let mut output = Vec::new();
    let shown = if is_v6 {
        icmp6::show_unread(&mut output, form, octets, true)
    } else {
        icmp4::show_unread(&mut output, form, octets, true)
    };
    holds_of(octets, shown.is_ok());
    output
}

// Ends the test where a message does not print these lines and these members.
fn prints(is_v6: bool, octets: &[u8], lines: &str, json: &str) {
    let fields = listing(Form::Lines, is_v6, octets);
    same_of(lines, fields.as_slice(), lines.as_bytes());
    let fields = listing(Form::Json, is_v6, octets);
    same_of(json, fields.as_slice(), json.as_bytes());
}

#[test]
fn queries_and_answers() {
    let rows: &[(&[u8], &str, &str)] = &[
        (TIMESTAMP_REPLY, TIMESTAMP_REPLY_LINES, TIMESTAMP_REPLY_JSON),
        (ADDRESS_MASK, ADDRESS_MASK_LINES, ADDRESS_MASK_JSON),
        (ROUTERS, ROUTERS_LINES, ROUTERS_JSON),
        (BY_NAME, BY_NAME_LINES, BY_NAME_JSON),
        (BY_ADDRESS, BY_ADDRESS_LINES, BY_ADDRESS_JSON),
        (REACHABLE, REACHABLE_LINES, REACHABLE_JSON),
        (NODE_QUERY, NODE_QUERY_LINES, NODE_QUERY_JSON),
    ];
    for &(octets, lines, json) in rows {
        // Types of ICMPv6 that are no errors begin at 128.
        prints(octets[0] >= 128, octets, lines, json);
    }
}

#[test]
fn lists_that_are_cut() {
    let (lines, json) = (CUT_ROUTERS_LINES, CUT_ROUTERS_JSON);
    prints(false, CUT_ROUTERS, lines, json);
    let (lines, json) = (NODE_ANSWER_LINES, NODE_ANSWER_JSON);
    prints(true, NODE_ANSWER, lines, json);
}

// What stands behind type and code, in lines.
#[test]
fn what_follows_the_code() {
    let rows: &[(bool, &[u8], &str)] = &[
        // A solicitation of routers has nothing but zeros.
        (false, &[10, 0, 0, 0, 0, 0, 0, 0], ""),
        (
            false,
            &[10, 0, 0, 0, 0, 0, 0, 0, 9],
            "  additional_data=09\n",
        ),
        (false, &[13, 0, 0, 0, 0, 7, 0], "  rest=000700\n"),
        (
            false,
            &[13, 1, 0, 0, 0, 7, 0, 1],
            "  rest=00070001\n  refused=code 1 is not 0\n",
        ),
        (
            false,
            &[17, 0, 0, 0, 0, 7, 0, 1, 255, 255, 255],
            "  rest=00070001ffffff\n  refused=fewer bytes than a message of this type has\n",
        ),
        (
            false,
            &[9, 0, 0, 0, 0, 2, 0, 60],
            "  rest=0002003c\n  refused=an advertisement of no routers\n",
        ),
        (
            false,
            &[9, 0, 0, 0, 1, 1, 0, 60, 192, 0, 2, 1],
            "  rest=0101003cc0000201\n  refused=entries of fewer than 2 words each (1)\n",
        ),
        (
            false,
            &[9, 1, 0, 0, 1, 2, 0, 60, 192, 0, 2, 1, 0, 0, 0, 0],
            "  code=1\n  rest=0102003cc000020100000000\n  refused=code 1 is not 0\n",
        ),
        // A mobility agent that routes no common traffic (RFC 5944 section 2.1).
        (
            false,
            &[9, 16, 0, 0, 1, 2, 0, 60, 192, 0, 2, 1, 0, 0, 0, 0],
            "  code=16 (no_common_traffic)\n  lifetime=60s\n  router=192.0.2.1 preference_level=0\n",
        ),
        (
            false,
            &[9, 16, 0, 0, 0, 2, 0, 60],
            "  code=16 (no_common_traffic)\n  rest=0002003c\n  refused=an advertisement of no routers\n",
        ),
        // A router that is missing, and one of three words that ends behind the second.
        (
            false,
            &[9, 0, 0, 0, 1, 2, 0, 60],
            "  code=0 (normal)\n  lifetime=60s\n  refused=the entries are cut short\n",
        ),
        (
            false,
            &[9, 0, 0, 0, 1, 3, 0, 60, 192, 0, 2, 1, 0, 0, 0, 0],
            "  router=c000020100000000 refused=fewer bytes than an entry has\n  refused=the entries are cut short\n",
        ),
        (
            false,
            &[40, 5, 0, 0, 0, 0, 0, 7, 0, 0, 1, 0],
            "  type=40 (photuris)\n  code=5 (need_authorization)\n  rest=0000000700000100\n",
        ),
        (
            true,
            &[139, 0, 0, 0, 0, 3, 0, 0, 1, 2, 3, 4, 5, 6, 7],
            "  rest=0003000001020304050607\n  refused=fewer bytes than a message of this type has\n",
        ),
        // A name of a node is told by its octets, and so are the names of an answer.
        (
            true,
            &[139, 1, 0, 0, 0, 0, 0, 1, 1, 2, 3, 4, 5, 6, 7, 8, 1, 97, 0],
            "  qtype=0 (noop)\n  flags=0x0001\n  nonce=0102030405060708\n  data=016100\n",
        ),
        (
            true,
            &[
                139, 2, 0, 0, 0, 4, 0, 2, 1, 2, 3, 4, 5, 6, 7, 8, 192, 0, 2, 1,
            ],
            "  qtype=4 (ipv4_addresses)\n  flags=all\n  nonce=0102030405060708\n  subject_addr=192.0.2.1\n",
        ),
        (
            true,
            &[140, 1, 0, 0, 0, 3, 0, 0, 1, 2, 3, 4, 5, 6, 7, 8],
            "  qtype=3 (node_addresses)\n  flags=-\n  nonce=0102030405060708\n  data=-\n",
        ),
    ];
    for &(is_v6, octets, want) in rows {
        let fields = listing(Form::Lines, is_v6, octets);
        holds_of(want, fields.as_slice().ends_with(want.as_bytes()));
    }
}

#[test]
fn why_messages_are_refused() {
    let rows: &[(&[u8], Option<Refusal>)] = &[
        (&[13, 3, 0, 0, 0, 0, 0, 0], Some(Refusal::Code(3))),
        (&[14, 0, 0, 0, 0, 0, 0, 0], Some(Refusal::Length)),
        (&[10, 0, 0, 0, 0, 0, 0, 0], None),
        (&[9, 15, 0, 0, 1, 2, 0, 0], Some(Refusal::Code(15))),
        (&[9, 16, 0, 0, 1, 2, 0, 0], Some(Refusal::Cut)),
        (&[9, 17, 0, 0, 1, 2, 0, 0], Some(Refusal::Code(17))),
        (&[9, 0, 0, 0, 0, 0, 0, 0], Some(Refusal::NoRouters)),
        (&[9, 0, 0, 0, 1, 0, 0, 0], Some(Refusal::EntrySize(0))),
        (&[9, 0, 0, 0, 1, 2, 0, 0], Some(Refusal::Cut)),
        // The code of an extended echo is not looked at, and other types are refused by their readers.
        (&[42, 1, 0, 0, 0, 0, 0, 0], None),
        (&[8, 1, 0, 0, 0, 0, 0, 0], None),
    ];
    for &(octets, want) in rows {
        same_of(octets, icmp4::refusal(octets), want);
    }
    same_of(
        139,
        icmp6::refusal(&[139, 0, 0, 0, 0, 0, 0, 0]),
        Some(Refusal::Length),
    );
    same_of(160, icmp6::refusal(&[160, 0, 0, 0, 0, 0, 0, 0]), None);
}

// Lists that end within an entry, or before all that are counted, are refused.
#[test]
fn how_lists_are_told() {
    let cut = Told::Refused(Refusal::Cut);
    same_of(ROUTERS, icmp4::told(ROUTERS), Told::Fields);
    same_of(CUT_ROUTERS, icmp4::told(CUT_ROUTERS), cut);
    same_of(NODE_ANSWER, icmp6::told(NODE_ANSWER), cut);
    // Answers of so many octets, by the type of their query: whole addresses of IPv6 and of IPv4, and parts of one.
    let rows: &[(u8, usize, Told)] = &[
        (3, 16, Told::Fields),
        (3, 17, cut),
        (3, 24, cut),
        (3, 36, Told::Fields),
        (4, 23, cut),
        (4, 24, Told::Fields),
        (4, 25, cut),
        // The octets of a name are no list.
        (2, 23, Told::Fields),
    ];
    for &(qtype, len, want) in rows {
        let mut octets = [0; 36];
        octets[0] = 140;
        octets[5] = qtype;
        same_of(len, icmp6::told(&octets[..len]), want);
    }
}
