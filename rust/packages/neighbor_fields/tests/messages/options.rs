// Made from crates/tests_neighbor_fields/src/options.rt by rust/erase.
//! Options of neighbor discovery of other standards than RFC 4861.

use crate::printed::{Kind, ends_with_line, members_are};
use crate::testing::same_of;
use neighbor_fields::ndisc::options::refusal;

// Router solicitations with an option: RFC 3971 section 5.3.2, RFC 4191 section 2.3, RFC 8106 sections 5.1 and 5.2,
// RFC 8910 sections 2.3 and 2, RFC 8781 section 4 with the prefix of RFC 6052 section 2.1. The routes are of 3, 2, 1
// and 2 units and of each preference; the lifetime of the second is infinite, and the last has bits beyond its length,
// which are no part of its prefix. A comma in a label is told by its number (RFC 1035 section 5.1).
const OPTIONS: &[(&[u8], &str)] = &[
    (
        &[
            133, 0, 0, 0, 0, 0, 0, 0, 14, 1, 0xd1, 0x9f, 0x4f, 0x85, 0x28, 0x8a,
        ],
        "  nonce=d19f4f85288a\n",
    ),
    (
        &[
            133, 0, 0, 0, 0, 0, 0, 0, 24, 3, 128, 0x18, 0, 0, 0x0e, 0x10, 0x20, 0x01, 0x0d, 0xb8,
            0, 0, 0, 0, 0, 0, 0, 0, 0, 0, 0, 7,
        ],
        "  route_information=2001:db8::7/128 preference=low lifetime=3600s\n",
    ),
    (
        &[
            133, 0, 0, 0, 0, 0, 0, 0, 24, 2, 64, 0xe7, 255, 255, 255, 255, 0x20, 0x01, 0x0d, 0xb8,
            0, 1, 0, 2,
        ],
        "  route_information=2001:db8:1:2::/64 preference=medium lifetime=4294967295s\n",
    ),
    (
        &[133, 0, 0, 0, 0, 0, 0, 0, 24, 1, 0, 0x10, 0, 0, 0, 0],
        "  route_information=::/0 preference=reserved lifetime=0s\n",
    ),
    (
        &[
            133, 0, 0, 0, 0, 0, 0, 0, 24, 2, 33, 0x08, 0, 0, 0x0e, 0x10, 0x20, 0x01, 0x0d, 0xb8,
            255, 255, 255, 255,
        ],
        "  route_information=2001:db8:8000::/33 preference=high lifetime=3600s\n",
    ),
    (
        &[
            133, 0, 0, 0, 0, 0, 0, 0, 25, 3, 0, 0, 0, 0, 0x07, 0x08, 0xfe, 0x80, 0, 0, 0, 0, 0, 0,
            0, 0, 0, 0, 0, 0, 0, 1,
        ],
        "  recursive_dns_server=fe80::1 lifetime=1800s\n",
    ),
    (
        &[
            133, 0, 0, 0, 0, 0, 0, 0, 31, 4, 0, 0, 0, 0, 0x07, 0x08, 7, b'e', b'x', b'a', b'm',
            b'p', b'l', b'e', 3, b'o', b'r', b'g', 0, 1, b'a', 2, b'b', b'.', 0, 0, 0, 0, 0, 0,
        ],
        "  dns_search_list=example.org.,a.b\\.. lifetime=1800s\n",
    ),
    (
        &[
            133, 0, 0, 0, 0, 0, 0, 0, 31, 2, 0, 0, 0, 0, 0x07, 0x08, 3, b'a', b',', b'b', 0, 1,
            b'c', 0,
        ],
        "  dns_search_list=a\\044b.,c. lifetime=1800s\n",
    ),
    (
        &[
            133, 0, 0, 0, 0, 0, 0, 0, 37, 2, b'h', b't', b't', b'p', b's', b':', b'/', b'/', b'a',
            b'.', b'b', 0, 0, 0,
        ],
        "  captive_portal=https://a.b\n",
    ),
    // A space is no character of a URI (RFC 3986 section 2), so that no URI reads as another field.
    (
        &[
            133, 0, 0, 0, 0, 0, 0, 0, 37, 2, b'u', b':', b'!', b'~', b' ', b'a', b'=', 0x7f, b'b',
            b' ', 0, 0, 0, 0,
        ],
        "  captive_portal=u:!~\\x20a=\\x7fb\\x20\n",
    ),
    (
        &[
            133, 0, 0, 0, 0, 0, 0, 0, 38, 2, 0x07, 0x08, 0, 0x64, 0xff, 0x9b, 0, 0, 0, 0, 0, 0, 0,
            0,
        ],
        "  pref64=64:ff9b::/96 lifetime=1800s\n",
    ),
];

#[test]
fn options_of_other_standards() {
    for &(octets, line) in OPTIONS {
        ends_with_line(Kind::Ndisc, octets, line);
    }
}

// The units that a type allows, the bits and the code of a prefix, and names that end, that have too long a label, or
// that have other bytes than padding behind them.
const REFUSED: &[(&[u8], &str)] = &[
    (
        &[
            133, 0, 0, 0, 0, 0, 0, 0, 24, 4, 0, 0, 0, 0, 0, 1, 0, 0, 0, 0, 0, 0, 0, 0, 0, 0, 0, 0,
            0, 0, 0, 0, 0, 0, 0, 0, 0, 0, 0, 0,
        ],
        "  route_information=000000000001000000000000000000000000000000000000000000000000 \
            refused=more than 24 bytes\n",
    ),
    (
        &[
            133, 0, 0, 0, 0, 0, 0, 0, 24, 2, 65, 0, 0, 0, 0, 1, 0x20, 0x01, 0x0d, 0xb8, 0, 1, 0, 2,
        ],
        "  route_information=41000000000120010db800010002 refused=too many bits for the prefix\n",
    ),
    (
        &[133, 0, 0, 0, 0, 0, 0, 0, 25, 1, 0, 0, 0, 0, 0, 1],
        "  recursive_dns_server=000000000001 refused=fewer than 24 bytes\n",
    ),
    (
        &[
            133, 0, 0, 0, 0, 0, 0, 0, 25, 4, 0, 0, 0, 0, 0, 1, 0, 0, 0, 0, 0, 0, 0, 0, 0, 0, 0, 0,
            0, 0, 0, 0, 0, 0, 0, 0, 0, 0, 0, 0,
        ],
        "  recursive_dns_server=000000000001000000000000000000000000000000000000000000000000 \
            refused=no whole number of addresses\n",
    ),
    (
        &[133, 0, 0, 0, 0, 0, 0, 0, 31, 1, 0, 0, 0, 0, 0, 1],
        "  dns_search_list=000000000001 refused=fewer than 16 bytes\n",
    ),
    (
        &[
            133, 0, 0, 0, 0, 0, 0, 0, 31, 2, 0, 0, 0, 0, 0, 1, 1, b'a', 5, b'l', b'o', b'c', b'a',
            b'l',
        ],
        "  dns_search_list=0000000000010161056c6f63616c refused=the octets end before the name does\n",
    ),
    (
        &[
            133, 0, 0, 0, 0, 0, 0, 0, 31, 2, 0, 0, 0, 0, 0, 1, 1, b'a', 0, 0xc0, 0, 0, 0, 0,
        ],
        "  dns_search_list=000000000001016100c000000000 refused=a label of more than 63 bytes\n",
    ),
    (
        &[
            133, 0, 0, 0, 0, 0, 0, 0, 31, 2, 0, 0, 0, 0, 0x07, 0x08, 1, b'a', 0, 0, 1, b'b', 0, 0,
        ],
        "  dns_search_list=0000000007080161000001620000 refused=other bytes than zeros behind the names\n",
    ),
    (
        &[
            133, 0, 0, 0, 0, 0, 0, 0, 31, 2, 0, 0, 0, 0, 0x07, 0x08, 0, 0, 0, 0, 0, 0, 0, 1,
        ],
        "  dns_search_list=0000000007080000000000000001 refused=other bytes than zeros behind the names\n",
    ),
    (
        &[
            133, 0, 0, 0, 0, 0, 0, 0, 38, 2, 0, 6, 0, 0x64, 0xff, 0x9b, 0, 0, 0, 0, 0, 0, 0, 0,
        ],
        "  pref64=00060064ff9b0000000000000000 refused=no prefix length has the code 6\n",
    ),
    (
        &[
            133, 0, 0, 0, 0, 0, 0, 0, 38, 3, 0, 7, 0, 0x64, 0xff, 0x9b, 0, 0, 0, 0, 0, 0, 0, 0, 0,
            0, 0, 0, 0, 0, 0, 0,
        ],
        "  pref64=00070064ff9b00000000000000000000000000000000 refused=not 16 bytes\n",
    ),
];

#[test]
fn options_of_another_form() {
    for &(octets, line) in REFUSED {
        ends_with_line(Kind::Ndisc, octets, line);
    }
}

// The codes of the lengths of prefixes (RFC 8781 section 4), each with a lifetime of 65528 seconds; bits beyond a
// length are no part of its prefix.
#[test]
fn lengths_of_nat64_prefixes() {
    let rows: &[(u8, &str)] = &[
        (
            0xf8,
            "  pref64=2001:db8:ffff:ffff:ffff:ffff::/96 lifetime=65528s\n",
        ),
        (0xf9, "  pref64=2001:db8:ffff:ffff::/64 lifetime=65528s\n"),
        (0xfa, "  pref64=2001:db8:ffff:ff00::/56 lifetime=65528s\n"),
        (0xfb, "  pref64=2001:db8:ffff::/48 lifetime=65528s\n"),
        (0xfc, "  pref64=2001:db8:ff00::/40 lifetime=65528s\n"),
        (0xfd, "  pref64=2001:db8::/32 lifetime=65528s\n"),
        (
            0xff,
            "  pref64=ffff20010db8ffffffffffffffff refused=no prefix length has the code 7\n",
        ),
    ];
    let mut octets = [
        133, 0, 0, 0, 0, 0, 0, 0, 38, 2, 0xff, 0, 0x20, 0x01, 0x0d, 0xb8, 255, 255, 255, 255, 255,
        255, 255, 255,
    ];
    for &(low, line) in rows {
        octets[11] = low;
        ends_with_line(Kind::Ndisc, &octets, line);
    }
}

// A name has at most 255 octets, with the lengths of its labels and the zero at its end (RFC 1035 section 2.3.4): here
// three labels of 63 bytes, and another whose length is told to be 61, 62 or 64.
#[test]
fn longest_name_of_a_search_list() {
    let rows: &[(u8, Option<&str>)] = &[
        (61, None),
        (62, Some("a name of more than 255 bytes")),
        (64, Some("a label of more than 63 bytes")),
    ];
    let mut octets = [0; 272];
    octets[0] = 31;
    octets[1] = 34;
    for place in [8, 72, 136] {
        octets[place] = 63;
    }
    for &(len, why) in rows {
        octets[200] = len;
        same_of(len, refusal(&octets), why);
    }
}

// A route, two servers, a search list without names, and a URI of which some bytes are escaped, as members.
#[test]
fn members_of_options_of_other_standards() {
    let octets = &[
        133, 0, 0, 0, 0, 0, 0, 0, 24, 1, 0, 8, 0, 0, 0, 60, 25, 5, 0, 0, 0, 0, 0, 60, 0x20, 0x01,
        0x0d, 0xb8, 0, 0, 0, 0, 0, 0, 0, 0, 0, 0, 0, 1, 0x20, 0x01, 0x0d, 0xb8, 0, 0, 0, 0, 0, 0,
        0, 0, 0, 0, 0, 2, 31, 2, 0, 0, 0, 0, 0, 60, 0, 0, 0, 0, 0, 0, 0, 0, 37, 1, b'"', b' ',
        0xe9, b'\\', 0, 0,
    ];
    let json = ",\"type\":133,\"type_name\":\"router_solicitation\",\"code\":0,\"options\":[\
        {\"option\":\"route_information\",\"prefix\":\"::/0\",\"preference\":\"high\",\"lifetime\":60000,\
        \"type\":24},{\"option\":\"recursive_dns_server\",\"servers\":[\"2001:db8::1\",\"2001:db8::2\"],\
        \"lifetime\":60000,\"type\":25},{\"option\":\"dns_search_list\",\"names\":[],\"lifetime\":60000,\
        \"type\":31},{\"option\":\"captive_portal\",\"uri\":\"\\\\\\\"\\\\x20\\\\xe9\\\\\\\\\",\"type\":37}]";
    members_are(Kind::Ndisc, octets, json);
}
