// Made from crates/tests_neighbor_fields/src/groups.rt by rust/erase.
//! Messages of multicast groups and of their listeners.

use crate::printed::{Kind, lacks, lines_are, members_are};
use neighbor_fields::Lack;

// The messages with a checksum are of the capture tests/captures/real/groups.pcap, with what tshark says of them; the
// others are by the pictures of RFC 2236 section 2, RFC 3376 section 4 and RFC 3810 section 5, with a checksum of zero.
const IGMP_REPORT: &[u8] = &[
    0x22, 0x00, 0x00, 0x00, 0x00, 0x00, 0x00, 0x03, 0x01, 0x00, 0x00, 0x02, 0xe0, 0x00, 0x00, 0xfb,
    0xc0, 0x00, 0x02, 0x01, 0xc0, 0x00, 0x02, 0x02, 0x04, 0x01, 0x00, 0x00, 0xef, 0x01, 0x02, 0x03,
    0xde, 0xad, 0xbe, 0xef,
];

const IGMP_REPORT_LINES: &str = "  type=34 (membership_report_v3)
  version=3
  mode_is_include=224.0.0.251 sources=192.0.2.1,192.0.2.2
  change_to_exclude_mode=239.1.2.3 sources=- aux_data=deadbeef
  refused=fewer records than the report counts
";

const IGMP_REPORT_JSON: &str = ",\"type\":34,\"type_name\":\"membership_report_v3\",\"version\":3,\"records\":[\
    {\"record\":\"mode_is_include\",\"group_addr\":\"224.0.0.251\",\"sources\":[\"192.0.2.1\",\"192.0.2.2\"],\
    \"type\":1},{\"record\":\"change_to_exclude_mode\",\"group_addr\":\"239.1.2.3\",\"sources\":[],\
    \"aux_data\":\"deadbeef\",\"type\":4}],\"refused\":\"fewer records than the report counts\"";

// A code of 0xff stands for 3174.4 seconds, and 0x8f for 248 seconds.
const IGMP_QUERY: &[u8] = &[
    0x11, 0xff, 0x00, 0x00, 0xef, 0x01, 0x02, 0x03, 0x0b, 0x8f, 0x00, 0x01, 0xc0, 0x00, 0x02, 0x01,
];

const IGMP_QUERY_LINES: &str = "  type=17 (membership_query)
  version=3
  max_resp_code=255
  max_resp_time=3174.400s
  group_addr=239.1.2.3
  s_flag=true
  qrv=3
  qqic=143
  querier_query_interval=248s
  sources=192.0.2.1
";

#[test]
fn igmp() {
    lines_are(Kind::Igmp, IGMP_REPORT, IGMP_REPORT_LINES);
    members_are(Kind::Igmp, IGMP_REPORT, IGMP_REPORT_JSON);
    lines_are(Kind::Igmp, IGMP_QUERY, IGMP_QUERY_LINES);
    let rows: &[(&[u8], &str)] = &[
        (
            &[0x12, 0x00, 0xfc, 0xfa, 0xef, 0x01, 0x02, 0x03],
            "  type=18 (membership_report_v1)
  version=1
  group_addr=239.1.2.3
",
        ),
        (
            &[0x16, 0x00, 0xf8, 0xfa, 0xef, 0x01, 0x02, 0x03],
            "  type=22 (membership_report_v2)
  version=2
  group_addr=239.1.2.3
",
        ),
        (
            &[0x17, 0x00, 0xf7, 0xfa, 0xef, 0x01, 0x02, 0x03],
            "  type=23 (leave_group)
  version=2
  group_addr=239.1.2.3
",
        ),
        (
            &[0x11, 0x64, 0xee, 0x9b, 0x00, 0x00, 0x00, 0x00],
            "  type=17 (membership_query)
  version=2
  max_resp_code=100
  max_resp_time=10s
  group_addr=0.0.0.0
",
        ),
        (
            &[0x11, 0x00, 0x00, 0x00, 0x00, 0x00, 0x00, 0x00],
            "  type=17 (membership_query)
  version=1
  max_resp_code=0
  max_resp_time=0s
  group_addr=0.0.0.0
",
        ),
        (
            &[
                0x11, 0x64, 0xec, 0x1e, 0x00, 0x00, 0x00, 0x00, 0x02, 0x7d, 0x00, 0x00,
            ],
            "  type=17 (membership_query)
  version=3
  max_resp_code=100
  max_resp_time=10s
  group_addr=0.0.0.0
  s_flag=false
  qrv=2
  qqic=125
  querier_query_interval=125s
  sources=-
",
        ),
        (
            &[
                0x22, 0x00, 0xe8, 0xf9, 0x00, 0x00, 0x00, 0x01, 0x04, 0x00, 0x00, 0x00, 0xef, 0x01,
                0x02, 0x03,
            ],
            "  type=34 (membership_report_v3)
  version=3
  change_to_exclude_mode=239.1.2.3 sources=-
",
        ),
        (
            &[
                0x22, 0x00, 0x00, 0x00, 0x00, 0x00, 0x00, 0x01, 0x07, 0x00, 0x00, 0x01, 0xef, 0x01,
                0x02, 0x03, 0xc0, 0x00, 0x02,
            ],
            "  type=34 (membership_report_v3)
  version=3
  record_7=000001ef010203c00002 refused=fewer bytes than the record counts
  refused=fewer records than the report counts
",
        ),
        (
            &[0x11, 0x64, 0x00, 0x00, 0x00, 0x00, 0x00, 0x00, 0x02, 0x7d],
            "  type=17 (membership_query)
  data=00000000027d
  refused=fewer bytes than the fields take
",
        ),
        (
            &[
                0x11, 0x64, 0x00, 0x00, 0x00, 0x00, 0x00, 0x00, 0x02, 0x7d, 0x00, 0x02, 0xc0, 0x00,
                0x02, 0x01, 0xc0, 0x00,
            ],
            "  type=17 (membership_query)
  version=3
  max_resp_code=100
  max_resp_time=10s
  group_addr=0.0.0.0
  s_flag=false
  qrv=2
  qqic=125
  querier_query_interval=125s
  sources=192.0.2.1
  refused=fewer sources than the query counts
  additional_data=c000
",
        ),
        (
            &[0x16, 0x00, 0xf8, 0xfa, 0xef, 0x01, 0x02, 0x03, 0x01],
            "  type=22 (membership_report_v2)
  version=2
  group_addr=239.1.2.3
  additional_data=01
",
        ),
        (
            &[0x13, 0x01, 0x00, 0x00, 0x00, 0x00, 0x00, 0x00],
            "  type=19 (dvmrp)
  code=1
  data=00000000
",
        ),
        (
            &[0x16, 0x00, 0xf8],
            "  data=1600f8
  refused=fewer bytes than the fields take
",
        ),
    ];
    for &(octets, lines) in rows {
        lines_are(Kind::Igmp, octets, lines);
    }
}

// The flag S, a robustness of 3, and two sources of which one is missing. A code of 0xffff stands for 8387.584 seconds.
const MLD_QUERY: &[u8] = &[
    0x82, 0x00, 0x00, 0x00, 0xff, 0xff, 0x00, 0x00, 0xff, 0x15, 0x00, 0x00, 0x00, 0x00, 0x00, 0x00,
    0x00, 0x00, 0x00, 0x00, 0x00, 0x01, 0x00, 0x03, 0x0b, 0x8f, 0x00, 0x02, 0x20, 0x01, 0x0d, 0xb8,
    0x00, 0x00, 0x00, 0x00, 0x00, 0x00, 0x00, 0x00, 0x00, 0x00, 0x00, 0x05,
];

const MLD_QUERY_LINES: &str = "  type=130 (multicast_listener_query)
  code=0
  version=2
  max_resp_code=65535
  max_resp_delay=8387.584s
  mcast_addr=ff15::1:3
  s_flag=true
  qrv=3
  qqic=143
  querier_query_interval=248s
  sources=2001:db8::5
  refused=fewer sources than the query counts
";

const MLD_QUERY_JSON: &str = ",\"type\":130,\"type_name\":\"multicast_listener_query\",\"code\":0,\"version\":2,\
    \"max_resp_code\":65535,\"max_resp_delay\":8387584,\"mcast_addr\":\"ff15::1:3\",\"s_flag\":true,\
    \"qrv\":3,\"qqic\":143,\"querier_query_interval\":248000,\"sources\":[\"2001:db8::5\"],\
    \"refused\":\"fewer sources than the query counts\"";

#[test]
fn mld() {
    lines_are(Kind::Mld, MLD_QUERY, MLD_QUERY_LINES);
    members_are(Kind::Mld, MLD_QUERY, MLD_QUERY_JSON);
    let rows: &[(&[u8], &str)] = &[
        (
            &[
                0x82, 0x00, 0x5a, 0x17, 0x27, 0x10, 0x00, 0x00, 0x00, 0x00, 0x00, 0x00, 0x00, 0x00,
                0x00, 0x00, 0x00, 0x00, 0x00, 0x00, 0x00, 0x00, 0x00, 0x00,
            ],
            "  type=130 (multicast_listener_query)
  code=0
  version=1
  max_resp_delay=10s
  mcast_addr=::
",
        ),
        (
            &[
                0x83, 0x00, 0x80, 0xf1, 0x00, 0x00, 0x00, 0x00, 0xff, 0x15, 0x00, 0x00, 0x00, 0x00,
                0x00, 0x00, 0x00, 0x00, 0x00, 0x00, 0x00, 0x01, 0x00, 0x03,
            ],
            "  type=131 (multicast_listener_report)
  code=0
  version=1
  max_resp_delay=0s
  mcast_addr=ff15::1:3
",
        ),
        (
            &[
                0x84, 0x00, 0x80, 0x06, 0x00, 0x00, 0x00, 0x00, 0xff, 0x15, 0x00, 0x00, 0x00, 0x00,
                0x00, 0x00, 0x00, 0x00, 0x00, 0x00, 0x00, 0x01, 0x00, 0x03,
            ],
            "  type=132 (multicast_listener_done)
  code=0
  version=1
  max_resp_delay=0s
  mcast_addr=ff15::1:3
",
        ),
        (
            &[
                0x82, 0x00, 0x57, 0x96, 0x27, 0x10, 0x00, 0x00, 0x00, 0x00, 0x00, 0x00, 0x00, 0x00,
                0x00, 0x00, 0x00, 0x00, 0x00, 0x00, 0x00, 0x00, 0x00, 0x00, 0x02, 0x7d, 0x00, 0x00,
            ],
            "  type=130 (multicast_listener_query)
  code=0
  version=2
  max_resp_code=10000
  max_resp_delay=10s
  mcast_addr=::
  s_flag=false
  qrv=2
  qqic=125
  querier_query_interval=125s
  sources=-
",
        ),
        // A part of a source of IPv6 that has as many octets as an address of IPv4.
        (
            &[
                0x82, 0x00, 0x13, 0xcd, 0x00, 0x00, 0x00, 0x00, 0xff, 0x02, 0x00, 0x00, 0x00, 0x00,
                0x00, 0x00, 0x00, 0x00, 0x00, 0x00, 0x00, 0x00, 0xab, 0xcd, 0x00, 0x00, 0x00, 0x01,
                0xc0, 0x00, 0x02, 0x01,
            ],
            "  type=130 (multicast_listener_query)
  code=0
  version=2
  max_resp_code=0
  max_resp_delay=0s
  mcast_addr=ff02::abcd
  s_flag=false
  qrv=0
  qqic=0
  querier_query_interval=0s
  sources=-
  refused=fewer sources than the query counts
  additional_data=c0000201
",
        ),
        (
            &[
                0x8f, 0x00, 0x42, 0x1e, 0x00, 0x00, 0x00, 0x01, 0x05, 0x00, 0x00, 0x01, 0xff, 0x15,
                0x00, 0x00, 0x00, 0x00, 0x00, 0x00, 0x00, 0x00, 0x00, 0x00, 0x00, 0x01, 0x00, 0x03,
                0x20, 0x01, 0x0d, 0xb8, 0x00, 0x00, 0x00, 0x00, 0x00, 0x00, 0x00, 0x00, 0x00, 0x00,
                0x00, 0x05,
            ],
            "  type=143 (version_2_multicast_listener_report)
  code=0
  version=2
  allow_new_sources=ff15::1:3 sources=2001:db8::5
",
        ),
        (
            &[
                0x8f, 0x00, 0x00, 0x00, 0x00, 0x00, 0x00, 0x01, 0x04, 0x01, 0x00, 0x00, 0xff, 0x15,
                0x00, 0x00, 0x00, 0x00, 0x00, 0x00, 0x00, 0x00, 0x00, 0x00, 0x00, 0x01, 0x00, 0x03,
                0x01, 0x02, 0x03, 0x04, 0xff,
            ],
            "  type=143 (version_2_multicast_listener_report)
  code=0
  version=2
  change_to_exclude_mode=ff15::1:3 sources=- aux_data=01020304
  additional_data=ff
",
        ),
        (
            &[0x83, 0x00, 0x00, 0x00, 0x00, 0x00],
            "  type=131 (multicast_listener_report)
  code=0
  data=0000
  refused=fewer bytes than the fields take
",
        ),
        (
            &[0x8f, 0x00, 0x00, 0x00, 0x00],
            "  type=143 (version_2_multicast_listener_report)
  code=0
  data=00
  refused=fewer bytes than the fields take
",
        ),
        (
            &[0x05, 0x01, 0x00, 0x00, 0x00, 0x01],
            "  type=5
  code=1
  data=0001
",
        ),
    ];
    for &(octets, lines) in rows {
        lines_are(Kind::Mld, octets, lines);
    }
}

// What ends early is told, and what is whole is not.
#[test]
fn messages_that_end_early() {
    let rows: &[(Kind, &[u8], Option<Lack>)] = &[
        (Kind::Igmp, IGMP_REPORT, Some(Lack::Records)),
        (Kind::Igmp, IGMP_QUERY, None),
        (Kind::Mld, MLD_QUERY, Some(Lack::Sources)),
        (Kind::Igmp, &[0x11, 0, 0, 0, 0, 0, 0, 0], None),
        (
            Kind::Igmp,
            &[0x11, 0, 0, 0, 0, 0, 0, 0, 0],
            Some(Lack::Fields),
        ),
        (Kind::Igmp, &[0x16, 0, 0, 0, 0, 0, 0], Some(Lack::Fields)),
        // A query of a source of which an octet is missing.
        (
            Kind::Igmp,
            &[0x11, 0, 0, 0, 0, 0, 0, 0, 0, 0, 0, 1, 192, 0, 2],
            Some(Lack::Sources),
        ),
        // A record, one with a word of auxiliary data that is cut, and a report of none with an octet behind it.
        (
            Kind::Igmp,
            &[0x22, 0, 0, 0, 0, 0, 0, 1, 4, 0, 0, 0, 239, 1, 2, 3],
            None,
        ),
        (
            Kind::Igmp,
            &[0x22, 0, 0, 0, 0, 0, 0, 1, 4, 1, 0, 0, 239, 1, 2, 3, 1, 2, 3],
            Some(Lack::Records),
        ),
        (Kind::Igmp, &[0x22, 0, 0, 0, 0, 0, 0, 0, 1], None),
        (Kind::Mld, &[143, 0, 0, 0, 0, 0, 0, 0], None),
        (Kind::Mld, &[143, 0, 0, 0, 0, 0, 0, 1], Some(Lack::Records)),
        (Kind::Mld, &[143, 0, 0, 0, 0, 0, 0], Some(Lack::Fields)),
        (Kind::Mld, &[130, 0, 0, 0, 0, 0, 0, 0], Some(Lack::Fields)),
    ];
    for &(kind, octets, lack) in rows {
        lacks(kind, octets, lack);
    }
}
