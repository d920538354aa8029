// Made from crates/tests_icmp_fields/src/icmp6.rt by rust/erase.
//! Messages of ICMPv6 by the pictures of RFC 4443 and RFC 8200, with a checksum of zero, which is not looked at.

use crate::testing::{holds_of, same_of};
use control_wire::quotes::message::Icmpv6Message;
use control_wire::{ChecksumCapabilities, Ipv6Address};
use icmp_fields::icmp6::{show_error, show_message, show_unread};
use packet_fields::Form;
#[allow(unused_imports)]
use rattle_std::prelude::*;

const ECHO_REPLY: &[u8] = &[0x81, 0x00, 0x00, 0x00, 0x00, 0x07, 0x01, 0x00];

const ECHO_REPLY_LINES: &str = "  type=129 (echo_reply)
  code=0
  ident=7
  seq_no=256
  data=-
";

const ECHO_REPLY_JSON: &str = ",\"type\":129,\"type_name\":\"echo_reply\",\"code\":0,\"ident\":7,\
    \"seq_no\":256,\"data\":\"\"";

// A datagram of UDP to a port that nothing listens to.
const PORT_UNREACHABLE: &[u8] = &[
    0x01, 0x04, 0x00, 0x00, 0x00, 0x00, 0x00, 0x00, 0x62, 0xe1, 0x23, 0x45, 0x00, 0x0a, 0x11, 0x40,
    0x20, 0x01, 0x0d, 0xb8, 0x00, 0x00, 0x00, 0x00, 0x00, 0x00, 0x00, 0x00, 0x00, 0x00, 0x00, 0x01,
    0x20, 0x01, 0x0d, 0xb8, 0x00, 0x00, 0x00, 0x00, 0x00, 0x00, 0x00, 0x00, 0x00, 0x00, 0x00, 0x02,
    0xc3, 0x50, 0x82, 0x9b, 0x00, 0x0a, 0xbe, 0xef, 0x68, 0x69,
];

const PORT_UNREACHABLE_LINES: &str = "  type=1 (destination_unreachable)
  code=4 (port_unreachable)
  quoted_traffic_class=46
  quoted_flow_label=74565
  quoted_payload_len=10
  quoted_hop_limit=64
  quoted_next_header=17 (udp)
  quoted_src_addr=2001:db8::1
  quoted_dst_addr=2001:db8::2
  quoted_src_port=50000
  quoted_dst_port=33435
  quoted_payload=c350829b000abeef6869
";

const PORT_UNREACHABLE_JSON: &str = ",\"type\":1,\"type_name\":\"destination_unreachable\",\
    \"code\":4,\"code_name\":\"port_unreachable\",\"quoted_traffic_class\":46,\
    \"quoted_flow_label\":74565,\"quoted_payload_len\":10,\"quoted_hop_limit\":64,\
    \"quoted_next_header\":17,\"quoted_next_header_name\":\"udp\",\
    \"quoted_src_addr\":\"2001:db8::1\",\"quoted_dst_addr\":\"2001:db8::2\",\
    \"quoted_src_port\":50000,\"quoted_dst_port\":33435,\
    \"quoted_payload\":\"c350829b000abeef6869\"";

// The same behind destination options of padding (RFC 8200 sections 4.2 and 4.6), and the end of what it prints.
const BEHIND_OPTIONS: &[u8] = &[
    0x01, 0x04, 0x00, 0x00, 0x00, 0x00, 0x00, 0x00, 0x60, 0x00, 0x00, 0x00, 0x00, 0x12, 0x3c, 0x40,
    0x20, 0x01, 0x0d, 0xb8, 0x00, 0x00, 0x00, 0x00, 0x00, 0x00, 0x00, 0x00, 0x00, 0x00, 0x00, 0x01,
    0x20, 0x01, 0x0d, 0xb8, 0x00, 0x00, 0x00, 0x00, 0x00, 0x00, 0x00, 0x00, 0x00, 0x00, 0x00, 0x02,
    0x11, 0x00, 0x01, 0x04, 0x00, 0x00, 0x00, 0x00, 0xc3, 0x50, 0x82, 0x9b, 0x00, 0x0a, 0xbe, 0xef,
    0x68, 0x69,
];

const BEHIND_OPTIONS_LINES: &str = "  quoted_next_header=60 (ipv6_opts)
  quoted_src_addr=2001:db8::1
  quoted_dst_addr=2001:db8::2
  quoted_protocol=17 (udp)
  quoted_src_port=50000
  quoted_dst_port=33435
  quoted_payload=1100010400000000c350829b000abeef6869
";

// Where the packet's own payload ends within the ports, and within the options.
const WITHOUT_PORTS_LINES: &str = "  quoted_protocol=17 (udp)
  quoted_src_port=none
  quoted_dst_port=none
  quoted_payload=1100010400000000c350829b000abeef6869
";

const WITHOUT_OPTIONS_LINES: &str = "  quoted_dst_addr=2001:db8::2
  quoted_src_port=none
  quoted_dst_port=none
  quoted_payload=1100010400000000c350829b000abeef6869
";

// The fields of a message in either form; empty where the octets are none.
fn listing(form: Form, octets: &[u8]) -> Vec<u8> {
    let mut output = Vec::new();
    let host = Ipv6Address::new(0x2001, 0xdb8, 0, 0, 0, 0, 0, 1);
    match Icmpv6Message::parse(&host, &host, octets, &ChecksumCapabilities::ignored()) {
        Ok(Icmpv6Message::Error(error)) => {
            let shown = show_error(&mut output, form, &error, true);
            holds_of(octets, shown.is_ok());
        }
        Ok(Icmpv6Message::Message(message)) => {
            let shown = show_message(&mut output, form, &message, octets);
            holds_of(octets, shown.is_ok());
        }
        Err(_) => (),
    }
    output
}

#[test]
fn echoes_and_errors() {
    let rows: &[(&[u8], &str, &str)] = &[
        (ECHO_REPLY, ECHO_REPLY_LINES, ECHO_REPLY_JSON),
        (
            PORT_UNREACHABLE,
            PORT_UNREACHABLE_LINES,
            PORT_UNREACHABLE_JSON,
        ),
    ];
    for &(octets, lines, json) in rows {
        let fields = listing(Form::Lines, octets);
        same_of(lines, fields.as_slice(), lines.as_bytes());
        let fields = listing(Form::Json, octets);
        same_of(json, fields.as_slice(), json.as_bytes());
    }
}

#[test]
fn mtu_and_pointer_of_errors() {
    let rows: &[(u8, u8, &[u8])] = &[
        (2, 0, b"  type=2 (packet_too_big)\n  code=0\n  mtu=1280\n"),
        (
            4,
            2,
            b"  type=4 (parameter_problem)\n  code=2 (unrecognized_ipv6_option)\n  pointer=1280\n",
        ),
    ];
    let mut octets = [0; 58];
    octets.copy_from_slice(PORT_UNREACHABLE);
    octets[6] = 0x05;
    for &(kind, code, want) in rows {
        octets[0] = kind;
        octets[1] = code;
        let fields = listing(Form::Lines, &octets);
        holds_of((kind, code), fields.as_slice().starts_with(want));
    }
}

#[test]
fn protocol_and_ports_behind_options_within_the_quoted_packet() {
    // The packet's own length, and what its quote prints.
    let rows: &[(u8, &str)] = &[
        (18, BEHIND_OPTIONS_LINES),
        (12, BEHIND_OPTIONS_LINES),
        (11, WITHOUT_PORTS_LINES),
        (8, WITHOUT_PORTS_LINES),
        (7, WITHOUT_OPTIONS_LINES),
    ];
    let mut octets = [0; 66];
    octets.copy_from_slice(BEHIND_OPTIONS);
    for &(payload_len, want) in rows {
        octets[13] = payload_len;
        let fields = listing(Form::Lines, &octets);
        holds_of(payload_len, fields.as_slice().ends_with(want.as_bytes()));
    }
}

#[test]
fn messages_of_other_types_by_their_octets() {
    let rows: &[(&[u8], &str)] = &[
        (
            &[157, 0, 0, 0, 0, 0, 0, 60],
            "  type=157 (duplicate_address_request)\n  code=0\n  rest=0000003c\n",
        ),
        (&[200, 1, 0, 0], "  type=200\n  code=1\n  rest=-\n"),
        (&[], "  rest=-\n"),
    ];
    for &(octets, want) in rows {
        let mut output = Vec::new();
        holds_of(
            octets,
            show_unread(&mut output, Form::Lines, octets, true).is_ok(),
        );
        same_of(want, output.as_slice(), want.as_bytes());
    }
}
