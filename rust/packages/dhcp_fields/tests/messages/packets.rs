// Made from crates/tests_dhcp_fields/src/packets.rt by rust/erase.
//! Packets by the pictures of RFC 2131 section 2, RFC 2132 and RFC 3396.

use crate::testing::{holds_of, joined, prints, same_of};
use control_wire::dhcp_options::Area;
use dhcp_fields::Refusal;
use packet_fields::Form;
#[allow(unused_imports)]
use rattle_std::prelude::*;

// A reply without addresses, up to its hardware address.
const REPLY: &[u8] =
    b"\x02\x01\x06\x00\x00\x00\x00\x00\x00\x00\x00\x00\x00\x00\x00\x00\x00\x00\x00\x00\x00\x00\
    \x00\x00\x00\x00\x00\x00\x00\x00\x00\x00\x00\x00\x00\x00\x00\x00\x00\x00\x00\x00\x00\x00";

const REPLY_LINES: &str = "  op=2 (bootreply)
  htype=1 (ethernet)
  hlen=6
  hops=0
  transaction_id=0
  secs=0s
  flags=-
  client_ip=0.0.0.0
  your_ip=0.0.0.0
  server_ip=0.0.0.0
  relay_agent_ip=0.0.0.0
  client_hardware_address=00:00:00:00:00:00
";

const COOKIE: &[u8] = b"\x63\x82\x53\x63";

// What stands behind the hardware address, before zeros in sname and file.
#[derive(Clone, Copy)]
struct Fields {
    sname: &'static [u8],
    file: &'static [u8],
    cookie: &'static [u8],
    options: &'static [u8],
}

// The zeros that fill a field of this length.
fn rest(field: &[u8], len: usize) -> &'static [u8] {
    const ZEROS: &[u8] = &[0; 128];
    ZEROS.get(field.len()..len).unwrap_or(&[])
}

// Compares what a reply with these fields prints in lines, behind its fixed fields.
fn reply_prints(fields: Fields, lines: &str, refused: Option<Refusal>) {
    let parts: &[&[u8]] = &[
        REPLY,
        fields.sname,
        rest(fields.sname, 64),
        fields.file,
        rest(fields.file, 128),
        fields.cookie,
        fields.options,
    ];
    let octets = joined(parts);
    let text = joined(&[REPLY_LINES.as_bytes(), lines.as_bytes()]);
    prints(Form::Lines, octets.as_slice(), text.as_slice(), refused);
}

const PLAIN: Fields = Fields {
    sname: b"",
    file: b"",
    cookie: COOKIE,
    options: b"\xff",
};

// The example of RFC 3396 section 8.
#[test]
fn a_name_in_two_parts() {
    let fields = Fields {
        options: b"\x43\x07/diskle\x0c\x04host\x43\x06ss/foo\xff",
        ..PLAIN
    };
    let lines = "  bootfile_name=/diskless/foo\n  host_name=host\n";
    reply_prints(fields, lines, None);
}

#[test]
fn names_of_server_and_file_where_these_hold_no_options() {
    let rows: &[(&'static [u8], &str)] = &[
        (
            b"\xff",
            "  server_name=\\x0c\\x01s\\xff\n  boot_file=\\x0f\\x01f\\xff\n",
        ),
        (
            b"\x34\x01\x01\xff",
            "  server_name=\\x0c\\x01s\\xff\n  option_overload=1\n  domain_name=f\n",
        ),
        (
            b"\x34\x01\x02\xff",
            "  boot_file=\\x0f\\x01f\\xff\n  option_overload=2\n  host_name=s\n",
        ),
        (
            b"\x34\x01\x03\xff",
            "  option_overload=3\n  domain_name=f\n  host_name=s\n",
        ),
    ];
    for &(options, lines) in rows {
        let fields = Fields {
            sname: b"\x0c\x01s\xff",
            file: b"\x0f\x01f\xff",
            options,
            ..PLAIN
        };
        reply_prints(fields, lines, None);
    }
}

#[test]
fn a_name_of_all_bytes_of_its_field() {
    let fields = Fields {
        sname: &[b'a'; 64],
        ..PLAIN
    };
    let lines = "  server_name=aaaaaaaaaaaaaaaaaaaaaaaaaaaaaaaaaaaaaaaaaaaaaaaaaaaaaaaaaaaaaaaa\n";
    reply_prints(fields, lines, None);
}

// Values of each format, one of a length that does not fit its format, and a kind that has no name.
#[test]
fn values_of_options() {
    let rows: &[(&'static [u8], &str)] = &[
        (b"\x01\x04\xff\xff\xff\x00", "  subnet_mask=255.255.255.0\n"),
        (b"\x01\x03\xff\xff\xff", "  subnet_mask=ffffff\n"),
        (
            b"\x03\x08\xc0\x00\x02\x01\xc0\x00\x02\x02",
            "  router=192.0.2.1,192.0.2.2\n",
        ),
        (b"\x03\x00", "  router=-\n"),
        (b"\x33\x04\xff\xff\xff\xff", "  lease_time=4294967295s\n"),
        (b"\x1a\x02\x05\xdc", "  interface_mtu=1500\n"),
        (b"\x17\x01\x40", "  default_ttl=64\n"),
        (b"\x35\x01\x08", "  message_type=8 inform\n"),
        (b"\x35\x01\x22", "  message_type=34\n"),
        (
            b"\x0f\x0ba \"b\\\n\x00\x7f~\xc3\xbc",
            "  domain_name=a \\\"b\\\\\\x0a\\x00\\x7f~\\xc3\\xbc\n",
        ),
        (b"\x0f\x00", "  domain_name=\n"),
        (b"\x37\x03\x01\x03\x06", "  parameter_request_list=1,3,6\n"),
        (b"\x37\x00", "  parameter_request_list=-\n"),
        (b"\x3d\x02\x00\xab", "  client_identifier=00ab\n"),
        (b"\x50\x00", "  rapid_commit=-\n"),
        (b"\x6c\x04\x00\x00\x07\x08", "  ipv6_only_preferred=1800s\n"),
        (b"\xe0\x01\x2a", "  option_224=2a\n"),
    ];
    for &(options, lines) in rows {
        reply_prints(Fields { options, ..PLAIN }, lines, None);
    }
}

#[test]
fn an_option_that_is_cut() {
    let options = Fields {
        file: b"\x0c\x01f",
        options: b"\x34\x01\x01\x0f\x02d",
        ..PLAIN
    };
    let cut = control_wire::dhcp_options::Refusal {
        area: Area::Options,
        kind: 15,
    };
    let lines =
        "  option_overload=1\n  host_name=f\n  refused=option 15 is cut at the end of options\n";
    reply_prints(options, lines, Some(Refusal::OptionCut(cut)));
}

#[test]
fn a_packet_without_the_magic_cookie() {
    let fields = Fields {
        sname: b"boot.example",
        cookie: b"\x00\x00\x00\x00",
        options: b"\x35\x01\x02",
        ..PLAIN
    };
    let lines = "  server_name=boot.example\n  refused=the magic cookie is missing\n  rest=00000000350102\n";
    reply_prints(fields, lines, Some(Refusal::MagicCookie));
}

const HEAD: &[u8] = b"\x2b\xff";

const PART: &[u8] = &[0; 255];

// Behind five parts of 255 bytes, one of 225 or 226.
#[test]
fn an_option_of_1500_bytes_or_more_in_parts() {
    let rows: &[(&[u8], &[u8], &[u8])] = &[
        (b"\x2b\xe1", &[0; 225], &[b'0'; 3_000]),
        (
            b"\x2b\xe2",
            &[0; 226],
            b"- refused=more than 1500 bytes in parts",
        ),
    ];
    for &(head, last, value) in rows {
        let parts: &[&[u8]] = &[
            REPLY, &[0; 192], COOKIE, HEAD, PART, HEAD, PART, HEAD, PART, HEAD, PART, HEAD, PART,
            head, last,
        ];
        let octets = joined(parts);
        let key: &[u8] = b"  vendor_specific_information=";
        let lines = [REPLY_LINES.as_bytes(), key, value, b"\n"];
        let lines = joined(&lines);
        prints(Form::Lines, octets.as_slice(), lines.as_slice(), None);
    }
}

const OTHER_LINES: &[u8] = b"  op=3
  htype=32 (infiniband)
  hlen=0
  hops=1
  transaction_id=0
  secs=65535s
  flags=broadcast
  reserved_flags=16385
  client_ip=0.0.0.0
  your_ip=0.0.0.0
  server_ip=0.0.0.0
  relay_agent_ip=0.0.0.0
  client_hardware_address=
";

// In RFC 4390 a packet over InfiniBand has no hardware address.
#[test]
fn other_hardware_and_flags() {
    let mut octets = [0; 240];
    octets[..4].copy_from_slice(&[3, 32, 0, 1]);
    octets[8..12].copy_from_slice(&[0xff, 0xff, 0xc0, 0x01]);
    octets[236..].copy_from_slice(COOKIE);
    prints(Form::Lines, &octets, OTHER_LINES, None);
}

const LONG_ADDRESS_LINES: &[u8] = b"  op=0
  htype=0
  hlen=17
  hops=0
  transaction_id=0
  secs=0s
  flags=-
  client_ip=0.0.0.0
  your_ip=0.0.0.0
  server_ip=0.0.0.0
  relay_agent_ip=0.0.0.0
  client_hardware_address=00:00:00:00:00:00:00:00:00:00:00:00:00:00:00:00
  refused=fewer than 240 bytes
  rest=-
";

// A packet that is cut right behind its hardware address, or before the end of that.
#[test]
fn packets_of_fewer_than_240_bytes() {
    let mut octets = [0; 44];
    octets[2] = 17;
    let short = Some(Refusal::Short);
    prints(Form::Lines, &octets, LONG_ADDRESS_LINES, short);
    let rows: &[(&[u8], &[u8])] = &[
        (b"", b"  refused=fewer than 240 bytes\n  rest=-\n"),
        (
            b"\x02\x01",
            b"  refused=fewer than 240 bytes\n  rest=0201\n",
        ),
    ];
    for &(octets, lines) in rows {
        prints(Form::Lines, octets, lines, short);
    }
}

// The texts of the crates that read packets and options.
#[test]
fn texts_of_refusals() {
    let cut = control_wire::dhcp_options::Refusal {
        area: Area::Sname,
        kind: 12,
    };
    let rows: &[(Refusal, &str)] = &[
        (Refusal::Short, "fewer than 240 bytes"),
        (Refusal::MagicCookie, "the magic cookie is missing"),
        (
            Refusal::OptionCut(cut),
            "option 12 is cut at the end of sname",
        ),
    ];
    for &(refusal, text) in rows {
        match refusal.to_string_in() {
            Ok(shown) => same_of(text, shown.as_str(), text),
            Err(_) => holds_of(text, false),
        }
    }
}
