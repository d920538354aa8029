// Made from crates/tests_wiredump/src/wiredump/dhcp.rt by rust/erase.
//! Packets of DHCP.

use super::{append, check_line, joined};
#[allow(unused_imports)]
use rattle_std::prelude::*;

// What a packet has between the client's hardware address and the cookie.
const ZEROS: &str = "000000000000000000000000000000000000000000000000000000000000000000000000000000000000000000\
    000000000000000000000000000000000000000000000000000000000000000000000000000000000000000000\
    000000000000000000000000000000000000000000000000000000000000000000000000000000000000000000\
    000000000000000000000000000000000000000000000000000000000000000000000000000000000000000000\
    00000000000000000000000000000000000000000000";

// The header of a packet of this operation that says nothing else.
const REQUEST: &str = "01010600000000000000000000000000000000000000000000000000000000000000";

const REPLY: &str = "02010600000000000000000000000000000000000000000000000000000000000000";

const UNKNOWN: &str = "00010600000000000000000000000000000000000000000000000000000000000000";

// A packet that says of each field what it may.
const WHOLE: &str = "0201060012345678010280000a00000a0a00000b0a00000c0a00000d525400123456";

// The fields in turn, and what is printed of those of which a packet says nothing.
const FIELDS: &[(&str, &str)] = &[
    ("message_type=", ""),
    ("transaction_id=", "0"),
    ("secs=", "0"),
    ("client_hardware_address=", "000000000000"),
    ("client_ip=", "0.0.0.0"),
    ("your_ip=", "0.0.0.0"),
    ("server_ip=", "0.0.0.0"),
    ("router=", "none"),
    ("subnet_mask=", "none"),
    ("relay_agent_ip=", "0.0.0.0"),
    ("broadcast=", "false"),
    ("requested_ip=", "none"),
    ("client_identifier=", "none"),
    ("server_identifier=", "none"),
    ("parameter_request_list=", "none"),
    ("dns_servers=", "none"),
    ("max_size=", "none"),
    ("lease_duration=", "none"),
    ("renew_duration=", "none"),
    ("rebind_duration=", "none"),
];

// What follows this name.
fn said_of<'a>(said: &'a str, name: &str) -> Option<&'a str> {
    for field in said.split(' ') {
        if let Some(value) = field.strip_prefix(name) {
            return Some(value);
        }
    }
    None
}

// The fields with these in the place of what is printed of none.
fn listing(said: &str) -> String {
    let mut text = String::new();
    for (name, default) in FIELDS {
        for part in [name, said_of(said, name).unwrap_or(default), "\n"] {
            append(&mut text, part, 1);
        }
    }
    text
}

// Packets of a header and options, each with the fields of which it says something.
fn check_fields(header: &str, rows: &[(&str, &str)]) {
    for (options, said) in rows {
        let line = line_with(header, options);
        let want = listing(said);
        check_line(line.as_str(), want.as_str());
    }
}

// A line of a packet with this header and these options.
fn line_with(header: &str, options: &str) -> String {
    joined(&["dhcp ", header, ZEROS, "63825363", options])
}

#[test]
fn dhcp_messages_by_their_type() {
    const REQUESTS: &[(&str, &str)] = &[
        ("350101ff", "message_type=1"),
        ("350103ff", "message_type=3"),
        ("350104ff", "message_type=4"),
        ("350107ff", "message_type=7"),
        ("350108ff", "message_type=8"),
        // The last that a client sends.
        ("350101350102ff", "message_type=1"),
        ("350101350103ff", "message_type=3"),
        ("3501013502030300ff", "message_type=1"),
    ];
    check_fields(REQUEST, REQUESTS);
    const REPLIES: &[(&str, &str)] = &[
        ("350102ff", "message_type=2"),
        ("350105ff", "message_type=5"),
        ("350106ff", "message_type=6"),
    ];
    check_fields(REPLY, REPLIES);
    const OTHERS: &[(&str, &str)] = &[("350109ff", "message_type=9"), ("350100", "message_type=0")];
    check_fields(UNKNOWN, OTHERS);
}

#[test]
fn dhcp_options() {
    const REQUESTS: &[(&str, &str)] = &[
        (
            "3501010104ffffff000104ffff0000ff",
            "message_type=1 subnet_mask=255.255.0.0",
        ),
        // A mask of three octets, and an identifier of the server that is cut short.
        (
            "3501010104ffffff00010300000036040a",
            "message_type=1 subnet_mask=255.255.255.0",
        ),
        (
            "35010106003700ff",
            "message_type=1 parameter_request_list=- dns_servers=-",
        ),
        (
            "3501010606080808080102ff",
            "message_type=1 dns_servers=8.8.8.8",
        ),
        (
            "35010106180a0000010a0000020a0000030a0000040a0000050a000006ff",
            "message_type=1 dns_servers=10.0.0.1,10.0.0.2,10.0.0.3,10.0.0.4,10.0.0.5",
        ),
        ("3501013d020001ff", "message_type=1"),
        (
            "3501013d07015254001234563204c0a8000139020240370401030642ff",
            "message_type=1 requested_ip=192.168.0.1 client_identifier=525400123456 \
             parameter_request_list=01030642 max_size=576",
        ),
    ];
    check_fields(REQUEST, REQUESTS);
    const REPLIES: &[(&str, &str)] = &[(
        "350105330400000e103a04000007083b0400000c4eff",
        "message_type=5 lease_duration=3600 renew_duration=1800 rebind_duration=3150",
    )];
    check_fields(REPLY, REPLIES);
}

#[test]
fn dhcp_packets_refused() {
    const OPTIONS: &[&str] = &["350102ff", "ff", "3501013d0702000000000000ff"];
    for options in OPTIONS {
        let line = line_with(REQUEST, options);
        check_line(line.as_str(), "refused\n");
    }
    check_line("dhcp -", "refused\n");
}

#[test]
fn dhcp_packet_with_every_field() {
    let options = "35010203040a0000010104ffffff0032040a0000033d070152540012345736040a0000023703010\
        30606080a0000050a000006390205dc330400000e103a04000007083b0400000c4eff";
    let line = line_with(WHOLE, options);
    let want = "message_type=2\ntransaction_id=305419896\nsecs=258\n\
        client_hardware_address=525400123456\nclient_ip=10.0.0.10\nyour_ip=10.0.0.11\n\
        server_ip=10.0.0.12\nrouter=10.0.0.1\nsubnet_mask=255.255.255.0\n\
        relay_agent_ip=10.0.0.13\nbroadcast=true\nrequested_ip=10.0.0.3\n\
        client_identifier=525400123457\nserver_identifier=10.0.0.2\n\
        parameter_request_list=010306\ndns_servers=10.0.0.5,10.0.0.6\nmax_size=1500\n\
        lease_duration=3600\nrenew_duration=1800\nrebind_duration=3150\n";
    check_line(line.as_str(), want);
}
