// Made from crates/tests_wiredump/src/wiredump/icmp4.rt by rust/erase.
//! Messages of ICMPv4 and of IGMP.

use super::{check, check_with_data};

#[test]
fn echoes_of_icmpv4() {
    const ROWS: &[(&str, &str)] = &[
        (
            "08008efe1234abcdaa0000ff",
            "EchoRequest\nident=4660\nseq_no=43981\ndata=aa0000ff\n",
        ),
        (
            "08008ffd1234abcdaa00",
            "EchoRequest\nident=4660\nseq_no=43981\ndata=aa00\n",
        ),
        (
            "0800e9581234abcdaa0000ffa5a5",
            "EchoRequest\nident=4660\nseq_no=43981\ndata=aa0000ffa5a5\n",
        ),
        (
            "0800f8fe00000000ff",
            "EchoRequest\nident=0\nseq_no=0\ndata=ff\n",
        ),
        ("0000ffff00000000", "EchoReply\nident=0\nseq_no=0\ndata=-\n"),
        // A code, and a checksum that is not there.
        ("080139fd1234abcd", "refused\n"),
        ("000141fd1234abcd", "refused\n"),
        ("08008eff1234abcdaa0000ff", "refused\n"),
        ("0000000000000000", "refused\n"),
        ("-", "refused\n"),
    ];
    check("icmp4", ROWS);
}

// A datagram from 10.0.0.1 to 10.0.0.2, and what a message that quotes it prints of it.
const QUOTE: &str = "4500001c00004000401126cf0a0000010a0000020035003500080000";

const QUOTED: &str = "header.src_addr=10.0.0.1\nheader.dst_addr=10.0.0.2\nheader.next_header=17\n\
    header.payload_len=8\nheader.hop_limit=64\ndata=0035003500080000\n";

#[test]
fn errors_of_icmpv4() {
    const ROWS: &[(&str, &str)] = &[
        ("0303fc8a00000000", "DstUnreachable\nreason=3\n"),
        ("0b00f48d00000000", "TimeExceeded\nreason=0\n"),
        ("0b01f48c00000000", "TimeExceeded\nreason=1\n"),
    ];
    check_with_data("icmp4", ROWS, QUOTE, QUOTED);
}

#[test]
fn types_of_icmpv4_that_are_not_read() {
    const ROWS: &[(&str, &str)] = &[
        ("0500fa8d00000000", "refused\n"),
        ("0900f68d00000000", "refused\n"),
        ("0a00f58d00000000", "refused\n"),
        ("0c00f38d00000000", "refused\n"),
        ("0d00f28d00000000", "refused\n"),
        ("0e00f18d00000000", "refused\n"),
    ];
    check_with_data("icmp4", ROWS, QUOTE, "");
}

#[test]
fn errors_of_icmpv4_by_their_quote() {
    const ROWS: &[(&str, &str)] = &[
        // The quote's own checksum is not looked at.
        (
            "0303235a000000004500001c00004000401100000a0000010a0000020035003500080000",
            "DstUnreachable\nreason=3\nheader.src_addr=10.0.0.1\nheader.dst_addr=10.0.0.2\n\
             header.next_header=17\nheader.payload_len=8\nheader.hop_limit=64\n\
             data=0035003500080000\n",
        ),
        // What follows the quoted datagram belongs to the data.
        (
            "0303fc8e000000004500001800004000401126cf0a0000010a0000020035003500080000",
            "DstUnreachable\nreason=3\nheader.src_addr=10.0.0.1\nheader.dst_addr=10.0.0.2\n\
             header.next_header=17\nheader.payload_len=8\nheader.hop_limit=64\n\
             data=0035003500080000\n",
        ),
        // A header of no words: the whole quote is its data.
        (
            "0303018b000000004000001c00004000401126cf0a0000010a0000020035003500080000",
            "DstUnreachable\nreason=3\nheader.src_addr=10.0.0.1\nheader.dst_addr=10.0.0.2\n\
             header.next_header=17\nheader.payload_len=28\nheader.hop_limit=64\n\
             data=4000001c00004000401126cf0a0000010a0000020035003500080000\n",
        ),
        // A datagram that is longer than the quote, and one of seven octets.
        (
            "0303fc82000000004500002400004000401126cf0a0000010a0000020035003500080000",
            "refused\n",
        ),
        (
            "0303fc8b000000004500001b00004000401126cf0a0000010a00000200350035000800",
            "refused\n",
        ),
    ];
    check("icmp4", ROWS);
}

#[test]
fn messages_of_igmp() {
    const ROWS: &[(&str, &str)] = &[
        (
            "1180ee7f00000000",
            "MembershipQuery\nmax_resp_time=12800\ngroup_addr=0.0.0.0\nversion=2\n",
        ),
        (
            "1100eeff00000000",
            "MembershipQuery\nmax_resp_time=0\ngroup_addr=0.0.0.0\nversion=1\n",
        ),
        (
            "117f0000e0000001",
            "MembershipQuery\nmax_resp_time=12700\ngroup_addr=224.0.0.1\nversion=2\n",
        ),
        (
            "11fe0000effffffa",
            "MembershipQuery\nmax_resp_time=3072000\ngroup_addr=239.255.255.250\nversion=2\n",
        ),
        (
            "11ff000000000000ffff",
            "MembershipQuery\nmax_resp_time=3174400\ngroup_addr=0.0.0.0\nversion=2\n",
        ),
        (
            "160008dae1000025",
            "MembershipReport\ngroup_addr=225.0.0.37\nversion=2\n",
        ),
        (
            "12000000e1000025",
            "MembershipReport\ngroup_addr=225.0.0.37\nversion=1\n",
        ),
        ("17000269e0000696", "LeaveGroup\ngroup_addr=224.0.6.150\n"),
        ("17a50000e0000696", "LeaveGroup\ngroup_addr=224.0.6.150\n"),
        ("160000000a000001", "refused\n"),
        ("16000000f0000001", "refused\n"),
        ("22000000e0000001", "refused\n"),
        ("-", "refused\n"),
    ];
    check("igmp", ROWS);
}
