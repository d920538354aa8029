// Made from crates/tests_wiredump/src/wiredump/ndisc.rt by rust/erase.
//! Messages of neighbor discovery, inside ICMPv6.

use super::check;
use super::icmp6::BETWEEN;

#[test]
fn router_solicitations() {
    const ROWS: &[(&str, &str)] = &[
        ("85007db800000000", "RouterSolicit\nlladdr=none\n"),
        (
            "8500f5f2000000000101525400123456",
            "RouterSolicit\nlladdr=525400123456\n",
        ),
        // The address of another, and an option that has no name.
        (
            "8500f4f2000000000201525400123456",
            "RouterSolicit\nlladdr=none\n",
        ),
        (
            "85006faf000000000e01000000000000",
            "RouterSolicit\nlladdr=none\n",
        ),
        ("85007db10000000000000000000000", "refused\n"),
    ];
    check(BETWEEN, ROWS);
}

#[test]
fn router_advertisements() {
    const ROWS: &[(&str, &str)] = &[
        (
            "8600a9de4080038400000384000003840101525400123456",
            "RouterAdvert\nhop_limit=64\nflags=128\nrouter_lifetime=900000\n\
             reachable_time=900\nretrans_time=900\nlladdr=525400123456\nmtu=none\n\
             prefix_info=none\n",
        ),
        (
            "8600273300c00001000000020000000305010000000005dc030440c000000384000003e800000000\
             fe800000000000000000000000000001",
            "RouterAdvert\nhop_limit=0\nflags=192\nrouter_lifetime=1000\nreachable_time=2\n\
             retrans_time=3\nlladdr=none\nmtu=1500\nprefix_info.prefix_len=64\n\
             prefix_info.flags=192\nprefix_info.valid_lifetime=900000\n\
             prefix_info.preferred_lifetime=1000000\n\
             prefix_info.prefix=fe800000000000000000000000000001\n",
        ),
        // The last MTU that is read, none of two units, and a prefix of five.
        (
            "860062b000000000000000000000000005010000000005dc05010000000005000502000000000000\
             0000000000000000",
            "RouterAdvert\nhop_limit=0\nflags=0\nrouter_lifetime=0\nreachable_time=0\n\
             retrans_time=0\nlladdr=none\nmtu=1280\nprefix_info=none\n",
        ),
        (
            "8600779e00000000000000000000000005020000000000000000000000000000",
            "RouterAdvert\nhop_limit=0\nflags=0\nrouter_lifetime=0\nreachable_time=0\n\
             retrans_time=0\nlladdr=none\nmtu=none\nprefix_info=none\n",
        ),
        (
            "860032d5000000000000000000000000030540c000000384000003e800000000fe80000000000000\
             00000000000000010000000000000000",
            "RouterAdvert\nhop_limit=0\nflags=0\nrouter_lifetime=0\nreachable_time=0\n\
             retrans_time=0\nlladdr=none\nmtu=none\nprefix_info=none\n",
        ),
        // An option of no length, and a prefix of one unit.
        (
            "860077a80000000000000000000000000500000000000000",
            "refused\n",
        ),
        (
            "860079a70000000000000000000000000301000000000000",
            "refused\n",
        ),
    ];
    check(BETWEEN, ROWS);
}

#[test]
fn neighbor_solicitations_and_advertisements() {
    const ROWS: &[(&str, &str)] = &[
        (
            "87007d2500000000fe800000000000000000000000000002",
            "NeighborSolicit\ntarget_addr=fe800000000000000000000000000002\nlladdr=none\n",
        ),
        (
            "8700f55f00000000fe8000000000000000000000000000020101525400123456",
            "NeighborSolicit\ntarget_addr=fe800000000000000000000000000002\n\
             lladdr=525400123456\n",
        ),
        (
            "88007d24ff000000fe800000000000000000000000000002",
            "NeighborAdvert\nflags=224\ntarget_addr=fe800000000000000000000000000002\n\
             lladdr=none\n",
        ),
        (
            "8800535fa0000000fe8000000000000000000000000000020201525400123456",
            "NeighborAdvert\nflags=160\ntarget_addr=fe800000000000000000000000000002\n\
             lladdr=525400123456\n",
        ),
    ];
    check(BETWEEN, ROWS);
}

#[test]
fn redirects() {
    const ROWS: &[(&str, &str)] = &[
        (
            "89007c9300000000fe800000000000000000000000000002fe800000000000000000000000000001",
            "Redirect\ntarget_addr=fe800000000000000000000000000002\n\
             dest_addr=fe800000000000000000000000000001\nlladdr=none\nredirected_hdr=none\n",
        ),
        (
            "890009ac00000000fe800000000000000000000000000002fe800000000000000000000000000001\
             020152540012345604070000000000006000000000041140fe800000000000000000000000000001\
             fe800000000000000000000000000002aabbccdd00000000",
            "Redirect\ntarget_addr=fe800000000000000000000000000002\n\
             dest_addr=fe800000000000000000000000000001\nlladdr=525400123456\n\
             redirected_hdr.header.src_addr=fe800000000000000000000000000001\n\
             redirected_hdr.header.dst_addr=fe800000000000000000000000000002\n\
             redirected_hdr.header.next_header=17\nredirected_hdr.header.payload_len=4\n\
             redirected_hdr.header.hop_limit=64\nredirected_hdr.data=aabbccdd\n",
        ),
        // A redirected packet of version 4, and a code.
        (
            "8900335d00000000fe800000000000000000000000000002fe800000000000000000000000000001\
             04060000000000004500000000000000000000000000000000000000000000000000000000000000\
             0000000000000000",
            "Redirect\ntarget_addr=fe800000000000000000000000000002\n\
             dest_addr=fe800000000000000000000000000001\nlladdr=none\nredirected_hdr=none\n",
        ),
        (
            "89017c9200000000fe800000000000000000000000000002fe800000000000000000000000000001",
            "refused\n",
        ),
    ];
    check(BETWEEN, ROWS);
}
