// Made from crates/tests_pcapdump/src/pcapdump/packets.rt by rust/erase.
//! A capture of a packet of each kind, and what it prints by the manual.

use crate::testing::holds_of;
#[allow(unused_imports)]
use rattle_std::prelude::*;

/// The bytes of the header of a pcap file.
pub const HEADER_LEN: usize = 24;

// The bytes before each packet of a pcap file.
const RECORD_HEADER_LEN: usize = 16;

// Raw IP.
const RAW_IP: u32 = 101;

// 12:34:56 UTC on the 1st of May of 2024, in seconds since 1970.
const START: u32 = 1_714_566_896;

/// The digits of packets of raw IP, a second after each other, and what each prints.
pub const PACKETS: &[(&str, &str)] = &[
    // ICMPv4, asked for an answer.
    (
        "45000020123440004001a472c0000201c0000235080021041234000161626364",
        "1 2024-05-01T12:34:56.000000000Z 192.0.2.1 > 192.0.2.53 icmp4\n\
            \x20 type=8 (echo_request)\n\
            \x20 code=0\n\
            \x20 ident=4660\n\
            \x20 seq_no=1\n\
            \x20 data=61626364\n",
    ),
    // TCP, which prints nothing.
    (
        "45000028123440004006a465c0000201c00002359c40005000000001000000005002200000000000",
        "",
    ),
    // A query of multicast listener discovery, behind hop-by-hop options.
    (
        "6000000000340001fe800000000000000000000000000001ff0200000000000000000000000000163a00050200000100\
            820045d904000000ff0200000000000000000001ff0000010a12000120010db8000000000000000000000053",
        "3 2024-05-01T12:34:58.000000000Z fe80::1 > ff02::16 hbh icmp6\n\
            \x20 router_alert=0 value_name=mld\n\
            \x20 padn=-\n\
            \x20 type=130 (multicast_listener_query)\n\
            \x20 code=0\n\
            \x20 version=2\n\
            \x20 max_resp_code=1024\n\
            \x20 max_resp_delay=1.024s\n\
            \x20 mcast_addr=ff02::1:ff00:1\n\
            \x20 s_flag=true\n\
            \x20 qrv=2\n\
            \x20 qqic=18\n\
            \x20 querier_query_interval=18s\n\
            \x20 sources=2001:db8::53\n",
    ),
    // UDP with one bit wrong.
    (
        "45000028123440004011a45ac0000201c00002359c4000350014df19000000000000000000000001",
        "4 2024-05-01T12:34:59.000000000Z 192.0.2.1:40000 > 192.0.2.53:53 dns\n\
            \x20 checksum=bad\n\
            \x20 transaction_id=0\n\
            \x20 flags=-\n\
            \x20 opcode=0 (QUERY)\n\
            \x20 rcode=0 (NOERROR)\n\
            \x20 additional=none octets=- refused=the name is cut\n",
    ),
    // Multicast DNS.
    (
        "45000072123440004011854ac0000201e00000fb14e914e9005e4fae000084000000000300000000077072696e746572\
            056c6f63616c0000018001000000780004c0000207c00c001c8001000000780010fe8000000000000000000000000000\
            07c00c0010000100001194000504613d6220",
        "5 2024-05-01T12:35:00.000000000Z 192.0.2.1:5353 > 224.0.0.251:5353 mdns\n\
            \x20 transaction_id=0\n\
            \x20 flags=qr,aa\n\
            \x20 opcode=0 (QUERY)\n\
            \x20 rcode=0 (NOERROR)\n\
            \x20 answer=printer.local. 120 IN A 192.0.2.7 cache_flush=true\n\
            \x20 answer=printer.local. 120 IN AAAA fe80::7 cache_flush=true\n\
            \x20 answer=printer.local. 4500 IN TXT \"a=b \"\n",
    ),
    // IGMP.
    (
        "4500001c123440000102c4afc0000201e00000fb160708fde00000fb",
        "6 2024-05-01T12:35:01.000000000Z 192.0.2.1 > 224.0.0.251 igmp\n\
            \x20 type=22 (membership_report_v2)\n\
            \x20 version=2\n\
            \x20 group_addr=224.0.0.251\n",
    ),
    // DHCP.
    (
        "4500013e123440004011657ac0000201ffffffff00430044012a761902010600123456780003000000000000c0000264\
            c0000201c000020902000000000100000000000000000000000000000000000000000000000000000000000000000000\
            000000000000000000000000000000000000000000000000000000000000000000000000000000000000000000000000\
            000000000000000000000000000000000000000000000000000000000000000000000000000000000000000000000000\
            000000000000000000000000000000000000000000000000000000000000000000000000000000000000000000000000\
            000000000000000000000000000000000000000000000000638253633501023604c000020133040000003c3a04000000\
            1e3b04000000340104ffffff000304c00002fe0608c0000235c0000236ff",
        "7 2024-05-01T12:35:02.000000000Z 192.0.2.1:67 > 255.255.255.255:68 dhcp\n\
            \x20 op=2 (bootreply)\n\
            \x20 htype=1 (ethernet)\n\
            \x20 hlen=6\n\
            \x20 hops=0\n\
            \x20 transaction_id=305419896\n\
            \x20 secs=3s\n\
            \x20 flags=-\n\
            \x20 client_ip=0.0.0.0\n\
            \x20 your_ip=192.0.2.100\n\
            \x20 server_ip=192.0.2.1\n\
            \x20 relay_agent_ip=192.0.2.9\n\
            \x20 client_hardware_address=02:00:00:00:00:01\n\
            \x20 message_type=2 offer\n\
            \x20 server_identifier=192.0.2.1\n\
            \x20 lease_time=60s\n\
            \x20 renewal_time=30s\n\
            \x20 rebinding_time=52s\n\
            \x20 subnet_mask=255.255.255.0\n\
            \x20 router=192.0.2.254\n\
            \x20 domain_name_server=192.0.2.53,192.0.2.54\n",
    ),
    // Neighbor discovery.
    (
        "6000000000403afffe800000000000000000000000000001fe8000000000000000000000000000028600a9a340c00708\
            000003e800000064010102000000000105010000000005dc030440c000000384000003e80000000020010db800000000\
            0000000000000000",
        "8 2024-05-01T12:35:03.000000000Z fe80::1 > fe80::2 icmp6\n\
            \x20 type=134 (router_advertisement)\n\
            \x20 code=0\n\
            \x20 hop_limit=64\n\
            \x20 flags=managed,other\n\
            \x20 preference=0 (medium)\n\
            \x20 router_lifetime=1800s\n\
            \x20 reachable_time=1s\n\
            \x20 retrans_time=0.100s\n\
            \x20 source_link_layer_address=02:00:00:00:00:01\n\
            \x20 mtu=1500\n\
            \x20 prefix_information=2001:db8::/64 flags=on_link,autonomous valid_lifetime=900s \
            preferred_lifetime=1000s\n",
    ),
    // An ICMPv4 error.
    (
        "45000038123440004001a45ac0000201c00002350304554600000578450005dc123440003f119fd9c0000201c0000202\
            9c40003505c80000",
        "9 2024-05-01T12:35:04.000000000Z 192.0.2.1 > 192.0.2.53 icmp4\n\
            \x20 type=3 (destination_unreachable)\n\
            \x20 code=4 (fragmentation_needed)\n\
            \x20 next_hop_mtu=1400\n\
            \x20 quoted_type_of_service=0\n\
            \x20 quoted_total_len=1500\n\
            \x20 quoted_ident=4660\n\
            \x20 quoted_dont_frag=true\n\
            \x20 quoted_more_frags=false\n\
            \x20 quoted_frag_offset=0\n\
            \x20 quoted_hop_limit=63\n\
            \x20 quoted_next_header=17 (udp)\n\
            \x20 quoted_src_addr=192.0.2.1\n\
            \x20 quoted_dst_addr=192.0.2.2\n\
            \x20 quoted_options=-\n\
            \x20 quoted_src_port=40000\n\
            \x20 quoted_dst_port=53\n\
            \x20 quoted_payload=9c40003505c80000\n",
    ),
    // An ICMPv6 error.
    (
        "6000000000393afffe800000000000000000000000000001fe8000000000000000000000000000020200790800000500\
            6b80012305b0114020010db800000000000000000000000120010db80000000000000000000000539c40003505b00000\
            01",
        "10 2024-05-01T12:35:05.000000000Z fe80::1 > fe80::2 icmp6\n\
            \x20 type=2 (packet_too_big)\n\
            \x20 code=0\n\
            \x20 mtu=1280\n\
            \x20 quoted_traffic_class=184\n\
            \x20 quoted_flow_label=291\n\
            \x20 quoted_payload_len=1456\n\
            \x20 quoted_hop_limit=64\n\
            \x20 quoted_next_header=17 (udp)\n\
            \x20 quoted_src_addr=2001:db8::1\n\
            \x20 quoted_dst_addr=2001:db8::53\n\
            \x20 quoted_src_port=40000\n\
            \x20 quoted_dst_port=53\n\
            \x20 quoted_payload=9c40003505b0000001\n",
    ),
    // DNS with an OPT record.
    (
        "45000054123440004011a42ec0000201c00002359c4000350040d9da123401000001000000000001076578616d706c65\
            03636f6d000001000100002904d0000080000010000a00080123456789abcdef00030000",
        "11 2024-05-01T12:35:06.000000000Z 192.0.2.1:40000 > 192.0.2.53:53 dns\n\
            \x20 transaction_id=4660\n\
            \x20 flags=rd\n\
            \x20 opcode=0 (QUERY)\n\
            \x20 rcode=0 (NOERROR)\n\
            \x20 question=example.com. IN A\n\
            \x20 additional=. OPT udp_size=1232 extended_rcode=0 version=0 flags=do \
            options=cookie:0123456789abcdef,nsid:\n",
    ),
    // A later fragment of UDP, which prints nothing where the first does not come.
    (
        "4500002c123400024011e454c0000201c00002359c4000350018df1100000000000000000000000000000000",
        "",
    ),
    // DNS with a name that leads to itself.
    (
        "4500002e123440004011a454c0000201c00002359c400035001a0bca123401000001000000000000c00c00010001",
        "13 2024-05-01T12:35:08.000000000Z 192.0.2.1:40000 > 192.0.2.53:53 dns\n\
            \x20 transaction_id=4660\n\
            \x20 flags=rd\n\
            \x20 opcode=0 (QUERY)\n\
            \x20 rcode=0 (NOERROR)\n\
            \x20 question=none name_octets=c00c class=IN type=A \
            refused=a pointer to place 12 leads nowhere or round\n",
    ),
];

/// Puts octets behind others. Ends the test where there is no memory for them, as all do that write into a vector.
pub fn append(octets: &mut Vec<u8>, more: &[u8]) {
    holds_of("memory", octets.extend_from_slice(more).is_ok());
}

// Puts numbers of four octets behind others, the lowest octet first.
fn append_numbers(octets: &mut Vec<u8>, numbers: &[u32]) {
    for number in numbers {
        append(octets, &number.to_le_bytes());
    }
}

// The value of a digit.
fn digit(octet: u8) -> u8 {
    match octet {
        b'0'..=b'9' => octet - b'0',
        b'a'..=b'f' => octet - b'a' + 10,
        _ => 0,
    }
}

// How many octets a packet of these digits has.
fn length_of(digits: &str) -> u32 {
    (digits.len() / 2).min(65_535) as u32
}

// Puts the octets of hexadecimal digits behind others.
fn append_digits(octets: &mut Vec<u8>, digits: &str) {
    for pair in digits.as_bytes().chunks(2) {
        if let [high, low] = pair {
            append(octets, &[digit(*high) << 4 | digit(*low)]);
        }
    }
}

/// A pcap file of packets of raw IP.
pub fn pcap(packets: &[(&str, &str)]) -> Vec<u8> {
    let mut octets = Vec::new();
    // The magic number of microseconds, version 2.4, and at most 262144 bytes of a packet.
    append_numbers(
        &mut octets,
        &[0xa1b2_c3d4, 0x0004_0002, 0, 0, 0x4_0000, RAW_IP],
    );
    let mut seconds = START;
    for (digits, _) in packets {
        let length = length_of(digits);
        append_numbers(&mut octets, &[seconds, 0, length, length]);
        append_digits(&mut octets, digits);
        seconds = seconds.wrapping_add(1);
    }
    octets
}

/// Where the record of the packet ends in such a file that has so many before it.
pub fn record_end(packets: &[(&str, &str)], before: usize) -> usize {
    let mut end = HEADER_LEN;
    for (place, (digits, _)) in packets.iter().enumerate() {
        if place <= before {
            end = end
                .wrapping_add(RECORD_HEADER_LEN)
                .wrapping_add(digits.len() / 2);
        }
    }
    end
}

/// What the packets of such a file print of which the records end within so many octets.
pub fn text_within(packets: &[(&str, &str)], octets: usize) -> Vec<u8> {
    let mut text = Vec::new();
    for (place, (_, printed)) in packets.iter().enumerate() {
        if record_end(packets, place) <= octets {
            append(&mut text, printed.as_bytes());
        }
    }
    text
}

// Puts a block of a pcapng file behind others: of this type, with this body, which is filled up to a multiple of four
// octets.
fn append_block(octets: &mut Vec<u8>, block_type: u32, body: &[u8]) {
    let padding = body.len().wrapping_neg() % 4;
    let length = body
        .len()
        .wrapping_add(padding)
        .wrapping_add(12)
        .min(65_535) as u32;
    append_numbers(octets, &[block_type, length]);
    append(octets, body);
    append(octets, &[0; 3][..padding]);
    append_numbers(octets, &[length]);
}

/// Puts the header block of a section behind others: of version 1.0 and of a length that is not told.
pub fn append_section(octets: &mut Vec<u8>) {
    let mut body = Vec::new();
    append_numbers(&mut body, &[0x1a2b_3c4d, 1, u32::MAX, u32::MAX]);
    append_block(octets, 0x0a0d_0d0a, body.as_slice());
}

/// Puts the description of an interface of this link behind others, whose times are microseconds.
pub fn append_interface(octets: &mut Vec<u8>, link_type: u32) {
    let mut body = Vec::new();
    append_numbers(&mut body, &[link_type, 0]);
    append_block(octets, 1, body.as_slice());
}

/// Puts an enhanced packet block behind others: of the interface of this place, so many seconds after `START`.
pub fn append_packet(octets: &mut Vec<u8>, interface: u32, seconds: u32, digits: &str) {
    let mut body = Vec::new();
    let time = u64::from(START.wrapping_add(seconds)).wrapping_mul(1_000_000);
    let length = length_of(digits);
    // The upper half of the time precedes the lower one.
    let [a, b, c, d, e, f, g, h] = time.to_le_bytes();
    append_numbers(&mut body, &[interface]);
    append(&mut body, &[e, f, g, h, a, b, c, d]);
    append_numbers(&mut body, &[length, length]);
    append_digits(&mut body, digits);
    append_block(octets, 6, body.as_slice());
}
