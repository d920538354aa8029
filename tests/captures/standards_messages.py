"""Captures of datagrams and of the messages in them, of raw IP, with the reasons for which they are refused."""
import struct

from building import (GROUP4, HOST4, HOST6, ICMP4, ICMP6, IGMP, LINK_A, MAC_A, SERVER4, SERVER6, TCP, UDP, dhcp,
                      hexed, icmp, icmp4, icmp6, igmp, ip4, ip6, ip6_icmp6, message, name, pcap, pcap_header,
                      pcap_record, question, udp, udp4, udp6, v4, v6)

ECHO = hexed("1234 0001")
ZERO = b"\0" * 4
UNSPECIFIED = b"\0" * 16
ROUTERS = v6("ff02::16")


def raw(*datagrams):
    return pcap(list(datagrams), 101)


def broken(datagram, at=-1):
    """A datagram with one octet changed."""
    octets = bytearray(datagram)
    octets[at] ^= 1
    return bytes(octets)


# ---- datagrams

TCP_SEGMENT = hexed("9c40 0050 00000001 00000000 5002 2000 0000 0000")
ECHO_MESSAGE = icmp(8, 0, ECHO, b"abcd")

DATAGRAMS4 = {
    "ipv4_with_options": raw(icmp4(8, 0, ECHO, b"abcd", options=hexed("94040000"))),
    "ipv4_of_version_5": raw(b"\x55" + ip4(ECHO_MESSAGE, ICMP4)[1:]),
    "ipv4_with_a_header_of_16_octets": raw(b"\x44" + ip4(ECHO_MESSAGE, ICMP4)[1:]),
    "ipv4_shorter_than_its_header": raw(ip4(ECHO_MESSAGE, ICMP4, total=19)),
    "ipv4_longer_than_the_frame": raw(ip4(ECHO_MESSAGE, ICMP4, total=33)),
    "ipv4_first_fragment": raw(udp4(b"\0" * 16, 40000, 53, fragment=0x2000)),
    "ipv4_later_fragment": raw(udp4(b"\0" * 16, 40000, 53, fragment=2)),
    "ipv4_fragment_of_icmp": raw(icmp4(8, 0, ECHO, fragment=0x2001)),
    "ipv4_fragment_of_tcp": raw(ip4(TCP_SEGMENT, TCP, fragment=0x2000)),
    "ipv4_of_tcp": raw(ip4(TCP_SEGMENT, TCP)),
    "ipv4_of_icmpv6": raw(ip4(ECHO_MESSAGE, ICMP6)),
    "udp_of_other_ports": raw(udp4(b"data", 40000, 123)),
    "udp_of_seven_octets": raw(ip4(udp(b"", 40000, 53)[:7], UDP)),
    "udp_of_three_octets": raw(ip4(udp(b"", 40000, 53)[:3], UDP)),
    "udp_with_a_length_of_seven": raw(ip4(udp(b"\0" * 12, 40000, 53, length=7), UDP)),
    "udp_longer_than_its_datagram": raw(ip4(udp(b"\0" * 12, 40000, 53, length=21), UDP)),
    "udp_shorter_than_its_datagram": raw(ip4(udp(b"\0" * 12, 40000, 5353, SERVER4, HOST4, length=20) + b"\0" * 4, UDP)),
    "udp_with_a_wrong_checksum": raw(broken(udp4(b"\0" * 12, 40000, 53))),
    "udp_with_no_checksum": raw(ip4(udp(b"\0" * 12, 40000, 53, seal=False), UDP)),
}


def extension(following, content, length=0):
    return bytes([following, length]) + content


HOP = extension(ICMP6, hexed("05020000 0100"))
MESSAGE6 = icmp6(128, 0, ECHO, b"abcd", HOST6, SERVER6)
LAST = v6("2001:db8::99")
ROUTED = icmp6(128, 0, ECHO, b"abcd", HOST6, LAST)


def route(kind, left, following=ICMP6):
    return bytes([following, 2, kind, left]) + ZERO + LAST


DATAGRAMS6 = {
    "ipv6_longer_than_the_frame": raw(ip6(MESSAGE6, ICMP6, length=len(MESSAGE6) + 1)),
    "ipv6_with_a_flow_label": raw(ip6(MESSAGE6, ICMP6, word=0x6ABCDEF1)),
    "hop_by_hop_options": raw(ip6(HOP + MESSAGE6, 0)),
    "hop_by_hop_of_each_option": raw(ip6(extension(ICMP6, hexed("00 0100 05020001 1e03a1b2c3 0000"), 1) + MESSAGE6, 0)),
    "hop_by_hop_with_a_long_alert": raw(ip6(extension(ICMP6, hexed("0503000000 00")) + MESSAGE6, 0)),
    "hop_by_hop_option_past_the_end": raw(ip6(extension(ICMP6, hexed("010500000000")) + MESSAGE6, 0)),
    "hop_by_hop_of_ten_options": raw(ip6(extension(ICMP6, hexed("00" * 9 + "0103000000"), 1) + MESSAGE6, 0)),
    "hop_by_hop_whose_ninth_option_ends": raw(ip6(extension(ICMP6, hexed("00" * 8 + "01ff") + ZERO, 1) + MESSAGE6, 0)),
    "hop_by_hop_whose_tenth_option_ends": raw(ip6(extension(ICMP6, hexed("00" * 9 + "01ff000000"), 1) + MESSAGE6, 0)),
    "hop_by_hop_of_tcp": raw(ip6(extension(TCP, hexed("010400000000")) + TCP_SEGMENT, 0)),
    "hop_by_hop_header_past_the_end": raw(ip6(extension(ICMP6, hexed("010400000000"), 9) + MESSAGE6, 0)),
    "destination_options": raw(ip6(extension(ICMP6, hexed("010400000000")) + MESSAGE6, 60)),
    "hop_by_hop_behind_destination_options": raw(ip6(extension(0, hexed("010400000000")) + HOP + MESSAGE6, 60)),
    "route_of_type_0": raw(ip6(route(0, 1) + ROUTED, 43)),
    "route_of_type_2": raw(ip6(route(2, 1) + ROUTED, 43)),
    "route_of_type_4": raw(ip6(route(4, 1) + ROUTED, 43)),
    "route_of_type_3": raw(ip6(route(3, 1) + MESSAGE6, 43)),
    "route_with_no_segments_left": raw(ip6(route(0, 0) + MESSAGE6, 43)),
    "ipv6_fragment": raw(ip6(extension(ICMP6, hexed("0001 00000001")) + MESSAGE6, 44)),
    "ipv6_fragment_behind_options": raw(ip6(extension(44, hexed("010400000000")) + extension(UDP, hexed("000100000001"))
                                            + MESSAGE6, 0)),
    "ipv6_of_no_next_header": raw(ip6(b"", 59)),
    "udp_over_ipv6_with_no_checksum": raw(ip6(udp(b"\0" * 12, 40000, 53, seal=False), UDP)),
    "udp_over_ipv6_of_three_octets": raw(ip6(b"\x9c\x40\0", UDP)),
    "udp_over_ipv6_of_dhcp_ports": raw(udp6(b"\0" * 12, 68, 67)),
}

# ---- jumbograms (RFC 2675)

JUMBO = hexed("c204 00010000")


def jumbogram(options, payload=MESSAGE6, following=ICMP6):
    """A datagram whose length is in its hop-by-hop options, as far as it is there."""
    return ip6(extension(following, options, (len(options) - 6) // 8) + payload, 0, length=0)


def kept(datagram):
    """A capture that kept the front of a datagram of 65,576 octets."""
    return pcap_header(101) + pcap_record(datagram, original_len=65576)


JUMBOGRAMS = {
    "jumbogram_of_icmp6": kept(jumbogram(JUMBO)),
    "jumbogram_of_dns": kept(jumbogram(JUMBO, udp(b"\0" * 12, 40000, 53, length=0, seal=False), UDP)),
    "jumbogram_of_other_protocols": kept(jumbogram(JUMBO, TCP_SEGMENT, TCP)) + pcap_record(jumbogram(JUMBO, b"", 59)),
    "jumbogram_behind_other_options": kept(jumbogram(hexed("00 0100 05020001 00 c204 00020000"))),
    "jumbogram_with_a_route": kept(jumbogram(JUMBO, route(0, 1) + ROUTED, 43)),
    "jumbogram_longer_than_its_frame": raw(jumbogram(JUMBO), jumbogram(hexed("c204 ffffffff"), MESSAGE6[:3], UDP)),
    "jumbogram_with_a_fragment": kept(jumbogram(JUMBO, extension(ICMP6, hexed("0000 00000001")) + MESSAGE6, 44)),
    "jumbogram_with_a_later_fragment": kept(jumbogram(JUMBO, extension(44, hexed("010400000000"))
                                                      + extension(UDP, hexed("000100000001")), 60)),
    "jumbogram_that_ends_within_a_fragment": kept(jumbogram(JUMBO, extension(ICMP6, b"\0" * 5), 44)),
    "jumbogram_that_ends_within_a_header": kept(jumbogram(JUMBO, extension(ICMP6, b"\0" * 6, 1), 60)),
    "jumbogram_that_ends_within_its_options": kept(ip6(extension(ICMP6, JUMBO, 1), 0, length=0))
    + pcap_record(jumbogram(JUMBO)[:47]) + pcap_record(jumbogram(JUMBO)[:40]),
    "jumbogram_of_65535_octets": raw(jumbogram(hexed("c204 0000ffff"))),
    "jumbogram_of_no_option": raw(ip6(HOP + MESSAGE6, 0, length=0)),
    "jumbogram_of_wrong_options": raw(*(jumbogram(hexed(options), b"") for options in (
        "c203 00010000", "c205 00010000", "0100 c204 0001", "0104 00000000", "0105 00000000", "0000000000 c2",
        "0000000000 01", "c202 0001 c204 00010000 01020000"))),
}



def whole(payload, following):
    """A capture of a whole jumbogram, and of octets behind it."""
    return raw(jumbogram(hexed("c204") + struct.pack(">I", 8 + len(payload)), payload, following) + b"\5")


LONG = b"ab" * 32768
QUESTION = message(0x0100, [question(name("example.com."), 1)])

WHOLE_JUMBOGRAMS = {
    "whole_jumbogram_of_icmp6": whole(icmp6(128, 0, ECHO, LONG, HOST6, SERVER6), ICMP6),
    "whole_jumbogram_of_dns": whole(udp(QUESTION + LONG, 40000, 53, HOST6, SERVER6, length=0), UDP),
    "whole_jumbogram_of_a_datagram_alone": whole(extension(ICMP6, hexed("0000 00000001")) + LONG, 44),
}

# ---- ICMPv4

UDP_QUOTE = ip4(hexed("9c40 0035 05c8 0000"), UDP, v4("192.0.2.1"), v4("192.0.2.2"), ttl=63, total=1500)
LATER_QUOTE = ip4(b"\1\2\3\4\5\6\7\x08", UDP, fragment=0x00B9, total=1500)
OPTION_QUOTE = ip4(TCP_SEGMENT[:8], TCP, options=hexed("94040000"), total=1500, fragment=0x2000)

ICMP = {
    "icmp4_echo_request": raw(icmp4(8, 0, ECHO, b"abcd")),
    "icmp4_echo_reply_of_no_data": raw(icmp4(0, 0, ECHO)),
    "icmp4_echo_of_code_1": raw(icmp4(8, 1, ECHO)),
    "icmp4_needs_fragmenting": raw(icmp4(3, 4, hexed("0000 0578"), UDP_QUOTE)),
    "icmp4_needs_fragmenting_of_an_old_router": raw(icmp4(3, 4, ZERO, UDP_QUOTE)),
    "icmp4_port_unreachable": raw(icmp4(3, 3, hexed("0000 0578"), UDP_QUOTE)),
    "icmp4_source_quench": raw(icmp4(4, 0, ZERO, UDP_QUOTE)),
    "icmp4_redirect": raw(icmp4(5, 1, v4("192.0.2.254"), OPTION_QUOTE)),
    "icmp4_time_exceeded_of_a_later_fragment": raw(icmp4(11, 1, ZERO, LATER_QUOTE)),
    "icmp4_parameter_problem": raw(icmp4(12, 0, hexed("14 000000"), ip4(b"\0" * 8, ICMP4))),
    "icmp4_quote_of_seven_octets_of_payload": raw(icmp4(3, 1, ZERO, UDP_QUOTE[:27])),
    "icmp4_quote_of_version_6": raw(icmp4(3, 1, ZERO, b"\x65" + UDP_QUOTE[1:])),
    "icmp4_quote_of_nothing": raw(icmp4(11, 0, ZERO)),
    "icmp4_timestamp": raw(icmp4(13, 0, ECHO, b"\0" * 12)),
    "icmp4_traceroute": raw(icmp4(30, 0, ECHO, hexed("0003 ffff 000f4240 000005dc"))),
    "icmp4_of_seven_octets": raw(ip4(icmp(8, 0, ECHO)[:7], ICMP4)),
    "icmp4_with_a_wrong_checksum": raw(broken(icmp4(8, 0, ECHO, b"abcd"))),
    "icmp4_of_zeros": raw(ip4(b"\0" * 8, ICMP4)),
}

# ---- IGMP

IGMP_CAPTURES = {
    "igmp_query_of_version_1": raw(igmp(0x11, 0, ZERO, destination=v4("224.0.0.1"))),
    "igmp_query_of_ten_seconds": raw(igmp(0x11, 100, GROUP4)),
    "igmp_query_with_an_exponent": raw(igmp(0x11, 0x9F, GROUP4)),
    "igmp_report_of_version_1": raw(igmp(0x12, 0, GROUP4)),
    "igmp_report_of_version_2": raw(igmp(0x16, 7, GROUP4)),
    "igmp_leave": raw(igmp(0x17, 0, GROUP4, destination=v4("224.0.0.2"))),
    "igmp_report_of_version_3": raw(igmp(0x22, 0, ZERO, destination=v4("224.0.0.22"))),
    "igmp_of_a_host": raw(igmp(0x16, 0, HOST4)),
    "igmp_with_a_wrong_checksum": raw(broken(igmp(0x16, 0, GROUP4), 22)),
    "igmp_of_seven_octets": raw(ip4(b"\x16" + b"\0" * 6, IGMP)),
    "igmp_of_pim": raw(igmp(0x14, 1, ZERO + b"\1\2", destination=v4("224.0.0.2"))),
    "igmp_of_no_known_type": raw(igmp(0x99, 3, ZERO)),
    "igmp_report_with_octets_behind": raw(igmp(0x16, 0, GROUP4 + b"\1\2")),
    "igmp_query_of_version_3": raw(igmp(0x11, 0x8A, GROUP4 + hexed("0a8c 0002") + HOST4 + SERVER4 + b"\7")),
    "igmp_query_of_ten_octets": raw(igmp(0x11, 0x8A, GROUP4 + hexed("0a8c"))),
    "igmp_query_of_too_few_sources": raw(igmp(0x11, 0x64, HOST4 + hexed("027d 0002") + HOST4 + b"\xc0\0")),
    "igmp_report_of_records": raw(igmp(0x22, 0, hexed("0000 0004 0100 0002") + GROUP4 + HOST4 + SERVER4
                                       + hexed("0401 0000") + GROUP4 + hexed("deadbeef 0600 0001") + GROUP4 + HOST4
                                       + hexed("0900 0000") + GROUP4 + b"\1", destination=v4("224.0.0.22"))),
    "igmp_report_of_a_cut_record": raw(igmp(0x22, 0, hexed("0000 0003 0300 0001") + GROUP4 + HOST4[:3])),
    "igmp_report_of_missing_records": raw(igmp(0x22, 0, hexed("0000 0003 0300 0000") + GROUP4)),
}

# ---- ICMPv6

QUOTE6 = ip6(hexed("9c40 0035 05b0 0000 01"), UDP, word=0x6B800123, length=1456)

ERRORS6 = {
    "icmp6_echo_request": raw(ip6_icmp6(128, 0, ECHO, b"abcd")),
    "icmp6_echo_reply_of_no_data": raw(ip6_icmp6(129, 0, ECHO)),
    "icmp6_echo_of_code_1": raw(ip6_icmp6(128, 1, ECHO)),
    "icmp6_unreachable": raw(ip6_icmp6(1, 4, ZERO, QUOTE6)),
    "icmp6_too_big": raw(ip6_icmp6(2, 0, hexed("00000500"), QUOTE6)),
    "icmp6_too_big_of_code_1": raw(ip6_icmp6(2, 1, hexed("00000500"), QUOTE6)),
    "icmp6_time_exceeded_of_a_bare_header": raw(ip6_icmp6(3, 0, ZERO, QUOTE6[:40])),
    "icmp6_parameter_problem_of_tcp": raw(ip6_icmp6(4, 1, hexed("00000028"), ip6(TCP_SEGMENT[:4], TCP))),
    "icmp6_quote_of_three_octets_of_payload": raw(ip6_icmp6(1, 0, ZERO, QUOTE6[:43])),
    "icmp6_quote_of_a_cut_header": raw(ip6_icmp6(1, 0, ZERO, QUOTE6[:39])),
    "icmp6_quote_of_version_4": raw(ip6_icmp6(1, 0, ZERO, b"\x40" + QUOTE6[1:])),
    "icmp6_of_rpl": raw(ip6_icmp6(155, 1, ZERO)),
    "icmp6_of_seven_octets": raw(ip6(icmp6(128, 0, ECHO)[:7], ICMP6)),
    "icmp6_with_a_wrong_checksum": raw(broken(ip6_icmp6(128, 0, ECHO, b"abcd"))),
}

GROUP6 = v6("ff02::1:ff00:1")
QUERY = hexed("0400 0000") + GROUP6 + hexed("0a12 0001") + SERVER6
REPORT = hexed("0000 0001"), hexed("0400 0000") + GROUP6


def listener(kind, rest, data=b"", code=0):
    """A message of multicast listener discovery, with the router alert (RFC 3810 section 5)."""
    octets = icmp6(kind, code, rest, data, LINK_A, ROUTERS)
    return ip6(HOP + octets, 0, LINK_A, ROUTERS, 1)


LISTENERS = {
    "mld_query": raw(listener(130, QUERY[:4], QUERY[4:])),
    "mld_query_of_version_1": raw(listener(130, QUERY[:4], GROUP6)),
    "mld_query_of_code_1": raw(listener(130, QUERY[:4], QUERY[4:], 1)),
    "mld_report": raw(listener(143, *REPORT)),
    "mld_report_of_version_1": raw(listener(131, ZERO, GROUP6)),
    "mld_done": raw(listener(132, ZERO, GROUP6 + b"\1\2")),
    "mld_report_of_23_octets": raw(listener(131, ZERO, GROUP6[:15])),
    "mld_query_of_an_exponent": raw(listener(130, hexed("9abc 0000"), GROUP6 + hexed("027d 0000 0102"))),
    "mld_query_of_too_few_sources": raw(listener(130, QUERY[:4], GROUP6 + hexed("0a12 0003") + SERVER6 + b"\1")),
    "mld_query_of_27_octets": raw(listener(130, QUERY[:4], QUERY[4:27])),
    "mld_report_of_records": raw(listener(143, hexed("0000 0003"), hexed("0100 0002") + GROUP6 + HOST6 + SERVER6
                                          + hexed("0601 0000") + GROUP6 + hexed("00010203 0200 0001") + GROUP6
                                          + HOST6 + b"\7")),
    "mld_report_of_a_cut_record": raw(listener(143, hexed("0000 0002"), hexed("0500 0001") + GROUP6)),
    "mld_report_of_missing_records": raw(listener(143, hexed("0000 0002"), hexed("0500 0000") + GROUP6)),
}

# ---- neighbor discovery

TARGET = v6("fe80::2")
SOURCE_LINK, TARGET_LINK = b"\1\1" + MAC_A, b"\2\1" + MAC_A
MTU = hexed("0501 0000 000005dc")
PREFIX = hexed("0304 40c0 00000384 000003e8 00000000") + v6("2001:db8::")
REDIRECTED = hexed("0407 0000 00000000") + ip6(b"\1\2\3\4\5\6\7\x08", UDP)
ADVERT = hexed("40c0 0708 000003e8 00000064")


def option(kind, data):
    """An option of whole units, filled up with zeros."""
    units = (len(data) + 9) // 8
    return bytes([kind, units]) + data.ljust(8 * units - 2, b"\0")


def advertises(*options):
    return ip6_icmp6(134, 0, ADVERT[:4], ADVERT[4:] + b"".join(options))


# The options that RFC 4861 has not: a nonce (RFC 3971), routes (RFC 4191), DNS servers and a search list (RFC 8106), a
# captive portal (RFC 8910) and the prefix of a NAT64 (RFC 8781).
NONCE = option(14, hexed("a1b2c3d4e5f6"))
ROUTES = (option(24, hexed("3008 00000e10 20010db8000100000000000000000000")),
          option(24, hexed("2118 ffffffff 20010db8ffffffff")), option(24, hexed("0010 00000000")))
SERVERS = option(25, hexed("0000 00000708") + SERVER6 + HOST6)
SEARCHED = b"\7example\3org\0" + b"\3a.,\4\x80\\$ \0"
SEARCH_LIST = option(31, hexed("0000 00000708") + SEARCHED)
PORTAL = option(37, b"https://example.org/?a=\"\\ \xe9")
NAT64 = option(38, hexed("0708 0064ff9b0000000000000000"))
OTHERS = (NONCE, *ROUTES, SERVERS, SEARCH_LIST, PORTAL, NAT64)

# Three labels of a name, as long as they may be (RFC 1035 section 2.3.4).
THREE_LABELS = (b"\x3f" + b"x" * 63) * 3

NEIGHBORS = {
    "router_solicitation": raw(ip6_icmp6(133, 0, ZERO, SOURCE_LINK, LINK_A, v6("ff02::2"))),
    "router_solicitation_of_no_address": raw(ip6_icmp6(133, 0, ZERO, b"", UNSPECIFIED, v6("ff02::2"))),
    "router_advertisement": raw(ip6_icmp6(134, 0, ADVERT[:4], ADVERT[4:] + SOURCE_LINK + MTU + PREFIX)),
    "router_advertisement_of_no_options": raw(ip6_icmp6(134, 0, ADVERT[:4], ADVERT[4:])),
    "router_advertisement_of_odd_options": raw(ip6_icmp6(
        134, 0, ADVERT[:4],
        ADVERT[4:] + b"\5\2" + b"\0" * 14 + b"\3\5" + b"\0" * 38 + b"\1\2" + b"\1" * 14 + b"\x19\1" + b"\0" * 6)),
    "router_advertisement_with_a_short_prefix": raw(ip6_icmp6(134, 0, ADVERT[:4], ADVERT[4:] + b"\3\1" + b"\0" * 6)),
    "neighbor_solicitation": raw(ip6_icmp6(135, 0, ZERO, TARGET + SOURCE_LINK)),
    "neighbor_solicitation_of_no_address": raw(ip6_icmp6(135, 0, ZERO, TARGET, UNSPECIFIED)),
    "neighbor_advertisement": raw(ip6_icmp6(136, 0, hexed("e0000000"), TARGET + TARGET_LINK)),
    "neighbor_advertisement_of_two_addresses": raw(ip6_icmp6(136, 0, hexed("ff000000"), TARGET + TARGET_LINK
                                                             + b"\2\1" + b"\7" * 6)),
    "redirect": raw(ip6_icmp6(137, 0, ZERO, TARGET + HOST6 + TARGET_LINK + REDIRECTED)),
    "redirect_of_a_cut_packet": raw(ip6_icmp6(137, 0, ZERO, TARGET + HOST6 + REDIRECTED[:13] + b"\x09"
                                              + REDIRECTED[14:])),
    "neighbor_solicitation_of_23_octets": raw(ip6_icmp6(135, 0, ZERO, TARGET[:15])),
    "neighbor_solicitation_of_code_1": raw(ip6_icmp6(135, 1, ZERO, TARGET)),
    "neighbor_option_of_no_units": raw(ip6_icmp6(135, 0, ZERO, TARGET + b"\1\0" + MAC_A)),
    "neighbor_option_past_the_end": raw(ip6_icmp6(135, 0, ZERO, TARGET + b"\1\2" + MAC_A)),
    "neighbor_options_with_an_octet_behind": raw(ip6_icmp6(135, 0, ZERO, TARGET + SOURCE_LINK + b"\0")),
    "router_advertisement_of_every_flag": raw(ip6_icmp6(134, 0, hexed("40ff ffff"), b"\xff" * 8 + hexed(
        "0304 80ff ffffffff ffffffff 00000000") + v6("2001:db8::") + hexed("1801 0008 00000e10"))),
    "router_advertisement_of_servers": raw(ip6_icmp6(134, 0, hexed("4008 0708"), b"\0" * 8 + hexed(
        "1903 0000 00000e10") + SERVER6 + hexed("fd01 010203040506 0e01 a1b2c3d4e5f6"))),
    "redirect_of_a_short_header": raw(ip6_icmp6(137, 0, ZERO, TARGET + HOST6 + b"\4\1" + b"\0" * 6)),
    "router_advertisement_of_other_options": raw(advertises(*OTHERS)),
    "router_advertisements_of_cut_options": raw(*(advertises(one[:-1]) for one in OTHERS)),
    "router_advertisement_of_refused_options": raw(advertises(
        option(24, hexed("4008 00000e10") + SERVER6 + b"\0" * 8), option(24, hexed("4108 00000e10") + SERVER6[:8]),
        option(24, hexed("0108 00000e10")), option(25, hexed("0000 00000708")),
        option(25, hexed("0000 00000708") + SERVER6 + b"\0" * 8), option(31, hexed("0000 00000708")),
        option(31, hexed("0000 00000708") + b"\7example"),
        option(31, hexed("0000 00000708") + b"\1a\0\x40" + b"b" * 64),
        option(38, hexed("0708 0064ff9b")), option(38, hexed("0706 0064ff9b") + b"\0" * 8),
        option(38, hexed("0707 0064ff9b") + b"\0" * 8), option(38, hexed("0708 0064ff9b") + b"\0" * 16), b"\x0e\0")),
    "router_advertisement_of_prefix_lengths": raw(advertises(
        *(option(38, (0xfff8 + code).to_bytes(2, "big") + HOST6[:4] + b"\xff" * 8) for code in range(6)),
        *(option(24, bytes([8 * size, 0]) + b"\0" * 4 + HOST6[:size]) for size in (0, 8, 16)),
        *(option(24, bytes([length, 0]) + b"\0" * 4 + b"\xff" * 16) for length in (*range(9), 63, 64, 65, 127)))),
    "router_advertisement_of_texts": raw(advertises(
        *(option(31, hexed("0000 00000708") + names) for names in (
            b"\5local\0", b"\1a\0\1b\0\0c", b"\0" * 8, b"\x3f" + b"x" * 63 + b"\0", b"\2\"\x1f\0", b"\1a\1",
            b"\5a,b,,\1,\0\1c\0")),
        *(option(37, uri) for uri in (b"", b"\0a\0", b"urn:ietf:params:capport:unrestricted")))),
    "router_advertisement_of_long_names": raw(advertises(*(
        option(31, hexed("0000 00000708") + THREE_LABELS + last) for last in (
            b"\x3d" + b"x" * 61 + b"\0", b"\x3e" + b"x" * 62 + b"\0", b"\x3f", b"\x40")))),
}

# ---- DHCP

DISCOVER = hexed("350101 3d0701020000000001 3204c0000264 390205dc 370401030633 ff")
OFFER = hexed("350102 3604c0000201 33040000003c 3a040000001e 3b0400000034 0104ffffff00 0304c00002fe"
              "0608c0000235c0000236 ff")
ADDRESSES = v4("0.0.0.0") + v4("192.0.2.100") + v4("192.0.2.1") + v4("192.0.2.9")
EVERYONE = v4("255.255.255.255")


def asks(data):
    return raw(udp4(data, 68, 67, ZERO, EVERYONE))


def with_field(octets, at, field):
    """A packet with these octets in one of its fields."""
    return octets[:at] + field + octets[at + len(field):]


DHCP = {
    "dhcp_discover": asks(dhcp(1, DISCOVER)),
    "dhcp_offer": raw(udp4(dhcp(2, OFFER, flags=0, addresses=ADDRESSES), 67, 68, v4("192.0.2.1"), EVERYONE)),
    "dhcp_of_other_ports": raw(udp4(dhcp(1, hexed("350103ff")), 1067, 67, ZERO, EVERYONE)),
    "dhcp_offer_of_a_client": asks(dhcp(1, hexed("350102ff"))),
    "dhcp_of_no_type": asks(dhcp(1, hexed("ff"))),
    "dhcp_of_an_unknown_type": asks(dhcp(0, hexed("350109 0603c00002 3700 ff"))),
    "dhcp_of_two_types": asks(dhcp(1, hexed("350101 00 350103 0604c0000201 0600 ff 350108"))),
    "dhcp_with_an_option_past_the_end": asks(dhcp(1, hexed("350101 3304 0000"))),
    "dhcp_with_an_identifier_of_no_ethernet": asks(dhcp(1, hexed("350101 3d07ff020000000001 3d07010200000000 01 ff"))),
    "dhcp_of_token_ring": asks(dhcp(1, hexed("350101ff"), hardware=b"\6\6\0")),
    "dhcp_with_no_cookie": asks(dhcp(1, hexed("350101ff"))[:236] + b"\x63\x82\x53\x64" + hexed("350101ff")),
    "dhcp_of_239_octets": asks(dhcp(1, b"")[:239]),
    "dhcp_of_43_octets": asks(dhcp(1, b"")[:43]),
    "dhcp_with_names": asks(with_field(with_field(
        dhcp(2, hexed("350105ff"), flags=0x7FFF), 44, b'a"\\\x7f'), 108, b"boot")),
    "dhcp_with_overloaded_fields": asks(with_field(with_field(
        dhcp(2, hexed("340105 340103 350102 0c0161 ff")), 44, hexed("0c0162 ff")), 108, hexed("0c0163 1a02 05dc ff"))),
    "dhcp_with_an_overloaded_file_that_is_cut": asks(with_field(
        dhcp(2, hexed("350102 340101 ff")), 108, b"\x0c\xff" + b"x" * 126)),
    "dhcp_of_each_form": asks(dhcp(1, hexed(
        "350101 0101ff 02040000 0e10 0300 060cc0000201c0000202c0000203 0c0368 226f 1a0205dc 170140 5100 "
        "2a05c000020100 3404ffffffff 3703010206 77036162ff fc02cafe 6c0400000384 ff"))),
    "dhcp_with_options_in_parts": asks(dhcp(1, hexed("350101 0c0261 62 0f0163 0c0164 3301 00 3303000e10 ff"))),
    "dhcp_of_infiniband": asks(dhcp(1, hexed("350101ff"), hardware=hexed("201405"))),
}

# An option of this many octets in parts, of which 1500 are joined.
LONG_PARTS = {
    "dhcp_with_parts_of_%d_octets" % size: asks(dhcp(1, b"".join(
        b"\x2b%c%s" % (len(part), part) for part in (bytes(size)[at:at + 255] for at in range(0, size, 255)))
        + hexed("350101 ff"))) for size in (1500, 1501)
}

MESSAGES = {}
for _table in (DATAGRAMS4, DATAGRAMS6, JUMBOGRAMS, ICMP, IGMP_CAPTURES, ERRORS6, LISTENERS, NEIGHBORS, DHCP):
    MESSAGES.update(_table)
