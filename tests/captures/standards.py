"""Small captures by what the standards say of each layer: links and forms of files here, datagrams, messages and names
in tables of their own. `captures()` gives them by name, and `large()` those that are not small."""
import struct

from building import (HOST6, NOON, SERVER6, TCP, attribute, block, c_hdlc, cooked, cooked2, enhanced, ethernet, hexed,
                      icmp4, interface, ip4, ip6_icmp6, ipnet, ipoib, nflog, obsolete, option, pcap, pcap_header,
                      pcap_record, section, session, simple, udp4, udp6)
from standards_brief import BRIEF
from standards_dns import DNS
from standards_extensions import EXTENSIONS
from standards_fragments import FRAGMENTS, MOST
from standards_messages import LONG_PARTS, MESSAGES, WHOLE_JUMBOGRAMS
from standards_mixed import MIXED
from standards_networks import NETWORKS
from standards_pages import FULL, PAGES
from standards_queries import QUERIES
from standards_segments import SEGMENTS
from standards_tunnels import TUNNELS

ECHO4 = icmp4(8, 0, hexed("1234 0001"), b"abcd")
ECHO6 = ip6_icmp6(128, 0, hexed("1234 0001"), b"abcd", HOST6, SERVER6)

# ---- links

LINKS = {
    "null_of_linux_and_bsd": pcap([hexed("02000000") + ECHO4, hexed("0000001e") + ECHO6, hexed("18000000") + ECHO6], 0),
    "null_of_every_family": pcap([hexed(family) + ECHO6[:44] for family in ("0a000000", "0000001c", "03000000")], 0),
    "ethernet_of_both_ips": pcap([ethernet(ECHO4), ethernet(ECHO6, 0x86DD)]),
    "ethernet_with_padding": pcap([ethernet(ECHO4) + b"\0" * 14]),
    "ethernet_of_arp": pcap([ethernet(hexed("0001 0800 0604 0001"), 0x0806)]),
    "ethernet_of_pppoe_session": pcap([ethernet(session(ECHO4), 0x8864)]),
    "ethernet_of_pppoe_discovery": pcap([ethernet(hexed("1109 0000 0004 01010000"), 0x8863)]),
    "ethernet_with_one_vlan": pcap([ethernet(ECHO4, tags=[(0x8100, 0x6005)])]),
    "ethernet_with_two_vlans": pcap([ethernet(ECHO6, 0x86DD, tags=[(0x88A8, 100), (0x8100, 4094)])]),
    "ethernet_with_a_vlan_of_pppoe": pcap([ethernet(session(ECHO6, 0x0057), 0x8864, tags=[(0x8100, 7)])]),
    "ppp_with_its_address": pcap([hexed("ff030021") + ECHO4, hexed("ff0357") + ECHO6], 9),
    "ppp_bare": pcap([hexed("21") + ECHO4, hexed("0057") + ECHO6, hexed("c021 01010004")], 9),
    "raw_of_openbsd": pcap([ECHO4], 14),
    "raw_as_first_numbered": pcap([ECHO4, ECHO6], 12),
    "ppp_over_serial": pcap([hexed("ff030021") + ECHO4], 50),
    "ppp_over_ethernet": pcap([session(ECHO4), session(ECHO6, 0x0057)], 51),
    "ppp_over_ethernet_of_discovery": pcap([hexed("1109 0000 0004 01010000")], 51),
    "raw_of_both_ips": pcap([ECHO4, ECHO6], 101),
    "loop_of_openbsd": pcap([hexed("00000002") + ECHO4, hexed("00000018") + ECHO6], 108),
    "cooked_of_both_ips": pcap([cooked(ECHO4), cooked(ECHO6, 0x86DD)], 113),
    "cooked_with_a_vlan": pcap([cooked(hexed("0005 0800") + ECHO4, 0x8100)], 113),
    "ipv4_alone": pcap([ECHO4], 228),
    "ipv6_alone": pcap([ECHO6], 229),
    "cooked2_of_both_ips": pcap([cooked2(ECHO4), cooked2(ECHO6, 0x86DD)], 276),
    "c_hdlc_of_both_ips": pcap([c_hdlc(ECHO4), c_hdlc(ECHO6, 0x86DD)], 104),
    "c_hdlc_with_a_vlan_of_pppoe": pcap([c_hdlc(hexed("6005 8864") + session(ECHO6, 0x0057), 0x8100)], 104),
    "c_hdlc_of_no_ip": pcap([c_hdlc(b"\0" * 14, 0x8035), c_hdlc(b"\0\5", 0x8100), b"\x0f\0\x08"], 104),
    "ipnet_of_both_ips": pcap([ipnet(ECHO4), ipnet(ECHO6, 26)], 226),
    "ipnet_of_no_ip": pcap([ipnet(ECHO6, 10), ipnet(b""), ipnet(b"")[:23]], 226),
    "ipoib_of_both_ips": pcap([ipoib(ECHO4), ipoib(ECHO6, 0x86DD)], 242),
    "ipoib_of_no_ip": pcap([ipoib(b"\0" * 4, 0x0806), ipoib(b"\0\5\x08", 0x8100), ipoib(b"")[:43]], 242),
    "link_that_is_not_read": pcap([b"\1\2\3\4", b"\5"], 147),
    "ethernet_of_ipv4_of_version_5": pcap([ethernet(b"\x55" + ECHO4[1:])]),
    "ethernet_of_ipv6_of_version_7": pcap([ethernet(b"\x70" + ECHO6[1:], 0x86DD)]),
    "frame_that_is_empty": pcap([b""]),
    "frame_whose_vlan_ends": pcap([ethernet(b"\0\5", 0x8100)]),
}

# What stands before the packet: the header of the hook, an interface, and the prefix.
BEFORE = ((1, hexed("08000100")), (5, hexed("00000002")), (10, b"drop\0"))


def before(order):
    return b"".join(attribute(*of, order=order) for of in BEFORE)


NFLOG = {
    "nflog_of_lowest_first": pcap([nflog(before("<"), attribute(9, ECHO4)),
                                   nflog(attribute(9, ECHO6), family=10)], 239),
    "nflog_of_highest_first": pcap([nflog(before(">"), attribute(9, ECHO4, ">")),
                                    nflog(attribute(9, ECHO6, ">"), family=10)], 239, ">"),
    "nflog_of_two_packets": pcap([nflog(attribute(9, ECHO4[:31]), attribute(9, ECHO6))], 239),
    # A first type of more than 8 bits hides the order, and a later one is of another attribute.
    "nflog_of_large_types": pcap([nflog(attribute(0x0100, b"", ">"), attribute(9, ECHO4, ">")),
                                  nflog(attribute(0x0109, b""), attribute(9, ECHO4)),
                                  nflog(attribute(1, b""), attribute(0x0109, b"abc"), attribute(9, ECHO4))], 239),
    "nflog_of_no_ip": pcap([nflog(attribute(9, ECHO4), family=7), nflog(attribute(9, ECHO4), version=1),
                            nflog(attribute(1, b"", length=3)), nflog(attribute(9, b"", ">", length=0))], 239),
    "nflog_that_ends": pcap([nflog()[:3], nflog(), nflog(hexed("0400 01")), nflog(hexed("0400 0900 040009")),
                             nflog(attribute(1, b"abcde")), nflog(attribute(9, b"abcd", length=9)),
                             nflog(attribute(1, b"abcd", length=9)), nflog(hexed("0500 0100 61"))], 239),
}

# Unnumbered information, behind addresses of two, three and four octets.
RELAYED, RELAYED3, RELAYED4 = hexed("1841 03"), hexed("1840 21 03"), hexed("1840 2021 03")
# Addresses of a wrong length and other control octets, and what ends before its headers do.
RELAYED_WRONGLY = ("1941 03cc 4500", "1941", "1840 2020 03cc", "1841 02cc", "1841 1000")
RELAYED_SHORT = ("", "19", "18", "1840", "1840 20", "1841", "1840 21", "1841 03", "1841 03 00", "1841 03 80 000000 08",
                 "1841 03 00 80", "1841 03 80 000000 8100 0005")

FRAME_RELAY = {
    "frame_relay_of_both_ips": pcap([RELAYED + b"\xcc" + ECHO4, RELAYED + b"\x8e" + ECHO6], 107),
    "frame_relay_of_long_addresses": pcap([RELAYED3 + b"\xcc" + ECHO4, RELAYED4 + b"\0\x8e" + ECHO6], 107),
    "frame_relay_of_snap": pcap([RELAYED + hexed("00 80 000000 0800") + ECHO4,
                                 RELAYED + hexed("80 000000 8100 0007 86dd") + ECHO6], 107),
    "frame_relay_of_no_ip": pcap([RELAYED + hexed(of) + ECHO4[:4] for of in
                                  ("00 80 00000c 2000", "80 010000 0800", "00 81", "0000", "80 000000 0806")], 107),
    "frame_relay_of_another_kind": pcap([hexed(of) for of in RELAYED_WRONGLY], 107),
    "frame_relay_that_ends": pcap([hexed(of) for of in RELAYED_SHORT], 107),
}

# ---- pcap


def cut(octets, length):
    """A record that keeps so many octets of a frame."""
    return pcap_header(1) + pcap_record(octets[:length], original_len=len(octets))


PCAP = {
    "pcap_of_big_end_first": pcap([ethernet(ECHO4)], order=">", part=123456),
    "pcap_of_nanoseconds": pcap([ethernet(ECHO4)], digits=9, part=123456789),
    "pcap_of_nanoseconds_of_big_end_first": pcap([ethernet(ECHO4)], order=">", digits=9, part=5),
    "pcap_with_more_than_a_second_of_microseconds": pcap([ethernet(ECHO4)], part=2500000),
    "pcap_of_no_packets": pcap([]),
    "pcap_of_version_2_3": pcap_header(1, version=(2, 3)) + pcap_record(ethernet(ECHO4)),
    "pcap_with_frame_ends_told": pcap_header(0x14000001) + pcap_record(ethernet(ECHO4)),
    "pcap_with_a_record_too_large": pcap_header(1) + struct.pack("<IIII", NOON, 0, 262145, 262145) + b"\0" * 40,
    "pcap_of_1970_and_2106": pcap_header(1) + pcap_record(ethernet(ECHO4), 0)
    + pcap_record(ethernet(ECHO6, 0x86DD), 2 ** 32 - 1, 999999),
    "no_capture": b"\xd4\xc3\xb2\xa2" + b"\0" * 20,
    "cut_within_the_link": cut(ethernet(ECHO4), 13),
    "cut_within_a_vlan": cut(ethernet(ECHO4, tags=[(0x8100, 5)]), 17),
    "cut_within_the_ipv4_header": cut(ethernet(ECHO4), 14 + 19),
    "cut_behind_the_ipv4_header": cut(ethernet(ECHO4), 14 + 27),
    "cut_of_ipv4_with_eight_octets": cut(ethernet(ECHO4), 14 + 28),
    "cut_within_the_ipv6_header": cut(ethernet(ECHO6, 0x86DD), 14 + 39),
    "cut_behind_the_ipv6_header": cut(ethernet(ECHO6, 0x86DD), 14 + 40),
    "cut_of_udp": cut(ethernet(udp4(b"\0" * 20, 40000, 53)), 14 + 30),
    "cut_of_udp_with_no_ports": cut(ethernet(udp6(b"\0" * 20, 40000, 53), 0x86DD), 14 + 43),
    "cut_of_tcp": cut(ethernet(ip4(b"\0" * 20, TCP)), 14 + 28),
}

# ---- pcapng

TICKS = NOON * 10 ** 6 + 123456


def resolution(value):
    return option(9, bytes([value]))


PCAPNG = {
    "pcapng_of_microseconds": section() + interface() + enhanced(ethernet(ECHO4), TICKS),
    "pcapng_of_big_end_first": section(">") + interface(order=">") + enhanced(ethernet(ECHO4), TICKS, ">"),
    "pcapng_of_nanoseconds": section() + interface(options=option(2, b"eth0") + resolution(9) + option(0, b""))
    + enhanced(ethernet(ECHO4), NOON * 10 ** 9 + 123456789),
    "pcapng_of_milliseconds": section() + interface(options=resolution(3)) + enhanced(ethernet(ECHO4), NOON * 1000 + 7),
    "pcapng_of_2_to_the_10": section() + interface(options=resolution(0x8A))
    + enhanced(ethernet(ECHO4), (NOON << 10) + 512),
    "pcapng_of_2_to_the_32": section() + interface(options=resolution(0xA0))
    + enhanced(ethernet(ECHO4), (NOON << 32) + 2 ** 30),
    "pcapng_of_whole_seconds": section() + interface(options=resolution(0)) + enhanced(ethernet(ECHO4), NOON * 100),
    "pcapng_with_an_offset": section() + interface(options=option(14, struct.pack("<q", NOON)))
    + enhanced(ethernet(ECHO4), 1500000),
    "pcapng_of_a_simple_packet": section() + interface() + simple(ethernet(ECHO4)),
    "pcapng_of_a_simple_packet_cut": section() + interface(snap_len=43) + simple(ethernet(ECHO4)[:43], original_len=46),
    "pcapng_of_an_obsolete_packet": section() + interface() + obsolete(ethernet(ECHO4), TICKS),
    "pcapng_of_a_cut_packet": section() + interface(snap_len=60)
    + enhanced(ethernet(ECHO6, 0x86DD)[:60], TICKS, original_len=66),
    "pcapng_with_options_of_a_packet": section() + interface()
    + enhanced(ethernet(ECHO4), TICKS, options=option(1, b"comment") + option(0, b"")),
    "pcapng_with_statistics": section() + interface() + block(5, struct.pack("<III", 0, 0, 0))
    + enhanced(ethernet(ECHO4), TICKS),
    "pcapng_with_an_unknown_block": section() + block(0x0BAD, b"\1\2\3") + interface()
    + enhanced(ethernet(ECHO4), TICKS),
    "pcapng_of_two_interfaces": section() + interface() + interface(101, options=resolution(9))
    + enhanced(ECHO6, NOON * 10 ** 9 + 1, place=1) + enhanced(ethernet(ECHO4), TICKS),
    "pcapng_of_two_sections": section() + interface() + enhanced(ethernet(ECHO4), TICKS) + section(">")
    + interface(101, ">") + enhanced(ECHO6, TICKS, ">"),
    "pcapng_of_version_1_2": section(version=(1, 2)) + interface(),
    "pcapng_of_version_2_0": section(version=(2, 0)) + interface(),
    "pcapng_of_no_interface": section() + enhanced(ethernet(ECHO4), TICKS),
    "pcapng_of_another_interface": section() + interface() + enhanced(ethernet(ECHO4), TICKS, place=1),
    "pcapng_of_a_section_alone": section(options=option(4, b"program") + option(0, b"")),
}


def captures():
    """All captures by name whose octets are damaged."""
    return named(LINKS, NFLOG, FRAME_RELAY, PCAP, PCAPNG, MESSAGES, DNS)


def mixed():
    """The captures by name of which the octets of the packets alone are damaged."""
    return named(TUNNELS, FRAGMENTS, SEGMENTS, NETWORKS, BRIEF, QUERIES, EXTENSIONS)


def named(*tables):
    every = {}
    for table in tables:
        for name, octets in table.items():
            assert name not in every and len(octets) <= 1200, name
            every[name] = octets
    return every


def large():
    """The captures that are too large for each octet to be damaged, by name."""
    return {**WHOLE_JUMBOGRAMS, **LONG_PARTS}


def many():
    """The captures of so many packets that none of their octets is damaged, by name."""
    return {**MOST, **MIXED}


def pages():
    """The captures by name of many messages that a page of statistics tells of."""
    return dict(PAGES)


def full_pages():
    """The captures by name of more than a page has rows for."""
    return dict(FULL)


def every():
    """All captures by name."""
    return {**captures(), **mixed(), **large(), **many(), **pages(), **full_pages()}
