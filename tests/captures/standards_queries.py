"""Captures of messages of ICMP that are neither errors nor echoes, of raw IP: each good, cut short, and refused."""
from building import HOST4, HOST6, SERVER4, SERVER6, hexed, icmp4, ip6_icmp6, pcap, pcap_header, pcap_record, v4
from text import word_sum

NUMBERS = hexed("1234 0001")
# 43,200,000 milliseconds behind midnight, and later ones; the last is no time of day (RFC 792).
TIMES = hexed("02932e00 02932e01 80000001")
ROUTERS = v4("224.0.0.2"), v4("224.0.0.1")
# Routers with a preference level of 0, of -1, and as none by default (RFC 1256 section 2.3).
ENTRIES = v4("192.0.2.1") + hexed("00000000"), v4("192.0.2.2") + hexed("ffffffff"), v4("192.0.2.3") + hexed("80000000")
# What a mobility agent has behind its routers: a foreign agent and its care-of address (RFC 5944 section 2.1.1).
AGENT = hexed("10 0a 0001 0708 9000") + v4("192.0.2.1")


def raw(*datagrams):
    return pcap(list(datagrams), 101)


def cut(datagram, *missing):
    """Records that lack so many octets at the end of a datagram."""
    return pcap_header(101) + b"".join(pcap_record(datagram[:-count], original_len=len(datagram)) for count in missing)


def asked(form, payload, kind=3, version=0x20):
    """The extension structure of a request about an interface, whose checksum is none (RFC 8335 section 2.1)."""
    length = 4 + len(payload)
    return bytes([version, 0, 0, 0]) + length.to_bytes(2, "big") + bytes([kind, form]) + payload


def summed(structure):
    """The structure with its checksum (RFC 4884 section 7)."""
    return structure[:2] + (65535 - word_sum(structure) % 65535).to_bytes(2, "big") + structure[4:]


def about(payload):
    """The message that a node is asked by, in both ICMPs."""
    return raw(icmp4(42, 0, hexed("1234 07 01"), payload), ip6_icmp6(160, 0, hexed("1234 07 00"), payload))


def node(kind, code, qtype, flags, data=b""):
    return ip6_icmp6(kind, code, qtype.to_bytes(2, "big") + flags.to_bytes(2, "big"), hexed("0123456789abcdef") + data)


QUERIES = {
    "icmp4_timestamps": raw(
        icmp4(13, 0, NUMBERS, TIMES[:4] + b"\0" * 8), icmp4(14, 0, NUMBERS, TIMES),
        icmp4(14, 0, NUMBERS, TIMES + b"\7")),
    "icmp4_timestamps_that_are_refused": raw(
        icmp4(13, 1, NUMBERS, TIMES), icmp4(14, 0, NUMBERS, TIMES[:11]), icmp4(13, 0, NUMBERS)),
    "icmp4_address_masks": raw(
        icmp4(17, 0, NUMBERS, b"\0" * 4), icmp4(18, 0, NUMBERS, v4("255.255.255.0")),
        icmp4(18, 0, NUMBERS, v4("255.255.255.0") + b"\1\2")),
    "icmp4_address_masks_that_are_refused": raw(
        icmp4(17, 9, NUMBERS, b"\0" * 4), icmp4(18, 0, NUMBERS, b"\xff\xff\xff")),
    "icmp4_routers": raw(
        icmp4(10, 0, b"\0" * 4, destination=ROUTERS[0], ttl=1), icmp4(10, 0, b"\0" * 4, b"\5"),
        icmp4(9, 0, hexed("03 02 0708"), b"".join(ENTRIES), destination=ROUTERS[1], ttl=1),
        icmp4(9, 0, hexed("01 03 0708"), ENTRIES[0] + hexed("cafebabe") + b"\1\2")),
    "icmp4_routers_that_are_refused": raw(
        icmp4(10, 1, b"\0" * 4), icmp4(9, 1, hexed("01 02 0708"), ENTRIES[0]), icmp4(9, 0, hexed("00 02 0708")),
        icmp4(9, 0, hexed("01 01 0708"), ENTRIES[0]), icmp4(9, 0, hexed("02 02 0708"), ENTRIES[0] + ENTRIES[1][:7])),
    "icmp4_routers_that_are_missing": raw(
        icmp4(9, 0, hexed("01 02 0708")), icmp4(9, 0, hexed("03 02 0708"), ENTRIES[0] + ENTRIES[1]),
        icmp4(9, 0, hexed("01 03 0708"), ENTRIES[0])),
    "icmp4_routers_that_route_no_common_traffic": raw(
        icmp4(9, 16, hexed("02 02 0708"), ENTRIES[0] + ENTRIES[1] + AGENT, destination=ROUTERS[1], ttl=1),
        icmp4(9, 16, hexed("02 02 0708"), ENTRIES[0] + ENTRIES[1][:7]), icmp4(9, 16, hexed("00 02 0708")),
        icmp4(9, 17, hexed("01 02 0708"), ENTRIES[0])),
    "icmp4_security_failures": raw(*(icmp4(40, code, hexed("0000 0000"), hexed("00000100")) for code in range(7))),
    "extended_echo_by_name": about(asked(1, b"eth0")),
    "extended_echo_by_a_padded_name": about(asked(1, b'a"b\\c\xc3\n\0')),
    "extended_echo_by_a_name_with_zeros_and_a_space": about(asked(1, b"\0eth0\0 \0")),
    "extended_echo_by_index": about(asked(2, hexed("00000007"))),
    "extended_echo_by_address": about(asked(3, hexed("0001 04 00") + SERVER4)),
    "extended_echo_by_address_of_ipv6": about(asked(3, hexed("0002 10 00") + SERVER6) + b"\1\2\3\4"),
    "extended_echo_by_link_layer_address": about(asked(3, hexed("0006 06 00 020000000001 0000"))),
    "extended_echo_by_mac48_address": about(asked(3, hexed("4005 06 00 020000000001"))),
    "extended_echoes_by_addresses_of_other_lengths": raw(*(icmp4(42, 0, NUMBERS, asked(3, hexed(its))) for its in (
        "0002 04 00 c0000201", "0001 06 00 020000000001 0000", "0006 04 00 c0000201", "4005 00 00", "0003 02 00 1234",
        "0001 10 00 20010db8000000000000000000000001"))),
    "extended_echoes_with_octets_behind_addresses": raw(*(icmp4(42, 0, NUMBERS, octets) for octets in (
        asked(3, hexed("0006 06 00 020000000001 00")), asked(3, hexed("0006 06 00 020000000001 0007")),
        asked(3, hexed("0006 06 00 020000000001 0000 00")) + b"\5",
        asked(3, hexed("0001 04 00 c0000201 00")) + b"\6", asked(1, b"eth0") + b"\0\7"))),
    "extended_echo_with_a_checksum": about(summed(asked(2, hexed("00000007")))),
    "extended_echo_that_is_cut": cut(icmp4(42, 0, NUMBERS, summed(asked(1, b"eth0")) + bytes(4)), 3, 5, 9),
    "extended_echoes_that_are_refused": raw(*(icmp4(42, 0, NUMBERS, octets) for octets in (
        b"", hexed("200000"), hexed("20000000"), hexed("20000000 0008 03"), hexed("2000dbf6 0008 0302 00000100"),
        asked(2, hexed("00000007"), version=0x10), hexed("20000000 0003 0301"), asked(1, b"eth0")[:11],
        asked(2, hexed("00000007"), kind=2), asked(2, b"\7"), asked(4, b"eth0"), asked(3, b"\0\1\4"),
        asked(3, hexed("0001 05 00") + HOST4)))),
    "extended_echo_replies": raw(
        icmp4(43, 0, hexed("1234 07 06"), source=SERVER4, destination=HOST4), icmp4(43, 2, hexed("1234 07 00")),
        ip6_icmp6(161, 0, hexed("1234 07 5d")), ip6_icmp6(161, 4, hexed("1234 07 e0"), b"\1"),
        ip6_icmp6(161, 9, hexed("1234 07 1f"))),
    "node_information_queries": raw(
        node(139, 0, 3, 0x003E, SERVER6), node(139, 1, 2, 0, hexed("04686f737400 00")), node(139, 2, 4, 2, SERVER4),
        node(139, 1, 0, 0), node(139, 0, 3, 0xFFC0, SERVER6[:15]), node(139, 3, 1, 0x8021, SERVER4)),
    "node_information_of_addresses": raw(
        node(139, 0, 3, 0x0020, SERVER6), node(140, 0, 3, 0x0021, hexed("00000e10") + SERVER6)),
    "node_information_responses": raw(
        node(140, 0, 3, 0x0021, hexed("00000e10") + HOST6 + hexed("00000000") + SERVER6),
        node(140, 0, 4, 2, hexed("0000003c") + SERVER4 + hexed("00000078") + HOST4[:3]),
        node(140, 0, 2, 0, hexed("00000000 04686f737400 00")), node(140, 1, 3, 0), node(140, 2, 9, 0x0001),
        node(140, 0, 3, 0), node(140, 0, 3, 0, hexed("00000e10"))),
    "node_information_that_is_refused": raw(
        ip6_icmp6(139, 0, hexed("0003 0000"), hexed("01234567")), ip6_icmp6(140, 1, hexed("0003 0000"))),
    "queries_that_are_cut": pcap_header(101) + b"".join(
        pcap_record(datagram[:-missing], original_len=len(datagram)) for datagram, missing in (
            (icmp4(14, 0, NUMBERS, TIMES), 4), (icmp4(18, 0, NUMBERS, v4("255.255.255.0")), 5),
            (icmp4(9, 0, hexed("02 02 0708"), ENTRIES[0] + ENTRIES[1]), 1),
            (icmp4(42, 0, NUMBERS, asked(1, b"eth0")), 2), (node(140, 0, 4, 2, b"\0" * 4 + SERVER4), 3),
            (node(139, 0, 3, 0x003E, SERVER6), 20))),
}
