"""Captures of ICMP errors with extensions (RFC 4884), and of quotes of IPv6 with extension headers."""
import struct

from building import (HOST4, HOST6, ICMP6, SERVER6, TCP, UDP, hexed, icmp4, ip4, ip6, ip6_icmp6, pcap, pcap_header,
                      pcap_record, sealed, v6)

UDP_HEADER = hexed("9c40 0035 05c8 0000")
QUOTE4 = ip4(UDP_HEADER, UDP, total=1500).ljust(128, b"\0")
QUOTE6 = ip6(UDP_HEADER, UDP, length=1456).ljust(128, b"\0")


def raw(*datagrams):
    return pcap(list(datagrams), 101)


def item(number, kind, data, length=None):
    """An object (RFC 4884 section 8)."""
    return struct.pack(">HBB", 4 + len(data) if length is None else length, number, kind) + data


def structure(*objects, version=2):
    """An extension structure with its checksum (RFC 4884 section 7)."""
    return sealed(bytes([version << 4]) + b"\0\0\0" + b"".join(objects), 2)


def error4(kind, code, behind, quote=QUOTE4, words=None, last=0):
    words = len(quote) // 4 if words is None else words
    return raw(icmp4(kind, code, struct.pack(">BBH", 0, words, last), quote + behind))


def error6(kind, code, behind, quote=QUOTE6, words=None):
    words = len(quote) // 8 if words is None else words
    return raw(ip6_icmp6(kind, code, struct.pack(">BBH", words, 0, 0), quote + behind))


def cut(datagram, *missing):
    """Records that lack so many octets at the end of a datagram."""
    return pcap_header(101) + b"".join(pcap_record(datagram[:-count], original_len=len(datagram)) for count in missing)


# ---- objects

def label(number, traffic_class, bottom, ttl):
    return struct.pack(">I", number << 12 | traffic_class << 9 | bottom << 8 | ttl)


LABELS = item(1, 1, label(16001, 0, 0, 1) + label(1048575, 5, 1, 254))
NAME = b"\x0ceth0/1.\"\\\x7f\0"
INTERFACE = item(2, 0x0F, hexed("00000003 0001 0000") + HOST4 + NAME + hexed("000005dc"))
INTERFACE6 = item(2, 0xC6, hexed("0002 0000") + v6("fe80::7") + hexed("04 613100"))
BARE = item(2, 0x40, b"") + item(2, 0x88, hexed("ffffffff 01"))
# Parts with octets behind them: an index, and a name that is padded further than it needs before an MTU.
SPARE = (item(2, 0x88, hexed("00000003 0102")) + item(2, 0xC3, b"\x0ca1".ljust(12, b"\0") + hexed("000005dc ff"))
         + item(2, 0x40, hexed("00000000")))
UNKNOWN = item(247, 9, hexed("01020304 05"))
REFUSED = (item(1, 1, b"\1\2\3\4\5\6"), item(2, 0x0C, hexed("00000001 0003 0000") + HOST4),
           item(2, 2, b"\x05abcd"), item(2, 2, b"\x44" + b"a" * 67), item(2, 9, hexed("00000001 0000")),
           item(2, 4, hexed("0001 0000 c000")), item(2, 2, b""), item(2, 2, b"\x08abc"), item(2, 4, hexed("0001")),
           item(2, 4, hexed("0002 0000") + HOST4))

EXTENSIONS = {
    "icmp4_error_with_labels": error4(11, 0, structure(LABELS)),
    "icmp4_error_with_an_interface": error4(3, 3, structure(INTERFACE, INTERFACE6, BARE)),
    "icmp4_error_with_octets_behind_interfaces": error4(11, 0, structure(SPARE)),
    "icmp4_error_with_other_objects": error4(12, 0, structure(
        UNKNOWN, item(1, 2, b"\1\2\3\4"), item(3, 1, b"eth0"), item(1, 1, b""), item(4, 1, b"\0\0\0\1"))),
    "icmp4_error_with_an_mtu_and_labels": error4(3, 4, structure(LABELS), last=1400),
    "icmp4_error_with_extensions_of_no_checksum": error4(11, 0, hexed("2fff 0000") + LABELS),
    "icmp4_error_with_a_wrong_checksum_of_extensions": error4(11, 0, hexed("2000 1234") + LABELS),
    "icmp4_error_with_extensions_of_version_1": error4(11, 1, structure(LABELS, version=1)),
    "icmp4_error_with_a_structure_of_nothing": error4(11, 0, structure()),
    "icmp4_error_with_a_cut_structure": error4(11, 0, hexed("2000 00")),
    "icmp4_error_with_a_cut_object": error4(11, 0, structure(LABELS, LABELS[:8])),
    "icmp4_error_with_a_cut_header_of_an_object": error4(11, 0, structure(LABELS, LABELS[:3])),
    "icmp4_error_with_an_object_of_3_bytes": error4(11, 0, structure(item(1, 1, b"\0\1\1\1", 3))),
    "icmp4_error_with_refused_objects": error4(11, 0, structure(*REFUSED)),
    "icmp4_error_of_a_short_length": error4(11, 0, structure(LABELS), words=31),
    "icmp4_error_of_a_cut_quote": error4(11, 0, b"", words=33),
    "icmp4_error_of_a_quote_alone": error4(11, 0, b""),
    "icmp4_redirect_of_a_gateway_that_would_be_a_length": error4(5, 0, structure(LABELS)),
    "icmp4_error_with_labels_behind_a_long_quote": error4(
        11, 0, structure(LABELS), ip4(UDP_HEADER + b"\7" * 120, UDP)),
    "icmp6_error_with_labels": error6(3, 0, structure(LABELS)),
    "icmp6_error_with_an_interface": error6(1, 0, structure(INTERFACE6, INTERFACE)),
    "icmp6_error_with_an_unknown_object": error6(1, 4, structure(UNKNOWN)),
    "icmp6_error_with_a_wrong_checksum_of_extensions": error6(3, 0, hexed("2000 1234") + LABELS),
    "icmp6_error_with_a_cut_object": error6(3, 1, structure(LABELS[:10])),
    "icmp6_error_of_a_short_length": error6(3, 0, structure(LABELS), words=15),
    "icmp6_error_of_a_cut_quote": error6(3, 0, b"", words=17),
    "icmp6_too_big_of_an_mtu_that_would_be_a_length": error6(2, 0, structure(LABELS)),
}

# ---- quotes of extension headers (RFC 8200 section 4)

HOP, ROUTE, FRAGMENT, OPTIONS = 0, 43, 44, 60
ALERT, PAD = hexed("05020000 0100"), hexed("0104 00000000")


def header(following, data=PAD):
    return bytes([following, len(data) // 8]) + data


def fragment(following, offset, more):
    return struct.pack(">BBHI", following, 0, offset + more, 1)


def quoting(payload, protocol):
    return ip6_icmp6(3, 1, b"\0" * 4, ip6(payload, protocol, length=1456))


CHAIN = (header(ROUTE, ALERT) + header(OPTIONS, hexed("04 00 00000000") + SERVER6) + header(FRAGMENT, PAD + PAD[:2]
         + b"\0" * 6) + fragment(TCP, 0, 1) + UDP_HEADER)
BEHIND_OPTIONS = header(UDP) + UDP_HEADER

QUOTES = {
    "icmp6_quote_of_options": raw(quoting(BEHIND_OPTIONS, OPTIONS), quoting(header(UDP)[:7], HOP)),
    "icmp6_quote_of_headers": raw(quoting(CHAIN, HOP)),
    "icmp6_quote_of_cut_headers": raw(*(quoting(CHAIN[:length], HOP) for length in (7, 31, 47, 55, 59))),
    "icmp6_quote_of_fragments": raw(
        quoting(fragment(UDP, 0, 1) + UDP_HEADER, FRAGMENT), quoting(fragment(UDP, 0, 0) + UDP_HEADER[:4], FRAGMENT),
        quoting(fragment(UDP, 8, 0) + UDP_HEADER, FRAGMENT), quoting(fragment(UDP, 0, 1)[:7], FRAGMENT)),
    "icmp6_quote_of_no_next_header": raw(quoting(header(59) + UDP_HEADER, OPTIONS),
                                         quoting(header(51) + UDP_HEADER, OPTIONS),
                                         quoting(header(ICMP6) + UDP_HEADER, OPTIONS)),
    "icmp6_quote_of_options_with_labels": error6(
        3, 0, structure(LABELS), ip6(BEHIND_OPTIONS, OPTIONS, HOST6, SERVER6).ljust(128, b"\0")),
    # Of less than a header of UDP, with zeros behind it (RFC 4884 section 4), and of other lengths.
    "icmp4_quote_of_a_padded_datagram": error4(11, 0, structure(LABELS), ip4(b"\1\2", UDP).ljust(128, b"\0")),
    "icmp4_quotes_of_other_lengths": raw(*(
        icmp4(11, 0, b"\0" * 4, ip4(UDP_HEADER, UDP, options=options, total=total)) for options in (b"", b"\1" * 4)
        for total in (0, 19, 20, 23, 24, 27, 28))),
    "icmp6_quote_of_a_padded_packet": error6(
        3, 0, structure(LABELS), ip6(header(UDP) + b"\1\2", OPTIONS).ljust(128, b"\0")),
    "icmp6_quotes_of_other_lengths": raw(*(
        ip6_icmp6(3, 0, b"\0" * 4, ip6(payload, protocol, length=length))
        for payload, protocol, lengths in ((UDP_HEADER, UDP, (0, 3, 4)), (BEHIND_OPTIONS, OPTIONS, (0, 7, 11, 12)),
                                           (BEHIND_OPTIONS, HOP, (0, 11)))
        for length in lengths)),
}
EXTENSIONS.update(QUOTES)

# ---- errors that the capture cut

# Their structure has 25 octets: its header, labels and an object of 9. The checksum of what is left is not that of all.
WHOLE4 = icmp4(11, 0, struct.pack(">BBH", 0, 32, 0), QUOTE4 + structure(LABELS, UNKNOWN))
WHOLE6 = ip6_icmp6(3, 0, struct.pack(">BBH", 16, 0, 0), QUOTE6 + structure(LABELS, UNKNOWN))

EXTENSIONS.update({
    "icmp4_error_cut_within_its_extensions": cut(WHOLE4, 3, 9),
    "icmp4_error_cut_within_a_header_of_extensions": cut(WHOLE4, 6, 21, 22, 24),
    "icmp4_error_cut_at_its_extensions": cut(WHOLE4, 25, 26),
    "icmp4_error_of_version_1_cut_within_its_extensions": cut(
        icmp4(11, 0, struct.pack(">BBH", 0, 32, 0), QUOTE4 + structure(LABELS, version=1)), 1),
    "icmp6_error_cut_within_its_extensions": cut(WHOLE6, 3, 9, 17),
    "icmp6_error_cut_within_a_header_of_extensions": cut(WHOLE6, 6, 21, 22),
})
