"""Captures of datagrams that come in fragments, of raw IP."""
import struct

from building import (GRE, HOST4, HOST6, ICMP4, ICMP6, IP4, IP6, SERVER4, SERVER6, TCP, UDP, ethernet, gre, hexed, icmp,
                      icmp6, ip4, ip6, message, name, part4, part6, pcap, pcap_header, pcap_record, pointer, question,
                      record, tcp, udp, v6)
from standards_tunnels import broken, outer4, outer6, raw

ECHO = hexed("1234 0001")
# Messages of 24 octets.
PING4 = icmp(8, 0, ECHO, b"abcdefghijklmnop")
PING6 = icmp6(128, 0, ECHO, b"abcdefghijklmnop", HOST6, SERVER6)
QUERY = message(0x0100, [question(name("a."), 1)])
ASKED = udp(QUERY, 40000, 53)
ASKED6 = udp(QUERY, 40000, 53, HOST6, SERVER6)
OPTION4 = hexed("94040000")
THIRDS = ((0, 8), (8, 16), (16, 24))


def parts(places, ident=1, payload=PING4, part=part4, **fields):
    """The fragments of a datagram between these places."""
    return [part(payload, start, end, ident=ident, **fields) for start, end in places]


def three(order, ident=1, **fields):
    """The thirds of a message in some order."""
    return parts([THIRDS[int(at)] for at in order], ident, **fields)


def three6(order, ident=1, payload=PING6, **fields):
    return three(order, ident, payload=payload, part=part6, **fields)


WHOLE = {
    "fragments_in_order": raw(*three("012")),
    "fragments_in_any_order": raw(*three("021"), *three("102", 2), *three("120", 3), *three("201", 4)),
    "fragments_from_the_last": raw(*three("210")),
    "fragments_of_two": raw(*parts(((0, 16), (16, 24))), *parts(((8, 24), (0, 8)), 2)),
    "fragments_of_several_at_once": raw(*three("0"), *three("2", 2), *three("1"), *three("0", 2), *three("2"),
                                        *three("1", 2)),
    "fragments_without_the_first": raw(*three("12")),
    "fragments_without_the_last": raw(*three("10")),
    "fragments_of_dns": raw(*parts(((0, 8), (8, len(ASKED))), payload=ASKED, protocol=UDP)),
    "fragments_of_udp_without_ports": raw(*parts(((8, len(ASKED)),), payload=ASKED, protocol=UDP)),
    "fragments_of_other_ports": raw(*parts(((0, 8), (8, 12)), payload=udp(b"abcd", 1, 2), protocol=UDP)),
    "fragments_of_dns_over_tcp": raw(*parts(((0, 24), (24, 41)), protocol=TCP,
                                            payload=tcp(struct.pack(">H", len(QUERY)) + QUERY, 40000, 53))),
    "fragments_of_other_protocols": raw(*parts(((0, 8), (8, 20)), 1, b"\0" * 20, protocol=TCP),
                                        *parts(((0, 8), (8, 9)), 2, b"\0" * 9, protocol=253)),
    "fragments_of_a_wrong_checksum": raw(*parts(((0, 8), (8, 24)), payload=PING4[:-1] + b"q")),
    "fragments_of_a_longer_udp": raw(*parts(((0, 8), (8, 24)), payload=udp(QUERY, 40000, 53)[:24], protocol=UDP)),
    "fragments_of_a_shorter_udp": raw(*parts(((0, 8), (8, 35)), payload=ASKED + b"\0" * 8, protocol=UDP)),
    "fragments_of_three_octets": raw(*parts(((0, 8), (8, 11)), payload=b"\x9c\x40\0\x35\0\x0b\0\0abc", protocol=UDP)),
    "fragments_of_another_type": raw(*parts(((0, 8), (8, 20)), payload=icmp(13, 0, ECHO, b"\0" * 12))),
    "fragments_with_a_vlan": pcap([ethernet(of, tags=[(0x8100, vlan)]) for vlan, of in enumerate(three("012"), 5)]),
    "fragments_with_padding": pcap([ethernet(of) + b"\0" * 18 for of in three("02")] + [ethernet(three("1")[0])]),
    "fragments_of_one_identification": raw(*three("0"), *three("1", protocol=ICMP6), *three("2", source=SERVER4),
                                           *three("1", destination=HOST4), *three("12")),
    "fragments_with_other_headers": raw(*three("0", ttl=9), *three("1", ttl=8, options=OPTION4), *three("2")),
}

AGAIN = {
    "fragments_repeated": raw(*three("00112")),
    "fragment_repeated_with_another_header": raw(*three("0"), *three("0", ttl=1), *three("12")),
    "fragments_repeated_behind_the_whole": raw(*three("0122")),
    "fragments_whole_twice": raw(*three("012210")),
    "fragment_of_other_octets": raw(*three("0"), *three("0", payload=PING4[::-1]), *three("12")),
    "fragment_that_overlaps": raw(*parts(((0, 16), (8, 24), (8, 16), (16, 24), (0, 16)))),
    "fragment_that_overlaps_by_an_octet": raw(part4(PING4, 16, 24, more=1), part4(PING4, 8, 17, more=0), *three("0")),
    "fragment_within_another": raw(*parts(((0, 24), (8, 16)), more=1)),
    "fragment_around_another": raw(*parts(((8, 16), (0, 24)), more=1)),
    "fragments_behind_an_overlap": raw(*parts(((0, 16), (8, 24), (16, 24))), *three("012", 2)),
    "fragment_that_ends_it_or_not": raw(*three("12"), part4(PING4, 16, 24, more=1), *three("0")),
    "fragment_that_ends_it_and_not": raw(part4(PING4, 8, 16), part4(PING4, 8, 16, more=0), *three("0")),
    "fragment_behind_the_last": raw(part4(PING4, 8, 16, more=0), *three("2"), *three("0")),
    "fragment_before_that_is_the_last": raw(*three("2"), part4(PING4, 8, 16, more=0), *three("0")),
    "fragment_behind_the_last_that_goes_on": raw(part4(PING4, 0, 8), part4(PING4, 8, 16, more=0),
                                                 part4(PING4, 16, 24, more=1)),
    "fragment_that_is_another_last_one": raw(part4(PING4, 16, 20, more=0), part4(PING4, 8, 12, more=0), *three("0")),
}

FAR = b"\0" * 65536
WRONG = {
    "fragment_of_an_odd_length": raw(part4(PING4, 0, 9, more=1), part4(PING4, 8, 15, more=1), *three("012")),
    "fragment_that_is_empty": raw(part4(PING4, 0, 0), part4(PING4, 8, 8, more=0), *three("012")),
    "fragment_at_the_end_of_all": raw(part4(FAR, 65512, 65515, more=0), part4(FAR, 65512, 65516, 1, False, 2),
                                      part4(FAR, 65504, 65512), part4(FAR, 65512, 65520, ident=4)),
    "fragment_at_the_end_with_options": raw(part4(FAR, 65504, 65511, more=0, options=OPTION4),
                                            part4(FAR, 65504, 65512, more=0, options=OPTION4, ident=2)),
    "fragment_too_far_for_the_first": raw(part4(FAR, 65512, 65515, more=0), part4(FAR, 0, 8, options=OPTION4),
                                          part4(FAR, 0, 8, options=OPTION4, ident=2),
                                          part4(FAR, 65512, 65515, more=0, ident=2)),
    "fragment_at_the_last_place": raw(part4(FAR, 65528, 65529, more=0), part4(FAR, 65528, 65536)),
    "fragment_past_the_end_of_all": raw(part4(FAR, 65528, 65536), *three("012")),
    "fragment_refused_of_other_protocols": raw(*parts(((0, 9), (8, 16)), payload=b"\0" * 24, more=1, protocol=TCP),
                                               *parts(((0, 9),), payload=b"\0" * 24, more=1, protocol=GRE)),
    "fragment_refused_of_udp": raw(*parts(((0, 9), (8, 9)), payload=ASKED, more=1, protocol=UDP),
                                   *parts(((0, 3),), payload=ASKED, more=1, protocol=UDP)),
    "fragment_longer_than_its_frame": raw(part4(PING4, 0, 8, total=29), *three("012")),
    "fragment_of_a_wrong_header_length": raw(b"\x44" + part4(PING4, 0, 8)[1:], part4(PING4, 0, 8, total=19)),
    "fragment_of_a_wrong_header_checksum": raw(broken(part4(PING4, 0, 8), 10), *three("12"),
                                               broken(part4(PING4, 0, 9, more=1, ident=2), 10)),
}


def cut(lengths, *datagrams):
    """A capture that kept so many octets of each of these datagrams, and all octets of the others."""
    return pcap_header(101) + b"".join(
        pcap_record(of[:length], original_len=len(of)) for of, length in zip(datagrams, lengths + [None] * 9))


CUT = {
    "fragment_cut": cut([27], *three("0012")),
    "fragment_cut_of_the_header": cut([20, 19], *three("00")),
    "fragments_cut_of_udp": cut([24, 23, 24], *parts(((0, 8), (0, 8), (8, 24)), payload=ASKED, protocol=UDP)),
    "fragments_cut_of_tcp": cut([27, 27], *parts(((0, 8), (8, 24)), payload=PING4, protocol=TCP)),
    "fragment_cut_in_a_tunnel": cut([47, 47], outer4(three("0")[0]), outer4(broken(three("0")[0], 10)),
                                    *map(outer4, three("012"))),
    "fragment_cut_of_a_tunnel": cut([27], *parts(((0, 8), (8, 24)), payload=PING4, protocol=IP4)),
    "fragment_cut_of_ipv6": cut([55, 48, 47], *three6("000")),
    "fragment_cut_of_ipv6_with_ports": cut([52, 51, 52], part6(ASKED6, 0, 16, UDP), part6(ASKED6, 0, 16, UDP),
                                           part6(ASKED6, 8, 16, UDP)),
    "fragments_cut_behind_them": pcap_header(101) + b"".join(
        pcap_record(of, original_len=len(of) + 1) for of in
        parts(((0, 16), (16, 32), (32, 44)), payload=ip4(PING4, ICMP4, total=45), protocol=IP4)),
    "fragment_whole_in_a_cut_frame": cut([28], three("0")[0] + b"\0", *three("12")),
}

# ---- of IPv6


def header(following, content="010400000000"):
    """A header that extends IPv6, of eight octets."""
    return bytes([following, 0]) + hexed(content)


# Hop-by-hop options before a fragment: a router alert, another one, and one of 16 octets.
ALERT = header(44, "05020000 0100")
OTHER_ALERT = header(44, "05020001 0100")
LONG_ALERT = bytes([44, 1]) + hexed("05020002 1e08a1a2a3a4a5a6a7a8")

OPTIONS = header(ICMP6) + PING6
ROUTE = hexed("2c02 0001 00000000") + SERVER6
OTHER6 = v6("2001:db8::2")


def behind(front, following, order="012", ident=1, payload=PING6):
    """Fragments behind other headers."""
    return [ip6(front + part6(payload, *THIRDS[int(at)], ident=ident)[40:], following) for at in order]


OF_IPV6 = {
    "fragments6_in_order": raw(*three6("012")),
    "fragments6_in_any_order": raw(*three6("201"), *three6("120", 2)),
    "fragments6_of_dns": raw(*parts(((8, len(ASKED)), (0, 8)), payload=ASKED6, part=part6, following=UDP)),
    "fragments6_behind_options": raw(*behind(ALERT, 0)),
    "fragments6_behind_options_of_the_first": raw(*behind(ALERT, 0, "0"), *three6("12")),
    "fragments6_behind_options_of_the_last": raw(*three6("01"), *behind(ALERT, 0, "2")),
    "fragments6_behind_options_of_each": raw(*behind(OTHER_ALERT, 0, "1"), *behind(ALERT, 0, "2"),
                                             *behind(LONG_ALERT, 0, "0")),
    "fragments6_repeated_behind_other_options": raw(*behind(ALERT, 0, "0"), *behind(OTHER_ALERT, 0, "0"),
                                                    *three6("12")),
    "fragments6_behind_two_headers_of_options": raw(*behind(header(0, "05020001 0100") + ALERT, 0)),
    "fragments6_behind_options_behind_others": raw(*behind(header(0) + ALERT, 60)),
    "fragments6_of_destination_options": raw(*parts(((0, 8), (8, 32)), payload=OPTIONS, part=part6, following=60)),
    "fragments6_behind_destination_options": raw(*behind(header(44), 60)),
    "fragments6_on_a_route": raw(*behind(ROUTE, 43, payload=PING6)),
    "fragments6_of_options_in_two": raw(*parts(((0, 8), (8, 40)), part=part6, following=60, payload=bytes([ICMP6, 1])
                                               + hexed("010c") + b"\0" * 12 + PING6)),
    "fragments6_of_a_torn_header": raw(*parts(((0, 8), (8, 24)), part=part6, following=60,
                                              payload=b"\x3a\x09" + FAR[:22])),
    "fragments6_of_hop_by_hop": raw(*parts(((0, 8), (8, 32)), part=part6, following=0, payload=OPTIONS)),
    "fragments6_of_other_following_headers": raw(*three6("0"), *three6("1", following=UDP), *three6("2", following=60)),
    "fragments6_whose_first_is_of_another": raw(*three6("12"), *three6("0", following=UDP)),
    "fragments6_of_other_addresses": raw(*three6("0"), *three6("1", source=OTHER6), *three6("1", 2),
                                         *three6("12")),
    "fragments6_alone": raw(part6(PING6, 0, 24), ip6(header(44, "010400000000") + part6(PING6, 0, 24)[40:], 60)),
    "fragments6_in_fragments": raw(*parts(((0, 16), (16, 24)), part=part6, following=44,
                                          payload=hexed("3a00 0001 00000007") + PING6[:16])),
    "fragments6_of_one_alone": raw(*parts(((0, 16), (16, 32)), part=part6, following=44,
                                          payload=hexed("3a00 0000 00000007") + PING6)),
    "fragments6_overlapping": raw(*three6("0"), part6(PING6, 0, 16), *three6("12")),
    "fragments6_repeated": raw(*three6("001122")),
    "fragment6_of_an_odd_length": raw(part6(PING6, 0, 9, more=1), *three6("012")),
    "fragment6_that_is_empty": raw(part6(PING6, 8, 8, more=0), *three6("012")),
    "fragment6_at_the_end_of_all": raw(part6(FAR, 65528, 65535, more=0), part6(FAR, 65528, 65536, ident=2),
                                       ip6(header(44) + part6(FAR, 65520, 65527, more=0, ident=3)[40:], 60),
                                       ip6(header(44) + part6(FAR, 65520, 65528, more=0, ident=4)[40:], 60)),
    "fragment6_longer_than_its_frame": raw(part6(PING6, 0, 8, length=17), *three6("012")),
    "fragment6_refused_of_others": raw(*(part6(PING6, 0, 9, following, 1) for following in (TCP, UDP, 60, IP4, 59))),
    "fragment6_with_reserved_bits": raw(*(of[:41] + b"\xff" + of[42:43] + bytes([of[43] | 6]) + of[44:]
                                          for of in three6("012"))),
}

# ---- in tunnels

INNER4 = ip4(PING4, ICMP4)
INNER6 = ip6(PING6, ICMP6)


def outside(order, payload=INNER4, protocol=IP4, ident=1):
    """A datagram of 44 octets or more in three fragments of a tunnel."""
    places = ((0, 16), (16, 32), (32, len(payload)))
    return [part4(payload, *places[int(at)], protocol, ident=ident) for at in order]


IN_TUNNELS = {
    "fragments_in_a_tunnel": raw(*map(outer4, three("102"))),
    "fragments6_in_a_tunnel": raw(*(outer4(of, IP6) for of in three6("012"))),
    "fragments6_behind_options_in_a_tunnel": raw(*(outer4(of, IP6) for of in behind(ALERT, 0, "102"))),
    "fragments6_behind_options_of_a_tunnel": raw(*(ip6(LONG_ALERT + part6(INNER6, start, end, IP6)[40:], 0)
                                                   for start, end in ((0, 16), (16, len(INNER6))))),
    "fragments_in_gre": raw(*(outer6(gre(of), GRE) for of in three("021"))),
    "fragments_of_a_tunnel": raw(*outside("012"), *outside("210", INNER6, IP6, 2)),
    "fragments_of_gre": raw(*outside("201", gre(INNER4, 0x0800, 0x2000, ECHO), GRE)),
    "fragments6_of_a_tunnel": raw(*parts(((0, 24), (24, 44)), payload=INNER4, part=part6, following=IP4)),
    "fragments_of_gre_of_another_network": raw(*parts(((0, 8), (8, 12)), 1, gre(b"\0" * 8, 0x0806), protocol=GRE)),
    "fragments_of_gre_that_ends": raw(*parts(((0, 8), (8, 11)), 1, gre(b"\0" * 7, 0x0800, 0xB000), protocol=GRE)),
    "fragments_of_a_tunnel_of_a_longer_one": raw(*outside("012", ip4(PING4, ICMP4, total=45))),
    "fragments_of_a_tunnel_of_a_wrong_header": raw(*outside("012", broken(INNER4, 10))),
    "fragments_of_a_tunnel_of_another": raw(*outside("012", ip4(b"\0" * 24, TCP)), *outside("01", ident=2)),
    "fragment_in_a_datagram_of_fragments": raw(*outside("01", part4(PING4 + PING4, 0, 24)),
                                               *outside("2", part4(PING4 + PING4, 0, 24))),
    "fragments6_in_a_datagram_of_fragments": raw(*outside("012", part6(ASKED6, 0, 16, UDP), IP6)),
    "fragments_of_four_tunnels": raw(*(outer4(outer6(outer4(gre(of), GRE), IP4), IP6) for of in three("02"))),
    "fragments_in_other_tunnels": raw(outer4(three("0")[0]), outer6(three("1")[0], IP4), *three("2")),
    "fragments_in_and_out_of_tunnels": raw(*(of for one in three("012") for of in (outer4(one), one))),
    "fragments_of_a_tunnel_and_in_it": raw(outer4(three("0")[0]), *outside("012", three("1")[0] + FAR[:16]),
                                           *three("2")),
}

# Datagrams that are not whole yet, of more than are kept: the first is forgotten.
MANY = [part4(PING4, 0, 8, ident=ident) for ident in range(1, 66)]
SMALL = b"".join(struct.pack(">Q", at) for at in range(300))


def pieces(count, more):
    """Fragments of eight octets, all but the first."""
    return [part4(SMALL, 8 * at, 8 * at + 8, more=at + 1 < count or more) for at in range(1, count)]


# A query with as many octets behind it as a datagram has.
LARGE = udp(QUERY + bytes(65507 - len(QUERY)), 40000, 53)
QUARTERS = ((0, 16384), (16384, 32768), (32768, 49152), (49152, 65515))

MOST = {
    "fragments_of_64_large_datagrams": raw(*(part4(LARGE, *place, UDP, ident=ident) for place in QUARTERS
                                             for ident in range(64))),
    "fragments_of_64_datagrams": raw(*MANY[:64], *parts(((8, 24),), 1), *parts(((8, 24),), 64)),
    "fragments_of_65_datagrams": raw(*MANY, *parts(((8, 24),), 1), *parts(((8, 24),), 2), *parts(((8, 24),), 65)),
    "fragments_forgotten_in_turn": raw(*parts(((8, 16),), 1), *MANY[1:64], *MANY[:1], *parts(((16, 24),), 70),
                                       *parts(((16, 24),), 1), *parts(((8, 24),), 2), *parts(((8, 24),), 3)),
    "fragments_forgotten_that_were_refused": raw(*parts(((0, 16), (8, 24)), 1), *MANY[1:], *three("012", 1)),
    "fragments_of_64_and_a_whole_one": raw(*MANY[:63], *three("012", 70), *three("0", 71), *parts(((8, 24),), 1)),
    "fragments_of_64_and_a_refused_one": raw(*MANY[:64], part4(PING4, 0, 9, more=1, ident=70), *parts(((8, 24),), 1)),
    "fragments_of_256": raw(*pieces(256, False), part4(SMALL, 0, 8)),
    "fragments_of_257": raw(*pieces(257, False), part4(SMALL, 0, 8), part4(SMALL, 0, 8)),
    "fragments_of_257_of_which_one_is_repeated": raw(*pieces(257, True), part4(SMALL, 8, 16), part4(SMALL, 0, 8),
                                                     part4(SMALL, 8, 16)),
    "fragments_of_a_large_datagram": raw(*(part4(FAR[:65515], at, min(at + 8192, 65515))
                                           for at in range(0, 65515, 8192))),
    "fragments6_of_a_large_datagram": raw(*(part6(FAR[:65535], at, min(at + 8192, 65535), UDP)
                                            for at in range(0, 65535, 8192))),
}

ANSWER = udp(message(0x8180, [question(name("a."), 16)], [record(pointer(12), 16, b"\x1e" + b"long" * 7 + b"er")]),
             53, 40000, SERVER4, HOST4)

# Some as the manual shows them.
SHOWN = {
    "dns_in_fragments": raw(*parts(((0, 32), (32, len(ANSWER))), 4660, ANSWER, protocol=UDP, source=SERVER4,
                                   destination=HOST4)),
    "icmp6_in_fragments": raw(*behind(ALERT, 0, "201")),
    "tunnel_in_fragments": raw(*parts(((0, 24), (24, 52)), 4660, gre(INNER4 + b"\0" * 4), protocol=GRE)),
}

FRAGMENTS = {**SHOWN, **WHOLE, **AGAIN, **WRONG, **CUT, **OF_IPV6, **IN_TUNNELS}
