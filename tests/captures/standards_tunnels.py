"""Captures of datagrams in tunnels, of raw IP."""
from building import (GRE, GROUP4, HOST4, HOST6, ICMP4, ICMP6, IP4, IP6, SERVER6, TCP, UDP, ethernet, gre, hexed, icmp,
                      icmp4, ip4, ip6, ip6_icmp6, message, name, pcap, pcap_header, pcap_record, question, session, udp,
                      udp4, udp6, v4, v6)

ECHO = hexed("1234 0001")
NEAR4, FAR4 = v4("198.51.100.1"), v4("198.51.100.2")
NEAR6, FAR6 = v6("2001:db8:1::1"), v6("2001:db8:1::2")
QUERY = message(0x0100, [question(name("a."), 1)])

ECHO4 = icmp4(8, 0, ECHO)
ECHO6 = ip6_icmp6(128, 0, ECHO, b"", HOST6, SERVER6)


def raw(*datagrams):
    return pcap(list(datagrams), 101)


def outer4(payload, protocol=IP4, **fields):
    return ip4(payload, protocol, NEAR4, FAR4, **fields)


def outer6(payload, protocol=IP6, **fields):
    return ip6(payload, protocol, NEAR6, FAR6, **fields)


def kept(datagram, *lengths):
    """A capture that kept so many octets of a datagram, in a packet for each of these lengths."""
    records = [pcap_record(datagram[:length], original_len=len(datagram)) for length in lengths]
    return pcap_header(101) + b"".join(records)


def broken(datagram, at):
    """A datagram with one octet changed."""
    octets = bytearray(datagram)
    octets[at] ^= 1
    return bytes(octets)


def deep(levels, payload=ECHO4):
    """A datagram in so many tunnels of IPv4, each from an address of its own."""
    for level in range(levels, 0, -1):
        payload = ip4(payload, IP4, v4("10.0.0.%d" % level), v4("10.0.1.%d" % level))
    return payload


def hop(following, content=hexed("05020000 0100")):
    """Hop-by-hop options."""
    return bytes([following, 0]) + content


# One of each kind, as the manual shows them.
PING4 = icmp4(8, 0, ECHO, b"abcd")
PING6 = ip6_icmp6(128, 0, ECHO, b"abcd", HOST6, SERVER6)
KEY = hexed("0000002a")

SHOWN = {
    "icmp_in_gre": raw(outer4(gre(PING4, 0x0800, 0x2000, KEY), GRE)),
    "icmp6_in_ipv4": raw(outer4(PING6, IP6)),
    "dns_in_two_tunnels": raw(outer6(gre(outer4(udp4(QUERY, 40000, 53))), GRE)),
    "tunnel_that_is_cut": kept(outer4(gre(PING4, 0x0800, 0x2000, KEY), GRE), 57),
    "tunnel_of_a_header_that_is_none": raw(outer4(b"\x55" + PING4[1:])),
    "icmp4_with_a_wrong_header_checksum": raw(broken(PING4, 10)),
}

IN_IP = {
    "ipv4_in_ipv4": raw(outer4(ECHO4)),
    "ipv6_in_ipv4": raw(outer4(ECHO6, IP6)),
    "ipv4_in_ipv6": raw(outer6(ECHO4, IP4)),
    "ipv6_in_ipv6": raw(outer6(ECHO6)),
    "tunnel_of_dns": raw(outer4(udp4(QUERY, 40000, 53)), outer6(udp6(QUERY, 40000, 53))),
    "tunnel_of_multicast_names": raw(outer6(udp4(QUERY, 5353, 5353, HOST4, GROUP4), IP4)),
    "tunnel_of_other_protocols": raw(outer4(ip4(b"", TCP)), outer4(udp4(b"", 1, 2)), outer6(ip6(b"", 59)),
                                     outer4(ip4(b"", 253))),
    "tunnel_with_options": raw(outer4(ECHO4, options=hexed("94040000")), outer6(hop(IP6) + ECHO6, 0)),
    "tunnel_of_hop_by_hop": raw(outer4(ip6(hop(ICMP6) + ECHO6[40:], 0), IP6)),
    "tunnel_behind_destination_options": raw(outer6(hop(IP4, hexed("010400000000")) + ECHO4, 60)),
    "tunnel_behind_a_route": raw(outer6(hexed("2902 0001 00000000") + SERVER6 + ECHO6, 43)),
    "tunnel_with_a_vlan": pcap([ethernet(outer4(ECHO4), tags=[(0x8100, 7)]),
                                ethernet(session(outer6(ECHO6), 0x0057), 0x8864, tags=[(0x88A8, 8), (0x8100, 9)])]),
    "tunnel_of_a_jumbogram": pcap_header(101) + pcap_record(
        outer4(ip6(bytes([ICMP6, 0]) + hexed("c20400010000") + ECHO6[40:], 0, length=0), IP6, total=65000),
        original_len=65000),
}

DEPTHS = {
    "tunnels_of_four": raw(deep(4)),
    "tunnels_of_five": raw(deep(5)),
    "tunnels_of_each_kind": raw(outer6(gre(outer4(gre(outer6(ECHO4, IP4), 0x86DD), GRE)), GRE)),
    "tunnels_of_two_and_three": raw(deep(2), deep(3)),
    "tunnel_that_is_the_fifth": raw(deep(4, outer4(gre(ECHO4), GRE)), deep(4, outer4(ECHO6, IP6)),
                                    deep(4, outer4(gre(b"", 0x0806), GRE))),
    "tunnels_of_other_protocols": raw(deep(4, ip4(b"", TCP)), deep(4, outer4(gre(b"", flags=1), GRE))),
}

SUM, ROUTE, NUMBERED, SEQUENCE = 0x8000, 0x4000, 0x2000, 0x1000
FIELD = hexed("00010203")


def of_gre(flags, fields=b"", payload=ECHO4, ethertype=0x0800):
    return outer4(gre(payload, ethertype, flags, fields), GRE)


GRES = {
    "gre_of_both_ips": raw(of_gre(0), of_gre(0, payload=ECHO6, ethertype=0x86DD)),
    "gre_over_ipv6": raw(outer6(gre(ECHO4), GRE), outer6(gre(ECHO6, 0x86DD), GRE)),
    "gre_of_dns": raw(outer4(gre(udp4(QUERY, 40000, 53), 0x0800, NUMBERED, FIELD), GRE)),
    "gre_of_each_field": raw(of_gre(SUM, FIELD), of_gre(NUMBERED, FIELD), of_gre(SEQUENCE, FIELD),
                             of_gre(SUM + NUMBERED, 2 * FIELD), of_gre(NUMBERED + SEQUENCE, 2 * FIELD),
                             of_gre(SUM + NUMBERED + SEQUENCE, 3 * FIELD)),
    "gre_of_a_route": raw(of_gre(ROUTE, FIELD), of_gre(SUM + ROUTE, 2 * FIELD), of_gre(0x0800), of_gre(0x0400)),
    "gre_of_reserved_bits": raw(*(of_gre(1 << bit) for bit in range(3, 10))),
    "gre_of_other_versions": raw(*(of_gre(version) for version in (1, 2, 4, 7))),
    "gre_of_other_networks": raw(*(of_gre(0, payload=b"\0", ethertype=ethertype) for ethertype in
                                   (0x0806, 0x6558, 0x88B5, 0x0000, 0x8847, 0x8100, 0x88B5))),
    "gre_of_another_network_in_a_version": raw(of_gre(1, ethertype=0x880B), of_gre(ROUTE, ethertype=0x0806)),
    "gre_that_ends": raw(*(outer4(gre(b"", 0x0800, flags, b"\0\0\0\0\0\0\0\0\0\0\0")[:length], GRE) for flags, length in
                           ((0, 0), (0, 1), (0, 3), (SUM, 7), (NUMBERED, 4), (SEQUENCE, 6),
                            (SUM + NUMBERED + SEQUENCE, 15)))),
    "gre_of_nothing": raw(of_gre(0, payload=b""), of_gre(SUM, FIELD, b""), of_gre(0, b"", b"", 0x86DD)),
}

WRONG = {
    "tunnel_of_nothing": raw(outer4(b""), outer4(b"", IP6), outer6(b""), outer6(ECHO4[:19], IP4)),
    "tunnel_of_the_other_ip": raw(outer4(ECHO6), outer4(ECHO4, IP6), of_gre(0, payload=ECHO6)),
    "tunnel_of_a_wrong_header": raw(outer4(b"\x44" + ECHO4[1:]), outer4(ip4(b"", ICMP4, total=19)),
                                    outer4(ip4(b"", ICMP4, total=0)), outer4(b"\x55" + ECHO4[1:])),
    "tunnel_longer_than_its_frame": raw(outer4(ECHO4, total=49)),
    "tunnel_of_a_longer_datagram": raw(outer4(icmp4(8, 0, ECHO, total=29)),
                                       outer4(ip6(ECHO6[40:], ICMP6, length=9), IP6)),
    "tunnel_of_a_longer_udp": raw(outer4(udp4(QUERY, 40000, 53)[:40] + b"\0")),
    "tunnel_of_a_shorter_datagram": raw(outer4(ECHO4 + b"\0\0\0\0")),
    "tunnel_of_no_length": raw(outer4(ECHO4, total=0)),
    "tunnel_of_a_torn_header": raw(outer4(ip6(bytes([ICMP6, 9]) + ECHO6[40:], 60), IP6),
                                   outer6(bytes([IP4, 9]) + ECHO4, 60)),
    "tunnel_of_a_message_of_a_wrong_checksum": raw(outer4(ECHO4[:-1] + b"\0")),
}

# Of each what the capture kept: nothing of what is in it, a part of its header, and a part of its message.
CUT = {
    "tunnel_cut_of_ipv4": kept(outer4(ECHO4), 19, 20, 21, 39, 40, 43, 44, 47),
    "tunnel_cut_of_ipv6": kept(outer6(ECHO6), 39, 40, 79, 80, 84, 87),
    "tunnel_cut_of_dns": kept(outer4(udp4(QUERY, 40000, 53)), 40, 43, 44, 47, 48, 59, 60),
    "tunnel_cut_of_tcp": kept(outer4(ip4(b"\0" * 20, TCP)), 20, 39, 40, 59),
    "tunnel_cut_of_gre": kept(of_gre(NUMBERED, FIELD), 20, 23, 24, 27, 28, 29, 47, 48, 52),
    "tunnel_cut_of_options": kept(outer4(ECHO4, options=hexed("94040000")), 20, 23, 24, 44),
    "tunnel_cut_of_gre_and_options": kept(of_gre(0, payload=icmp4(8, 0, ECHO, options=hexed("94040000"))),
                                          44, 47, 48, 51),
    "tunnel_cut_of_a_route": kept(outer6(hexed("2902 0001 00000000") + SERVER6 + ECHO6, 43), 47, 63, 64, 104),
    # What is behind the datagram in the tunnel is all that the capture lacks.
    "tunnel_cut_behind_its_datagram": kept(outer4(ECHO4 + b"\0" * 4), 47, 48, 49),
    "tunnel_whole_in_a_cut_frame": kept(outer4(icmp4(8, 0, ECHO, total=29)) + b"\0" * 4, 48, 49),
    "tunnels_cut": kept(deep(5), 100, 99) + kept(deep(4), 79, 80, 99, 100)[24:],
}


def of_header(*octets):
    """Datagrams whose checksums of the header are wrong."""
    return raw(*(broken(of, 10) for of in octets))


HEADERS = {
    "ip_checksum_wrong": of_header(ECHO4, udp4(QUERY, 40000, 53), icmp4(13, 0, ECHO)),
    "ip_checksum_wrong_of_others": of_header(ip4(b"", TCP), ip4(b"", IP4), ip4(b"\0" * 3, UDP)),
    "ip_checksum_wrong_of_options": of_header(icmp4(8, 0, ECHO, options=hexed("94040000"))),
    "ip_checksum_wrong_and_checksum": raw(broken(broken(ECHO4, 10), 27), broken(ECHO4, 27)),
    "ip_checksum_wrong_outside": raw(broken(outer4(ECHO4), 10), broken(outer4(ECHO6, IP6), 10)),
    "ip_checksum_wrong_inside": raw(outer4(broken(ECHO4, 10)), outer6(broken(ECHO4, 10), IP4)),
    "ip_checksum_wrong_of_a_short_one": raw(broken(icmp4(8, 0, ECHO, total=29), 10), broken(ip4(b"", 1, total=0), 10),
                                            broken(ip4(b"", 1), 0)),
    "ip_checksum_wrong_of_a_longer_udp": raw(broken(ip4(udp(QUERY, 40000, 53, length=40), UDP), 10),
                                             broken(ip4(udp(QUERY, 40000, 53)[:3], UDP, total=40), 10),
                                             broken(ip4(udp(QUERY, 40000, 53)[:6], UDP), 10),
                                             broken(ip4(udp(QUERY, 40000, 53, length=7), UDP), 10)),
    "ip_checksum_of_zeros": raw(ip4(b"", ICMP4)[:10] + b"\0\0" + ip4(b"", ICMP4)[12:] + icmp(8, 0, ECHO)),
    "ip_checksum_cut": kept(broken(ECHO4, 10), 19, 20, 24, 27) + kept(broken(icmp4(
        8, 0, ECHO, options=hexed("94040000")), 10), 20, 23, 24, 31)[24:],
}

TUNNELS = {**SHOWN, **IN_IP, **DEPTHS, **GRES, **WRONG, **CUT, **HEADERS}
