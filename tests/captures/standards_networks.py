"""Captures of packets of other protocols, networks and links, which the line that sums up tells by their names."""
from building import (GRE, attribute, c_hdlc, cooked, cooked2, enhanced, ethernet, gre, hexed, interface, ip4, ip6,
                      ipnet, ipoib, nflog, part4, pcap, section, session, udp4)
from standards_tunnels import outer4, raw

# The EtherTypes of some networks, and numbers that are none of any.
ETHERTYPES = (0x0806, 0x8035, 0x809B, 0x80F3, 0x8137, 0x8808, 0x8809, 0x8847, 0x8848, 0x8863, 0x888E, 0x88CC, 0x88E5,
              0x88F7, 0x9000, 0x0000, 0x0026, 0xFFFF, 0x88B5)
# Protocols of IP that are none of ours.
PROTOCOLS = (6, 50, 51, 88, 89, 103, 112, 132, 46, 115, 253, 0, 43, 44, 59, 60, 58, 3, 255)


def frames(*ethertypes):
    return pcap([ethernet(b"\0", ethertype) for ethertype in ethertypes])


def fragments(*protocols):
    return raw(*(part4(b"\0" * 16, 0, 8, protocol, ident=at) for at, protocol in enumerate(protocols)))


def links(*numbers):
    """A packet of each of these links."""
    return section() + b"".join(interface(number) for number in numbers) + b"".join(
        enhanced(b"\0", 0, place=place) for place in range(len(numbers)))


NETWORKS = {
    "networks_of_ethertypes": frames(*ETHERTYPES[:9], *ETHERTYPES[:2]),
    "networks_of_other_ethertypes": frames(*ETHERTYPES[9:]),
    "networks_of_more_than_are_told": frames(*range(1536, 1536 + 16), 1600, 1601, 1536, 1600),
    "networks_of_sixteen": frames(*range(1536, 1536 + 16)),
    "networks_behind_vlans": pcap([ethernet(b"\0", 0x0806, tags=[(0x8100, 5)]),
                                   ethernet(b"\0", 0x88CC, tags=[(0x88A8, 5), (0x8100, 6)])]),
    "networks_of_ppp": pcap([hexed("c021 0101"), hexed("ff03 8021"), hexed("0021"), hexed("2b"), hexed("cf")], 9),
    "networks_of_pppoe": pcap([ethernet(session(b"\0", 0xC021), 0x8864), ethernet(hexed("1101 0000 0000"), 0x8864),
                               ethernet(b"\0", 0x8864), ethernet(hexed("1109 0000 0000"), 0x8863)]),
    "networks_of_pppoe_alone": pcap([session(b"\0", 0xC021), session(b"\0", 0x0057)], 51),
    "networks_of_loopback": pcap([hexed("0000001f 00"), hexed("07000000 00"), hexed("00000110 00")], 0),
    "networks_of_raw": pcap([b"\x50", b"\0", b"\xf0"], 101),
    "networks_of_cooked": pcap([cooked(b"\0", 0x0004), cooked(b"\0", 0x0806)], 113),
    "networks_of_cooked2": pcap([cooked2(b"\0", 0x000C), cooked2(b"\0", 0x88CC)], 276),
    "networks_of_c_hdlc": pcap([c_hdlc(b"\0", 0x8035), c_hdlc(b"\0", 0x2000)], 104),
    "networks_of_ipnet": pcap([ipnet(b"", 10), ipnet(b"", 0)], 226),
    "networks_of_ipoib": pcap([ipoib(b"", 0x0806)], 242),
    "networks_of_nflog": pcap([nflog(attribute(9, b"\0"), family=7)], 239),
    "networks_of_gre": raw(*(outer4(gre(b"\0\5\x08\0", ethertype), GRE)
                             for ethertype in (0x8100, 0x88A8, 0x8864, 0x0806))),
    "networks_of_frame_relay": pcap([hexed("1841 03" + of) for of in
                                     ("81", "80 000000 0806", "80 00000c 2000", "0008")], 107),
    "protocols_of_ipv4": raw(*(ip4(b"", protocol) for protocol in PROTOCOLS)),
    "protocols_of_ipv6": raw(*(ip6(b"", protocol) for protocol in (6, 1, 2, 50, 59, 89, 135))),
    "protocols_with_networks": pcap([ethernet(outer4(gre(b"", 0x0806), GRE)), ethernet(b"", 0x0806),
                                     ethernet(udp4(b"", 1, 2)), ethernet(ip4(b"", 89))]),
    "fragments_of_protocols": fragments(1, 2, 6, 17, 47, 50, 58, 89, 253, 254),
    "fragments_of_more_protocols_than_are_told": fragments(*range(100, 118), 100),
    "links_that_are_not_read": links(147, 148, 0, 127, 105, 119, 9999, 2, 12, 65535),
    "links_of_more_than_are_told": links(*range(147, 163), 189, 220, 147, 189),
    "links_told_twice": links(147, 1, 101, 147, 148, 147),
}
