"""Captures of DNS over TCP, of raw IP."""
import struct

from building import (GRE, HOST6, SERVER4, SERVER6, TCP, gre, hexed, ip4, ip6, message, name, question, record, tcp)
from standards_fragments import cut
from standards_tunnels import broken, outer4, outer6, raw

QUERY = message(0x0100, [question(name("a."), 1)])
ANSWER = message(0x8180, [question(name("a."), 1)], [record(name("a."), 1, hexed("c0000207"))])
LEAST = message(0, [])
# A name that a pointer leads to itself, and a record that ends.
ROUND = message(0x0100, [question(hexed("c00c"), 1)])
TORN = message(0x8180, [], [record(name("a."), 1, hexed("c0000207"))])[:-1]


def told(*messages):
    """Messages behind their lengths."""
    return b"".join(struct.pack(">H", len(of)) + of for of in messages)


def segment(data, source_port=40000, port=53, **fields):
    return ip4(tcp(data, source_port, port, **fields), TCP)


def segment6(data, source_port=40000, port=53, front=b"", following=TCP, **fields):
    return ip6(front + tcp(data, source_port, port, HOST6, SERVER6, **fields), following)


OPTIONS = hexed("0101 080a 00000001 00000002")
HOP = hexed("0600 05020000 0100")

SEGMENTS = {
    "tcp_of_a_query": raw(segment(told(QUERY))),
    "dns_over_tcp": raw(segment(told(ANSWER), 53, 40000)),
    "dns_over_tcp_of_two_messages": raw(segment(told(QUERY, ANSWER))),
    "tcp_of_least_messages": raw(segment(told(*[LEAST] * 5), 53, 53)),
    "tcp_with_options": raw(segment(told(QUERY), options=OPTIONS)),
    "tcp_over_ipv6": raw(segment6(told(QUERY)), segment6(told(ANSWER, QUERY), 53, 40000)),
    "tcp_over_ipv6_with_options": raw(segment6(told(QUERY, LEAST), front=HOP, following=0)),
    "tcp_of_other_ports": raw(segment(told(QUERY), 40000, 54), segment(told(QUERY), 5353, 5355),
                              segment(told(QUERY), 0x3500, 0x3500)),
    "tcp_of_no_data": raw(segment(b""), segment(b"", options=OPTIONS)),
    "tcp_of_a_part_of_a_message": raw(segment(told(QUERY)[:-1]), segment(told(QUERY)[:2]), segment(told(QUERY)[:1]),
                                      segment(QUERY), segment(told(ANSWER)[2:])),
    "tcp_of_more_than_a_message": raw(segment(told(QUERY) + b"\0"), segment(told(QUERY) + b"\0\x0c"),
                                      segment(told(QUERY, QUERY)[:-1])),
    "tcp_of_messages_too_short": raw(segment(told(LEAST[:11])), segment(told(b"")), segment(told(QUERY, LEAST[:11])),
                                     segment(told(b"", QUERY))),
    "tcp_of_a_wrong_header": raw(segment(told(QUERY), words=4), segment(told(QUERY), words=15),
                                 ip4(tcp(b"", 40000, 53)[:19], TCP), ip4(tcp(b"", 40000, 53)[:3], TCP),
                                 segment(told(LEAST), words=6)),
    "tcp_of_a_wrong_checksum": raw(broken(segment(told(QUERY)), 37), broken(segment(told(QUERY, ANSWER)), 36)),
    "tcp_of_a_name_that_leads_round": raw(segment(told(ROUND)), segment(told(QUERY, ROUND)),
                                          segment(told(ROUND, QUERY))),
    "tcp_of_a_torn_record": raw(segment(told(QUERY, TORN, ROUND))),
    "tcp_of_a_wrong_checksum_and_name": raw(broken(segment(told(ROUND, TORN)), 37)),
    "tcp_of_a_wrong_header_checksum": raw(broken(segment(told(QUERY, LEAST)), 10), broken(segment(b"\0"), 10)),
    "tcp_with_padding": raw(segment(told(QUERY)) + b"\0" * 6),
    "tcp_longer_than_its_frame": raw(ip4(tcp(told(QUERY), 40000, 53), TCP, total=62)),
    "tcp_cut": cut([60, 40, 39, 20], *[segment(told(QUERY))] * 5),
    "tcp_cut_behind_its_messages": cut([63], segment(told(QUERY) + b"\0")),
    "tcp_cut_behind_its_datagram": cut([62], segment(told(QUERY)) + b"\0" * 4),
    "tcp_in_a_tunnel": raw(outer4(segment(told(QUERY, QUERY))), outer6(gre(segment(told(QUERY))), GRE)),
    "tcp_in_a_tunnel_cut": cut([80], outer4(segment(told(QUERY)))),
    "tcp_of_mdns_ports": raw(segment(told(QUERY), 5353, 53)),
    "tcp_to_the_sender": raw(ip4(tcp(told(QUERY), 53, 53, SERVER4, SERVER4), TCP, SERVER4, SERVER4)),
}
