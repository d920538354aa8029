"""Captures of many packets, in which datagrams in tunnels, fragments and segments of TCP are mixed by chance, which is
the same each time."""
import random
import struct

from building import (GRE, HOST4, HOST6, ICMP4, ICMP6, IP4, IP6, SERVER4, SERVER6, TCP, UDP, gre, hexed, icmp, icmp6,
                      ip4, ip6, message, name, pcap_header, pcap_record, question, tcp, udp, v4, v6)

PACKETS = 40
QUERY = message(0x0100, [question(name("a."), 1)])
TOLD = struct.pack(">H", len(QUERY)) + QUERY
# Few identifications, so that some datagrams have the same.
IDENTIFICATIONS = 5


def chance(of, one_in):
    return of.randrange(one_in) == 0


def payload(of, version):
    """A protocol, and a payload of it between the hosts of a version of IP."""
    source, destination = (HOST4, SERVER4) if version == 4 else (HOST6, SERVER6)
    data = bytes(of.randrange(256) for _ in range(of.randrange(40)))
    return of.choice((
        (UDP, udp(QUERY + data, 40000, 53, source, destination)), (UDP, udp(data, 1, 2, source, destination)),
        (TCP, tcp(TOLD * of.randrange(4), 40000, 53, source, destination)),
        (TCP, tcp(data, 1, 53, source, destination)),
        (ICMP4, icmp(8, 0, hexed("1234 0001"), data)) if version == 4 else
        (ICMP6, icmp6(128, 0, hexed("1234 0001"), data, source, destination)), (253, data)))


def datagrams(of, version, protocol, octets, one_in, ends=None):
    """A datagram, or fragments of it in an order by chance."""
    source, destination = ends or ((HOST4, SERVER4) if version == 4 else (HOST6, SERVER6))
    if not chance(of, one_in):
        make = ip4 if version == 4 else ip6
        return [make(octets, protocol, source, destination)]
    ident, places = of.randrange(IDENTIFICATIONS), [0]
    while places[-1] < len(octets):
        places.append(min(len(octets), places[-1] + 8 * of.randrange(1, 9)))
    parts = []
    for start, end in zip(places, places[1:]):
        # Some are of an odd length, overlap what is behind them, or are left out.
        end += of.choice((1, 8)) if chance(of, 20) else 0
        more = end < len(octets) or chance(of, 60)
        if version == 4:
            parts.append(ip4(octets[start:end], protocol, source, destination, fragment=0x2000 * more + start // 8,
                             ident=ident))
        else:
            header = struct.pack(">BBHI", protocol, 0, start + more, ident)
            parts.append(ip6(header + octets[start:end], 44, source, destination))
    parts = [part for part in parts for _ in range(2 if chance(of, 10) else 1) if not chance(of, 40)]
    if chance(of, 2):
        of.shuffle(parts)
    return parts


def packets(of):
    """A datagram in up to five tunnels, in the packets that carry it."""
    version = of.choice((4, 6))
    found = datagrams(of, version, *payload(of, version), 2)
    for level in range(of.choice((0, 0, 0, 1, 1, 2, 3, 4, 5))):
        outer, flags = of.choice((4, 6)), of.choice((0, 0, 0, 0x8000, 0x2000, 0x1000, 0xB000, 0, 0, 0x4000, 1))
        ends = (v4("10.0.%d.1" % level), v4("10.0.%d.2" % level)) if outer == 4 else (
            v6("2001:db8:%d::1" % level), v6("2001:db8:%d::2" % level))
        if chance(of, 2):
            fields = b"\0\0\0\1" * bin(flags & 0xB000).count("1")
            found = [gre(one, 0x0800 if one[0] >> 4 == 4 else 0x86DD, flags, fields) for one in found]
            found = [part for one in found for part in datagrams(of, outer, GRE, one, 12, ends)]
        else:
            found = [part for one in found
                     for part in datagrams(of, outer, IP4 if one[0] >> 4 == 4 else IP6, one, 12, ends)]
    return found


def records(of, datagram):
    """The record of a datagram, of which an octet may be wrong, or some may be missing."""
    if chance(of, 25):
        at = of.randrange(min(len(datagram), 60))
        datagram = datagram[:at] + bytes([datagram[at] ^ 1 << of.randrange(8)]) + datagram[at + 1:]
    length = of.randrange(len(datagram)) if chance(of, 25) else len(datagram)
    return pcap_record(datagram[:length], original_len=len(datagram))


def mixed(seed):
    """A capture of raw IP, of which several datagrams come at once."""
    of, waiting, octets = random.Random(seed), [], [pcap_header(101)]
    while len(octets) <= PACKETS:
        while len(waiting) < 4:
            waiting.append(packets(of))
        place = of.choice(waiting)
        if place:
            octets.append(records(of, place.pop(0)))
        else:
            waiting.remove(place)
    return b"".join(octets)


MIXED = {"mixed_by_chance_%d" % seed: mixed(seed) for seed in range(60)}
