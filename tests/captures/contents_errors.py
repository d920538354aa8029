"""What pcapdump --json is to print of errors of ICMP and of their extensions (RFC 4884), told by the fields that tshark
has of them; see contents.py."""

import re

from datagrams import EXTENSIONS, headers, payload_length
from patterns import MORE, Values, data, octets
from text import name_text

ROLES = ("incoming", "sub_ip", "outgoing", "next_hop")


def icmp4_error(packet, number, code):
    told = {}
    if number == 3:
        mtu = packet.number("icmp.mtu") if packet.has("icmp.mtu") and code == 4 else 0
        told["next_hop_mtu"] = mtu or None
    if number == 5:
        told["gateway"] = packet.text("icmp.redir_gw")
    if number == 12:
        told["pointer"] = packet.number("icmp.pointer")
    division = Division(packet, "icmp.length", 4)
    return {**told, **quote4(packet, division.quoted), **division.extensions()}


def icmp6_error(packet, number):
    told = {2: {"mtu": "icmpv6.mtu"}, 4: {"pointer": "icmpv6.pointer"}}.get(number, {})
    division = Division(packet, "icmpv6.length", 8)
    return {**{key: packet.number(name) for key, name in told.items()}, **quote6(packet, division.quoted),
            **division.extensions()}


# ---- quotes

def quote4(packet, room):
    header, offset = packet.number("ip.hdr_len", 1), packet.number("ip.frag_offset", 1)
    protocol = packet.number("ip.proto", 1)
    return {
        "quoted_type_of_service": packet.number("ip.dsfield", 1), "quoted_total_len": packet.number("ip.len", 1),
        "quoted_ident": packet.number("ip.id", 1), "quoted_dont_frag": packet.text("ip.flags.df", 1) == "1",
        "quoted_more_frags": packet.text("ip.flags.mf", 1) == "1", "quoted_frag_offset": offset,
        "quoted_hop_limit": packet.number("ip.ttl", 1), "quoted_next_header": protocol,
        "quoted_src_addr": packet.text("ip.src", 1), "quoted_dst_addr": packet.text("ip.dst", 1),
        "quoted_options": octets(header - 20), **quoted_ports(packet, protocol, offset == 0),
        "quoted_payload": quoted_octets(packet, protocol, offset == 0, room - header),
    }


def quote6(packet, room):
    """The quoted header, and the ports behind those that extend it."""
    chain, is_first = quoted_chain(packet)
    its_octets = (octets(room - 40, "", data(packet)) if len(chain) > 1 else
                  quoted_octets(packet, chain[0], True, room - 40))
    return {
        "quoted_traffic_class": packet.number("ipv6.tclass", 1), "quoted_flow_label": packet.number("ipv6.flow", 1),
        "quoted_payload_len": packet.number("ipv6.plen", 1), "quoted_hop_limit": packet.number("ipv6.hlim", 1),
        "quoted_next_header": chain[0], "quoted_src_addr": packet.text("ipv6.src", 1),
        "quoted_dst_addr": packet.text("ipv6.dst", 1),
        **({"quoted_protocol": chain[-1]} if len(chain) > 1 and is_first else {}),
        **quoted_ports(packet, chain[-1], is_first), "quoted_payload": its_octets,
    }


def quoted_chain(packet):
    """The headers that a quote of IPv6 has behind its first, by their numbers, and whether what they lead to begins
    with its own: a fragment that is not the first does not."""
    chain, outside, is_first = [packet.number("ipv6.nxt", 1)], headers(packet), True
    while chain[-1] in EXTENSIONS:
        name = EXTENSIONS[chain[-1]]
        following = packet.numbers(name + ".nxt")[outside.count(chain[-1]):]
        if len(following) < chain.count(chain[-1]):
            return chain, False
        is_first = is_first and (chain[-1] != 44 or packet.number(name + ".offset") == 0)
        chain.append(following[chain.count(chain[-1]) - 1])
    return chain, is_first


def quoted_octets(packet, protocol, is_first, count):
    """The quoted octets behind the header: tshark tells their ports, the length of UDP, and what an echo has."""
    if not is_first:
        return octets(count)
    if protocol == 17 and packet.has("udp.srcport"):
        return quoted_udp(packet, count)
    if protocol == 6 and packet.has("tcp.srcport"):
        return octets(count, "%04x%04x" % (packet.number("tcp.srcport"), packet.number("tcp.dstport")), data(packet))
    if protocol == 1 and packet.has("icmp.seq"):
        return octets(count, "%02x00....%04x%04x" % (packet.number("icmp.type", 1), packet.number("icmp.ident"),
                                                     packet.number("icmp.seq")), data(packet))
    if protocol == 58 and packet.has("icmpv6.echo.sequence_number"):
        return octets(count, "%02x00....%04x%04x" % (
            packet.number("icmpv6.type", 1), packet.number("icmpv6.echo.identifier"),
            packet.number("icmpv6.echo.sequence_number")), data(packet))
    return octets(count, "", data(packet))


def quoted_udp(packet, count):
    """A datagram of UDP, and what is behind it: padding in front of extensions."""
    length = packet.number("udp.length")
    front = "%04x%04x%04x" % (packet.number("udp.srcport"), packet.number("udp.dstport"), length)
    its = octets(min(length, count), front, packet.text("data.data") if packet.has("data.data") else "")
    return re.compile(its.pattern + octets(max(count - length, 0)).pattern)


def quoted_ports(packet, protocol, is_first):
    """The ports that are quoted. Into a fragment of IPv6 tshark does not look, not into the first one either."""
    for number, name in ((17, "udp"), (6, "tcp")):
        if protocol == number and is_first:
            both = [packet.number(name + key) for key in (".srcport", ".dstport") if packet.has(name + key)] or [
                int(packet.text("data.data")[at:at + 4], 16) for at in (0, 4) if packet.has("data.data")]
            if both:
                return {"quoted_src_port": both[0], "quoted_dst_port": both[1]}
    return {"quoted_src_port": None, "quoted_dst_port": None}


# ---- extensions

class Division:
    """What an error has behind its header, told by the length there, of words of so many octets: what is quoted, and
    extensions."""

    def __init__(self, packet, name, unit):
        self.packet = packet
        self.there = payload_length(packet) - 8
        self.told = unit * packet.number(name) if packet.has(name) else 0
        self.is_refused = self.told > self.there or 0 < self.told < 128
        self.quoted = self.told if self.told and not self.is_refused else self.there

    def extensions(self):
        """The members behind those of what is quoted. A structure with a wrong checksum or without objects is refused,
        which tshark reads; and so is an object that ends behind it."""
        if self.is_refused:
            return {"extensions_refused": re.compile(".+")}
        room = self.there - self.quoted
        if room == 0:
            return {}
        if (self.packet.text("icmp.ext.checksum.status") == "0" or self.packet.number("icmp.ext.version") != 2
                or room == 4):
            return {"extensions_refused": re.compile(".+"), "extensions_octets": octets(room)}
        return {"extensions": list(objects(self.packet, room - 4))}


def objects(packet, room):
    """The entries of the objects in so many octets."""
    values = Values(packet)
    for length, number, c_type in zip(packet.numbers("icmp.ext.length"), packet.numbers("icmp.ext.class"),
                                      packet.numbers("icmp.ext.ctype")):
        if not 4 <= length <= room:
            yield {"object": "object", "data": octets(room, "%04x%02x%02x" % (length, number, c_type)),
                   "refused": re.compile(".+")}
            return
        room -= length
        if (number, c_type) == (1, 1):
            for _ in range(length // 4 - 1):
                yield label(values)
        elif number == 2:
            yield interface_information(values, c_type)
        else:
            yield {"object": re.compile("[a-z0-9_]+"), "data": values.text("icmp.ext.data") if length > 4 else "",
                   "class": number, "c_type": c_type}


def label(values):
    return {"object": "mpls_label", "label": values.number("icmp.mpls.label"),
            "traffic_class": values.number("icmp.mpls.exp"), "bottom": values.text("icmp.mpls.s") == "1",
            "ttl": values.number("icmp.mpls.ttl"), "class": 1, "c_type": 1}


def interface_information(values, c_type):
    """What an object says of an interface: bits tell what is there. A name at the end of the object tshark tells only
    where it is of more than four octets, with that of its length."""
    def told(flag, key, of):
        return of(key) if values.text("icmp.int_info." + flag) == "1" else None

    def address(_):
        afi = values.number("icmp.int_info.afi")
        return values.text("icmp.int_info.ipv4" if afi == 1 else "icmp.int_info.ipv6")

    def name(key):
        return name_text(values.text(key).encode()) if values.count(key) else re.compile(".{0,3}")

    return {"object": "interface_information", "role": ROLES[values.number("icmp.int_info.role")],
            "index": told("ifindex", "icmp.int_info.index", values.number), "addr": told("ipaddr", "", address),
            "name": told("name_present", "icmp.int_info.name", name),
            "mtu": told("mtu_present", "icmp.int_info.mtu", values.number), "class": 2, "c_type": c_type}
