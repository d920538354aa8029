"""Datagrams of IP, and fragments of them: what their headers say, and what is told of those that are refused."""
from frames import Refused, need
from text import address, be

ICMP4, IGMP, IP4, TCP, UDP, IP6, GRE, ICMP6 = 1, 2, 4, 6, 17, 41, 47, 58
HOP_BY_HOP, ROUTE, FRAGMENT, DESTINATION_OPTIONS = 0, 43, 44, 60
EXTENSIONS = (HOP_BY_HOP, ROUTE, DESTINATION_OPTIONS)

# The names of protocols in what is told of a datagram that is cut.
PROTOCOLS = {
    0: "Hop-by-Hop", 1: "ICMP", 2: "IGMP", 6: "TCP", 17: "UDP", 43: "IPv6-Route", 44: "IPv6-Frag", 50: "IPsec-ESP",
    51: "IPsec-AH", 58: "ICMPv6", 59: "IPv6-NoNxt", 60: "IPv6-Opts",
}


class Datagram:
    """A datagram: its addresses, the protocol of its payload, the octets of hop-by-hop options or None; and where it is
    refused, whether its payload begins in it all the same, and how many octets are missing of that."""

    def __init__(self, source, destination, protocol_number, payload, hop_by_hop=None):
        self.source = source
        self.destination = destination
        self.protocol = protocol_number
        self.payload = payload
        self.hop_by_hop = hop_by_hop
        self.is_there = False
        self.missing = 0


class Fragment:
    """A fragment: the datagram that it would be alone, the number of the one that it is of, its place in that, and
    whether more follow."""

    def __init__(self, alone, ident, offset, more):
        self.alone = alone
        self.ident = ident
        self.offset = offset
        self.more = more

    def key(self):
        """What all fragments of a datagram have in common (RFC 791 section 3.2, RFC 8200 section 4.5)."""
        of = self.alone
        return (of.source, of.destination, self.ident) + ((of.protocol,) if len(of.source) == 4 else ())

    def text(self):
        of = self.alone
        return head_text(of.source, of.destination, of.protocol, self.ident, self.offset, self.more)


FIXED = "fewer bytes than the fixed header has"


def datagram(version, octets):
    """A datagram or a fragment, of which all octets are there."""
    return datagram4(octets) if version == 4 else datagram6(octets)


def datagram4(octets):
    """A datagram of IPv4 (RFC 791 section 3.1)."""
    need(octets, 20, FIXED)
    header_len, total_len = octets[0] % 16 * 4, be(octets[2:4])
    if octets[0] >> 4 != 4:
        raise Refused("malformed", "version %d is not read" % (octets[0] >> 4))
    if header_len < 20:
        raise Refused("malformed", "a header length of %d is below 20" % header_len)
    if total_len < header_len:
        raise Refused("malformed", "a total length of %d is below that of the header" % total_len)
    of = Datagram(octets[12:16], octets[16:20], octets[9], octets[header_len:total_len])
    flags = be(octets[6:8])
    fragment = Fragment(of, be(octets[4:6]), flags % 0x2000 * 8, flags >> 13 & 1)
    need(octets, total_len, "cut short, " + fragment.text())
    return fragment if fragment.more or fragment.offset else of


def head_text(source, destination, number, ident=None, offset=0, more=0):
    """What is told of a datagram that is cut or a fragment."""
    text = "%s > %s protocol=%s" % (address(source), address(destination), PROTOCOLS.get(number, "0x%02x" % number))
    if ident is None:
        return text
    return text + " ident=%d frag_offset=%d more_frags=%s" % (ident, offset, "true" if more else "false")


def datagram6(octets):
    """A datagram of IPv6 (RFC 8200 section 3), behind the headers that extend it."""
    need(octets, 40, FIXED)
    if octets[0] >> 4 != 6:
        raise Refused("malformed", "version %d is not read" % (octets[0] >> 4))
    total_len = total_len6(octets)
    if total_len is None:
        raise Refused("malformed", JUMBOGRAM)
    need(octets, total_len, "cut short, " + head_text(octets[8:24], octets[24:40], octets[6]))
    of = pass_headers(octets, octets[40:total_len])
    if of is None:
        raise Refused("malformed", JUMBOGRAM)
    return whole(of)


def whole(of):
    """What headers lead to that are all there."""
    if isinstance(of, Torn):
        name = PROTOCOLS.get(of.protocol)
        raise Refused("malformed", "the extension header %s is cut short" % name)
    return of


JUMBOGRAM = "a malformed jumbogram"
JUMBO_PAYLOAD = 0xC2


def is_jumbogram(octets):
    """Whether the length is not in the fixed header but in a hop-by-hop option (RFC 2675 section 2)."""
    return octets[4:6] == b"\0\0" and octets[6] == HOP_BY_HOP


def total_len6(octets):
    """The length of a datagram; None of a jumbogram that does not tell it."""
    if not is_jumbogram(octets):
        return 40 + be(octets[4:6])
    length = extension_len(octets[40:])
    # Where that header is not whole, the datagram is longer than what is there.
    return 40 + length if len(octets) < 40 + length else jumbo_len(octets[42:40 + length])


def extension_len(octets):
    """The length of a header that extends IPv6, which is 8 octets or more."""
    return 8 * octets[1] + 8 if len(octets) >= 8 else 8


def jumbo_len(options):
    """The length of a jumbogram by its hop-by-hop options, or None: that of what follows the fixed header is in the
    first Jumbo Payload option."""
    while options and options[0] != JUMBO_PAYLOAD:
        # Pad1 is one octet alone.
        options = options[1 if options[0] == 0 else 2 + be(options[1:2]):]
    length = be(options[2:6])
    return 40 + length if len(options) >= 6 and options[1] == 4 and length > 65535 else None


class Torn:
    """A header that extends IPv6 and is not whole, by its protocol."""

    def __init__(self, number):
        self.protocol = number


def pass_headers(octets, payload):
    """What the headers lead to that extend IPv6, in the octets behind the fixed header; None where a jumbogram has the
    header of a fragment, which none may have (RFC 2675 section 3)."""
    of = Datagram(octets[8:24], octets[24:40], octets[6], payload)
    return pass_extensions(of, is_jumbogram(octets), True)


def pass_extensions(of, is_jumbo, is_first):
    """The same from a header on, which is the first behind IPv6's or a later one."""
    number, payload = of.protocol, of.payload
    hop_by_hop, destination = of.hop_by_hop, of.destination
    while number in EXTENSIONS + (FRAGMENT,):
        if number == FRAGMENT and is_jumbo:
            return None
        length = 8 if number == FRAGMENT else extension_len(payload)
        if len(payload) < length:
            return Torn(number)
        header, payload = payload[:length], payload[length:]
        # A fragment that is a whole datagram alone is passed (RFC 6946).
        if number == FRAGMENT and be(header[2:4]) & 0xFFF9:
            alone = Datagram(of.source, destination, header[0], payload, hop_by_hop)
            return Fragment(alone, be(header[4:8]), be(header[2:4]) & 0xFFF8, header[3] & 1)
        # Hop-by-hop options stand directly behind the IPv6 header alone (RFC 8200 section 4.3).
        if number == HOP_BY_HOP and is_first:
            hop_by_hop = header[2:]
        is_first = False
        if number == ROUTE:
            destination = routed(header, destination)
        number = header[0]
    return Datagram(of.source, destination, number, payload, hop_by_hop)


def routed(header, destination):
    """Where a routing header leads that has segments left: to the last address of types 0 and 2 (RFC 2460 section 4.4,
    RFC 6275 section 6.4), and to the first that is written of type 4 (RFC 8754 section 2)."""
    kind, left = header[2], header[3]
    if left == 0 or len(header) < 24:
        return destination
    if kind == 4:
        return header[8:24]
    return header[-16:] if kind in (0, 2) else destination


# ---- what is refused

def known(version, octets):
    """What the headers of a refused datagram tell, as far as it is there: its addresses, its protocol, and as its
    payload what may begin with ports; None where they tell nothing."""
    return known4(octets) if version == 4 else known6(octets)


def known4(octets):
    if len(octets) < 20 or octets[0] >> 4 != 4:
        return None
    header_len, total_len = octets[0] % 16 * 4, be(octets[2:4])
    # A total length of 0 is that of a datagram whose segmentation was left to a network card.
    if header_len < 20 or 0 < total_len < header_len:
        return None
    fragment = be(octets[6:8]) & 0x3FFF
    of = Datagram(octets[12:16], octets[16:20], octets[9], b"" if fragment & 0x1FFF else octets[header_len:])
    of.is_there = not fragment and len(octets) >= header_len
    if total_len and of.is_there:
        of.missing = total_len - len(octets)
    return of


def known6(octets):
    if len(octets) < 40 or octets[0] >> 4 != 6:
        return None
    total_len = total_len6(octets)
    of = None if total_len is None else pass_headers(octets, octets[40:total_len])
    if of is None:
        return None
    if isinstance(of, Torn):
        # What is torn was cut, or contradicts itself.
        return None if len(octets) >= total_len else Datagram(octets[8:24], octets[24:40], octets[6], b"")
    if isinstance(of, Fragment):
        return Datagram(of.alone.source, of.alone.destination, of.alone.protocol, b"")
    of.missing, of.is_there = total_len - len(octets), True
    return of


def known_of(fragment):
    """What is told of a fragment: ports are told of the first alone."""
    of = fragment.alone
    return Datagram(of.source, of.destination, of.protocol, b"" if fragment.offset else of.payload)
