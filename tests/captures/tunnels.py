"""The innermost datagram of a packet: what is in tunnels is followed, and fragments are put together."""
from frames import IP_ETHERTYPES, Refused, network_name
from ip import FRAGMENT, GRE, IP4, IP6, Datagram, Fragment, datagram, known, known_of
from registries import PROTOCOL_NAMES
from text import be, is_good

# So deep tunnels are followed.
MOST_TUNNELS = 4
# The protocols that are IP again (RFC 2003, RFC 4213 section 3).
VERSIONS = {IP4: 4, IP6: 6}

# In the first octets of GRE: whether there are a checksum, a key and a number in sequence (RFC 2784 section 2.1, RFC
# 2890 section 2); and what has to be 0: routing, bits that RFC 2784 section 2.3 has a receiver discard, the version.
CHECKSUM, KEY, SEQUENCE = 0x8000, 0x2000, 0x1000
ZEROS = 0x4000 | 0x0C00 | 0x0007


class Tunnel:
    """A tunnel that a datagram is in, and the addresses of the datagram outside."""

    def __init__(self, name, of):
        self.name = name
        self.source = of.source
        self.destination = of.destination


def gre(octets):
    """The EtherType of what GRE carries, and its octets; or None, where it is not followed."""
    flags = be(octets[:2])
    length = 4 + sum(4 for flag in (CHECKSUM, KEY, SEQUENCE) if flags & flag)
    if len(octets) < length or flags & ZEROS:
        return None
    return be(octets[2:4]), octets[length:]


class Found:
    """What a packet leads to: its tunnels, the outermost first; the version of IP of the innermost datagram, what is
    known of that, whether the checksum of its header is wrong, and why it is refused, or None. `numbers` are those of
    the packets with its fragments, or with those of a datagram outside of it; `kept` is whether it is a fragment whose
    datagram is not whole, and `other` the name of another network in a tunnel."""

    def __init__(self):
        self.tunnels = []
        self.version = None
        self.of = None
        self.is_bad = False
        self.refused = None
        self.numbers = None
        self.kept = False
        self.other = None

    def protocol_name(self):
        return PROTOCOL_NAMES.get(self.of.protocol, "protocol %d" % self.of.protocol)


def follow(version, octets, number, is_cut, fragments):
    """What a datagram leads to that is in a packet of this number; `is_cut` is whether the capture lacks octets of the
    packet."""
    found = Found()
    while version is not None:
        read(found, version, octets, number, is_cut, fragments)
        version, octets = inner(found)
    return found


def read(found, version, octets, number, is_cut, fragments):
    """Reads a datagram, which may be the last fragment of one. The checksums of fragments are not looked at."""
    found.version, found.refused = version, None
    try:
        of = datagram(version, octets)
    except Refused as why:
        of, found.refused = known(version, octets), why
        if why.reason == "ended":
            # Octets that the capture has not may have been there.
            why.reason = "cut" if is_cut else "short"
    found.of = of
    found.is_bad = version == 4 and of is not None and not be(octets[6:8]) & 0x3FFF and is_bad(octets)
    if isinstance(of, Fragment):
        join(found, of, number, fragments)


def is_bad(octets):
    """Whether the checksum of a header of IPv4 does not hold, all of which is there."""
    length = octets[0] % 16 * 4
    return len(octets) >= length and not is_good(octets[:length])


def join(found, fragment, number, fragments):
    """Keeps a fragment, or puts its datagram together."""
    found.of = known_of(fragment)
    try:
        if found.numbers is not None:
            raise Refused("fragment", "a fragment in a datagram that was put together")
        joined = fragments.add(number, fragment)
        found.kept = joined is None
        if joined is not None:
            found.numbers = joined.numbers
            # Where headers do not read that extend IPv6 within it, the addresses are told.
            found.of = Datagram(found.of.source, joined.first.destination, FRAGMENT, b"")
            found.of = joined.datagram()
    except Refused as why:
        found.refused = why


def inner(found):
    """The version and the octets of what a datagram carries that is a tunnel's, or None twice."""
    of = found.of
    nothing = None, None
    if of is None or found.kept or found.refused and not of.is_there or len(found.tunnels) == MOST_TUNNELS:
        return nothing
    if of.protocol in VERSIONS:
        name, version, octets = "ipv%d" % VERSIONS[of.protocol], VERSIONS[of.protocol], of.payload
    elif of.protocol == GRE and gre(of.payload):
        ethertype, octets = gre(of.payload)
        name, version = "gre", IP_ETHERTYPES.get(ethertype)
        if version is None:
            found.other = network_name(ethertype)
            return nothing
    else:
        return nothing
    found.tunnels.append(Tunnel(name, of))
    return version, octets
