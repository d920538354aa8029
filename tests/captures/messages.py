"""The kinds of control packets, and what a message of each holds: its checksum, how much of it is missing, and its
items as far as it is there."""
import dns
import icmp
import neighbors
from dhcp import dhcp
from frames import Refused
from ip import EXTENSIONS, FRAGMENT, ICMP4, ICMP6, IGMP, TCP, UDP
from items import Field
from text import is_good, pseudo_sum
from transport import ports, udp_length

KINDS = ("icmp4", "igmp", "icmp6", "dns", "mdns", "llmnr", "nbns", "dhcp", "frame")
REASONS = ("cut", "fragment", "short", "checksum", "type", "quote", "name", "malformed")

# The kinds over UDP by a port of either side; the first that applies counts.
PORTS = {53: "dns", 5353: "mdns", 5355: "llmnr", 137: "nbns"}
DHCP_PORTS = (67, 68)


def kind_of(version, protocol, payload, given):
    """The kind of a datagram, or None where it is of another protocol; `frame` where it can't be told. `given` has
    ports by their kinds, which count before the others."""
    if (version, protocol) in ((4, ICMP4), (4, IGMP), (6, ICMP6)):
        return {ICMP4: "icmp4", IGMP: "igmp", ICMP6: "icmp6"}[protocol]
    if version == 6 and protocol in EXTENSIONS + (FRAGMENT,):
        return "frame"
    if protocol != UDP:
        return None
    both = ports(payload)
    if both is None:
        return "frame"
    named = next((kind for kind in KINDS if given.get(kind) in both and (kind, version) != ("dhcp", 6)), None)
    named = named or next((kind for port, kind in PORTS.items() if port in both), None)
    return named or ("dhcp" if version == 4 and any(port in both for port in DHCP_PORTS) else None)


class Checksum(Field):
    """Whether a checksum holds; lines tell of a wrong one alone."""

    def __init__(self, value):
        super().__init__("checksum", value)

    def is_bad(self):
        return self.value == "bad"

    def lines(self):
        return super().lines() if self.is_bad() else []


def read(kind, of, why=None, is_strict=False):
    """The items of a message, and the reason under which it is counted, or None where all of it is in order; `why` is
    that of a datagram that lacks octets."""
    octets, missing = of.payload, of.missing
    try:
        if of.protocol == UDP:
            length = udp_length(octets)
            if not missing and length > len(octets):
                missing, why = length - len(octets), "short"
            octets = octets[:length]
        checksum = Checksum("unverified") if missing else checksum_of(of, octets)
        if is_strict and checksum.is_bad():
            return [Field("refused", "the checksum does not hold")], "checksum"
        items, refused = message(kind, octets, not missing)
    except Refused as short:
        checksum, refused = Checksum("unverified"), short
        items = [Field("refused", short.phrase), Field("octets", octets)]
    cut = [Field("cut", missing)] if missing else []
    reason = why if missing else "checksum" if checksum.is_bad() else refused and refused.reason
    return [checksum] + cut + items, reason


def read_segment(of, messages, is_strict=False):
    """The items of each message of a segment of TCP, and the first reason of those, or None."""
    checksum = checksum_of(of, of.payload)
    if is_strict and checksum.is_bad():
        return [[Field("refused", "the checksum does not hold")] for _ in messages], "checksum"
    found = [dns.message(message, "dns") for message in messages]
    reasons = [refused.reason for _, refused in found if refused]
    return ([[checksum] + items for items, _ in found],
            "checksum" if checksum.is_bad() else next(iter(reasons), None))


def checksum_of(of, octets):
    """Whether the checksum of whole octets holds."""
    if len(octets) < 4:
        return Checksum("unverified")
    if of.protocol == UDP and octets[6:8] == b"\0\0":
        # Over IPv6 there has to be one (RFC 8200 section 8.1).
        return Checksum("none") if len(of.source) == 4 else Checksum("bad")
    has_pseudo = of.protocol in (TCP, UDP, ICMP6)
    extra = pseudo_sum(of.source, of.destination, of.protocol, len(octets)) if has_pseudo else 0
    return Checksum("good" if is_good(octets, extra) else "bad")


def message(kind, octets, is_whole):
    """The items of octets of a kind, a whole message or a cut one, and why they are refused, or None."""
    if kind == "icmp4":
        return icmp.icmp4(octets, is_whole)
    if kind == "igmp":
        return neighbors.igmp(octets)
    if kind == "icmp6":
        return icmp6(octets, is_whole)
    return dhcp(octets[8:]) if kind == "dhcp" else dns.message(octets[8:], kind)


def icmp6(octets, is_whole):
    kind = octets[0] if octets else None
    if kind in neighbors.HEADERS:
        return neighbors.neighbor(octets)
    return neighbors.listener(octets) if kind in (130, 131, 132, 143) else icmp.icmp6(octets, is_whole)
