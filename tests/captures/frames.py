"""Frames of links: the network behind their headers, and why they are refused."""
from items import Field
from registries import ETHERTYPES
from text import be

IP_ETHERTYPES = {0x0800: 4, 0x86DD: 6}
PPP_PROTOCOLS = {0x0021: 4, 0x0057: 6}
# Address families of Linux, NetBSD, FreeBSD and Darwin.
FAMILIES = {2: 4, 10: 6, 24: 6, 28: 6, 30: 6}
SOLARIS_FAMILIES = {2: 4, 26: 6}
LINUX_FAMILIES = {2: 4, 10: 6}
NLPIDS = {0xCC: 4, 0x8E: 6}
VERSIONS = {4: 4, 6: 6}
SNAP = 0x80
# The attribute of NFLOG that is the packet.
PACKET = 9
TAGS = (0x8100, 0x88A8)
SESSION = 0x8864


class Refused(Exception):
    """Why something does not read: the reason under which it is counted, and a phrase. `ended` is the reason where
    octets are missing that a frame or a datagram should have: it is `cut` where the capture kept less than there was,
    and else `short`."""

    def __init__(self, reason, phrase):
        super().__init__(phrase)
        self.reason = reason
        self.phrase = phrase

    def fields(self):
        """The item that tells the phrase, where there is one."""
        return [Field("refused", self.phrase)] if self.phrase else []


class Frame:
    """The number that the headers of a link have for the network behind them, and the version of IP where it is that;
    the VLANs, the outermost first; the payload."""

    def __init__(self, versions, number, payload, vlans=()):
        self.number = number
        self.version = versions.get(number)
        self.payload = payload
        self.vlans = list(vlans)


def network_name(ethertype):
    return ETHERTYPES.get(ethertype, "ethertype 0x%04x" % ethertype)


def need(octets, length, phrase="fewer bytes than the header of the link has"):
    if len(octets) < length:
        raise Refused("ended", phrase)


def null(octets):
    """Loopback: the family is in the order of the machine that captured, and has at most 16 bits."""
    need(octets, 4)
    family = be(octets[:4])
    if family > 65535:
        family = int.from_bytes(octets[:4], "little") % 65536
    return Frame(FAMILIES, family, octets[4:])


def raw(octets):
    need(octets, 1)
    return Frame(VERSIONS, octets[0] >> 4, octets)


def ethernet(octets):
    need(octets, 14)
    return typed(be(octets[12:14]), octets[14:])


def cooked(octets):
    need(octets, 16)
    return typed(be(octets[14:16]), octets[16:])


def cooked2(octets):
    need(octets, 20)
    return typed(be(octets[0:2]), octets[20:])


def c_hdlc(octets):
    need(octets, 4)
    return typed(be(octets[2:4]), octets[4:])


def ipoib(octets):
    """IP over InfiniBand: behind the EtherType are two reserved octets (RFC 4391 section 6)."""
    need(octets, 44)
    return typed(be(octets[40:42]), octets[44:])


def ipnet(octets):
    """IPNET of Solaris: the family is in the second octet."""
    need(octets, 24)
    return Frame(SOLARIS_FAMILIES, octets[1], octets[24:])


def nflog(octets):
    """NFLOG: the first attribute that is the packet."""
    need(octets, 4)
    if octets[1] != 0:
        raise Refused("malformed", "NFLOG version %d is not read" % octets[1])
    # The numbers are in the order of the machine that captured; no type has more than 8 bits.
    order = "little" if octets[7:8] == b"\0" else "big"
    family, octets = octets[0], octets[4:]
    while True:
        need(octets, 4)
        length, kind = (int.from_bytes(octets[at:at + 2], order) for at in (0, 2))
        if length < 4:
            raise Refused("malformed", "NFLOG attribute length %d is below 4" % length)
        need(octets, length)
        if kind == PACKET:
            return Frame(LINUX_FAMILIES, family, octets[4:length])
        octets = octets[length + -length % 4:]


def frame_relay(octets):
    """Frame relay (RFC 2427 section 3): an address of two to four octets, of which the last alone is odd,
    and unnumbered information, whose control octet may be padded."""
    need(octets, 2)
    length = next((at for at, octet in enumerate(octets[:4], 1) if octet % 2), None)
    if length == 1 or length is None and len(octets) >= 4:
        raise Refused("malformed", "the frame relay address has the wrong length")
    need(octets, (length or 4) + 1)
    control, octets = octets[length], octets[length + 1:]
    if control != 3:
        raise Refused("malformed", "frame relay control %d is not read" % control)
    return nlpid(octets[1:] if octets[:1] == b"\0" else octets)


def nlpid(octets):
    """A protocol of an octet, or that of SNAP, an organization and a protocol of it: that of 0 has EtherTypes."""
    need(octets, 1)
    if octets[0] != SNAP:
        return Frame(NLPIDS, octets[0], octets[1:])
    need(octets, 6)
    return Frame({}, SNAP, octets[1:]) if any(octets[1:4]) else typed(be(octets[4:6]), octets[6:])


def ppp(octets):
    """PPP, where the address and the control octet may be left out (RFC 1662 section 3.2)."""
    return protocol(octets[2:] if octets[:2] == b"\xff\x03" else octets)


def pppoe(octets):
    need(octets, 6)
    # A header that is not that of data is none.
    for name, number, wanted in (("version", octets[0] >> 4, 1), ("type", octets[0] % 16, 1), ("code", octets[1], 0)):
        if number != wanted:
            raise Refused("malformed", "PPPoE %s %d is not read" % (name, number))
    return protocol(octets[6:])


def is_session(octets):
    """Whether these are data of a session: version 1, type 1, code 0 (RFC 2516 section 4)."""
    return len(octets) >= 6 and octets[:2] == b"\x11\x00"


def protocol(octets, vlans=()):
    """A protocol of PPP, in one octet where that is odd, and else in two (RFC 1661 section 6.5)."""
    length = 1 if octets and octets[0] % 2 else 2
    need(octets, length, "the PPP protocol is cut short")
    return Frame(PPP_PROTOCOLS, be(octets[:length]), octets[length:], vlans)


def typed(ethertype, octets):
    vlans = []
    while ethertype in TAGS:
        need(octets, 4, "a VLAN tag is cut short")
        vlans.append(be(octets[:2]) % 4096)
        ethertype = be(octets[2:4])
        octets = octets[4:]
    if ethertype == SESSION and is_session(octets):
        return protocol(octets[6:], vlans)
    return Frame(IP_ETHERTYPES, ethertype, octets, vlans)


LINKS = {
    0: null, 1: ethernet, 9: ppp, 12: raw, 14: raw, 50: ppp, 51: pppoe, 101: raw, 104: c_hdlc, 107: frame_relay,
    108: null, 113: cooked, 226: ipnet, 228: raw, 229: raw, 239: nflog, 242: ipoib, 276: cooked2,
}
# Those that have EtherTypes.
TYPED = (1, 104, 113, 242, 276)
