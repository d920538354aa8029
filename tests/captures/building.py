"""Makes frames, datagrams, messages and captures octet by octet, with their checksums."""
import struct

from text import pseudo_sum, word_sum

ICMP4, IGMP, IP4, TCP, UDP, IP6, GRE, ICMP6 = 1, 2, 4, 6, 17, 41, 47, 58
MAC_A, MAC_B = bytes.fromhex("020000000001"), bytes.fromhex("020000000002")


def hexed(text):
    """The octets of digits, between which spaces may stand."""
    return bytes.fromhex(text.replace(" ", ""))


def v4(text):
    return bytes(int(part) for part in text.split("."))


def v6(text):
    """The octets of an address with colons."""
    front, _, back = text.partition("::")
    groups = [front.split(":") if front else [], back.split(":") if back else []]
    missing = 8 - len(groups[0]) - len(groups[1])
    numbers = groups[0] + ["0"] * missing + groups[1]
    return b"".join(struct.pack(">H", int(number, 16)) for number in numbers)


HOST4, SERVER4, GROUP4 = v4("192.0.2.1"), v4("192.0.2.53"), v4("224.0.0.251")
HOST6, SERVER6, ALL_NODES = v6("2001:db8::1"), v6("2001:db8::53"), v6("ff02::1")
LINK_A, LINK_B = v6("fe80::1"), v6("fe80::2")


def checksum(octets, extra=0):
    total = word_sum(octets) + extra
    # The sum of words is folded, and inverted.
    return 65535 - ((total - 1) % 65535 + 1 if total else 0)


def sealed(octets, at, extra=0):
    """The octets with their checksum in the two octets at a place, which are zero before."""
    return octets[:at] + struct.pack(">H", checksum(octets, extra)) + octets[at + 2:]


# ---- datagrams

def ip4(payload, protocol, source=HOST4, destination=SERVER4, options=b"", fragment=0x4000, ttl=64, total=None,
        ident=0x1234):
    length = 20 + len(options) + len(payload) if total is None else total
    header = struct.pack(">BBHHHBBH4s4s", 0x45 + len(options) // 4, 0, length, ident, fragment, ttl, protocol, 0,
                         source, destination) + options
    return sealed(header, 10) + payload


def ip6(payload, protocol, source=HOST6, destination=SERVER6, hops=64, word=0x60000000, length=None):
    length = len(payload) if length is None else length
    return struct.pack(">IHBB16s16s", word, length, protocol, hops, source, destination) + payload


def udp(data, source_port, port, source=HOST4, destination=SERVER4, length=None, seal=True):
    length = 8 + len(data) if length is None else length
    octets = struct.pack(">HHHH", source_port, port, length, 0) + data
    if not seal:
        return octets
    octets = sealed(octets, 6, pseudo_sum(source, destination, UDP, len(octets)))
    # A checksum of zero is written as its other form.
    return octets if octets[6:8] != b"\0\0" else octets[:6] + b"\xff\xff" + octets[8:]


def udp4(data, source_port, port, source=HOST4, destination=SERVER4, **more):
    return ip4(udp(data, source_port, port, source, destination), UDP, source, destination, **more)


def udp6(data, source_port, port, source=HOST6, destination=SERVER6, **more):
    return ip6(udp(data, source_port, port, source, destination), UDP, source, destination, **more)


def tcp(data, source_port, port, source=HOST4, destination=SERVER4, options=b"", words=None):
    words = 5 + len(options) // 4 if words is None else words
    octets = struct.pack(">HHIIBBHHH", source_port, port, 1, 1, words << 4, 0x18, 8192, 0, 0) + options + data
    return sealed(octets, 16, pseudo_sum(source, destination, TCP, len(octets)))


def gre(payload, ethertype=0x0800, flags=0, fields=b""):
    """What GRE carries, behind the fields that its flags tell (RFC 2784, RFC 2890)."""
    return struct.pack(">HH", flags, ethertype) + fields + payload


# ---- fragments

def part4(payload, start, end, protocol=ICMP4, more=None, ident=1, **fields):
    """The octets of a datagram's payload from one place to another as a fragment of IPv4."""
    more = end < len(payload) if more is None else more
    return ip4(payload[start:end], protocol, fragment=0x2000 * more + start // 8, ident=ident, **fields)


def part6(payload, start, end, following=ICMP6, more=None, ident=1, **fields):
    """The same of IPv6."""
    more = end < len(payload) if more is None else more
    header = struct.pack(">BBHI", following, 0, start + more, ident)
    return ip6(header + payload[start:end], 44, **fields)


# ---- messages

def icmp(kind, code, rest, data=b""):
    """A message of ICMPv4: the four octets behind the checksum, and the data."""
    return sealed(struct.pack(">BBH", kind, code, 0) + rest + data, 2)


def icmp4(kind, code, rest, data=b"", source=HOST4, destination=SERVER4, **more):
    return ip4(icmp(kind, code, rest, data), ICMP4, source, destination, **more)


def icmp6(kind, code, rest, data=b"", source=LINK_A, destination=LINK_B):
    """A message of ICMPv6 alone, sealed between these addresses."""
    octets = struct.pack(">BBH", kind, code, 0) + rest + data
    return sealed(octets, 2, pseudo_sum(source, destination, ICMP6, len(octets)))


def ip6_icmp6(kind, code, rest, data=b"", source=LINK_A, destination=LINK_B, hops=255):
    return ip6(icmp6(kind, code, rest, data, source, destination), ICMP6, source, destination, hops)


def igmp(kind, code, group, **more):
    octets = sealed(struct.pack(">BBH", kind, code, 0) + group, 2)
    return ip4(octets, IGMP, HOST4, more.pop("destination", group), ttl=1, **more)


def dhcp(operation, options, xid=0x12345678, flags=0x8000, addresses=b"\0" * 16, hardware=b"\x01\x06\0"):
    return (struct.pack(">B3sIHH", operation, hardware, xid, 3, flags) + addresses + MAC_A + b"\0" * 202
            + hexed("63825363") + options)


def name(text):
    """A name with no pointers."""
    labels = text.rstrip(".").split(".") if text != "." else []
    return b"".join(bytes([len(label)]) + label.encode("latin-1") for label in labels) + b"\0"


def pointer(place):
    return struct.pack(">H", 0xC000 + place)


def question(owner, kind, of_class=1):
    return owner + struct.pack(">HH", kind, of_class)


def record(owner, kind, data, ttl=300, of_class=1):
    return owner + struct.pack(">HHIH", kind, of_class, ttl, len(data)) + data


def message(flags, questions=(), answers=(), authorities=(), additionals=(), ident=0x1234):
    sections = (questions, answers, authorities, additionals)
    counts = struct.pack(">HHHH", *(len(section) for section in sections))
    return struct.pack(">HH", ident, flags) + counts + b"".join(b"".join(section) for section in sections)


# ---- frames

def ethernet(payload, ethertype=0x0800, tags=()):
    """A frame, with tags of a VLAN that are pairs of a type and a number."""
    front = b"".join(struct.pack(">HH", *tag) for tag in tags)
    # Behind each tag's number stands the type of what follows.
    return MAC_B + MAC_A + front + struct.pack(">H", ethertype) + payload


def cooked(payload, ethertype=0x0800):
    return struct.pack(">HHH", 0, 1, 6) + MAC_A + b"\0\0" + struct.pack(">H", ethertype) + payload


def cooked2(payload, ethertype=0x0800):
    return struct.pack(">HHIHBB", ethertype, 0, 2, 1, 0, 6) + MAC_A + b"\0\0" + payload


def c_hdlc(payload, ethertype=0x0800):
    return struct.pack(">BBH", 0x0F, 0, ethertype) + payload


def ipoib(payload, ethertype=0x0800):
    return b"\0" * 40 + struct.pack(">HH", ethertype, 0) + payload


def ipnet(payload, family=2):
    return struct.pack(">BBHIIIII", 1, family, 0, len(payload), 2, 0, 0, 0) + payload


def attribute(kind, value, order="<", length=None):
    """An attribute of NFLOG, whose length counts its four octets in front."""
    head = struct.pack(order + "HH", 4 + len(value) if length is None else length, kind)
    return head + value + b"\0" * (-len(value) % 4)


def nflog(*attributes, family=2, version=0):
    return struct.pack(">BBH", family, version, 5) + b"".join(attributes)


def session(payload, protocol=0x0021):
    """Data of a session of PPPoE."""
    octets = struct.pack(">H", protocol) + payload
    return struct.pack(">BBHH", 0x11, 0, 1, len(octets)) + octets


# ---- captures

MAGIC = {(">", 6): "a1b2c3d4", ("<", 6): "d4c3b2a1", (">", 9): "a1b23c4d", ("<", 9): "4d3cb2a1"}
# 2024-05-01 12:34:56 UTC.
NOON = 1714566896


def pcap_header(link_type, order="<", digits=6, snap_len=262144, version=(2, 4)):
    return hexed(MAGIC[order, digits]) + struct.pack(order + "HHIIII", *version, 0, 0, snap_len, link_type)


def pcap_record(octets, seconds=NOON, part=0, order="<", original_len=None):
    length = len(octets) if original_len is None else original_len
    return struct.pack(order + "IIII", seconds, part, len(octets), length) + octets


def pcap(frames, link_type=1, order="<", digits=6, part=0):
    records = [pcap_record(frame, NOON + i, part, order) for i, frame in enumerate(frames)]
    return pcap_header(link_type, order, digits) + b"".join(records)


def block(kind, body, order="<"):
    body += b"\0" * (-len(body) % 4)
    total = struct.pack(order + "I", len(body) + 12)
    return struct.pack(order + "I", kind) + total + body + total


def option(code, value, order="<"):
    return struct.pack(order + "HH", code, len(value)) + value + b"\0" * (-len(value) % 4)


def section(order="<", version=(1, 0), options=b""):
    return block(0x0A0D0D0A, struct.pack(order + "IHHq", 0x1A2B3C4D, *version, -1) + options, order)


def interface(link_type=1, order="<", snap_len=0, options=b""):
    return block(1, struct.pack(order + "HHI", link_type, 0, snap_len) + options, order)


def enhanced(octets, ticks, order="<", place=0, original_len=None, options=b""):
    length = len(octets) if original_len is None else original_len
    head = struct.pack(order + "IIIII", place, ticks >> 32, ticks % 2 ** 32, len(octets), length)
    return block(6, head + octets + b"\0" * (-len(octets) % 4) + options, order)


def obsolete(octets, ticks, order="<", place=0):
    head = struct.pack(order + "HHIIII", place, 0, ticks >> 32, ticks % 2 ** 32, len(octets), len(octets))
    return block(2, head + octets, order)


def simple(octets, order="<", original_len=None):
    return block(3, struct.pack(order + "I", len(octets) if original_len is None else original_len) + octets, order)
