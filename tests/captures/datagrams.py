"""What the fields of tshark tell of a datagram: its headers, its ports, its kind, and how long it is."""

EXTENSIONS = {0: "ipv6.hopopts", 43: "ipv6.routing", 44: "ipv6.fraghdr", 60: "ipv6.dstopts"}

# The kinds of packets by what tshark calls them.
KINDS = {"icmp": "icmp4", "igmp": "igmp", "icmpv6": "icmp6", "dns": "dns", "mdns": "mdns", "llmnr": "llmnr",
         "nbns": "nbns", "dhcp": "dhcp"}
PORTS = ((53, "dns"), (5353, "mdns"), (5355, "llmnr"), (137, "nbns"))


# The fields that each header of IP has once.
EACH = tuple("ip." + key for key in ("src", "dst", "proto", "dsfield", "len", "id", "flags.df", "flags.mf",
                                     "frag_offset", "ttl", "hdr_len", "checksum.status"))
EACH6 = tuple("ipv6." + key for key in ("src", "dst", "tclass", "flow", "plen", "nxt", "hlim"))
EACH_FRAGMENT = tuple("ipv6.fraghdr." + key for key in ("nxt", "offset", "more", "ident"))


class Packet:
    """The fields of a packet: those of the innermost datagram itself, and those of the one that an ICMP error quotes.
    `names` are the headers of all its datagrams, `tunnels` those that it is in, `frames` the numbers of the packets
    whose fragments are put together in it, and `part` what becomes of it where it is a fragment itself: `cut`, `kept`,
    `joined` with those before it, or `refused`, within a datagram that came in fragments."""

    def __init__(self, fields):
        self.fields = fields
        self.names = None
        self.tunnels = []
        self.frames = None
        self.part = None

    def has(self, name):
        return name in self.fields

    def text(self, name, at=0):
        return self.fields[name][at]

    def number(self, name, at=0):
        return int(self.fields[name][at], 0)

    def all(self, name):
        return self.fields.get(name, [])

    def numbers(self, name):
        return [int(value, 0) for value in self.all(name)]

    @property
    def protocols(self):
        return self.text("frame.protocols").split(":")


# ---- tunnels and fragments

def layers(packet):
    """The headers of IP and of GRE that a packet begins with, and those that extend IPv6."""
    names = packet.protocols
    start = next((at for at, name in enumerate(names) if name in FAMILIES), len(names))
    end = start
    while end < len(names) and (names[end] in FAMILIES or names[end] == "gre" or names[end].startswith("ipv6.")):
        end += 1
    return names[start:end]


FAMILIES = {"ip": 4, "ipv6": 6}


def innermost(packet):
    """The packet with the fields of the innermost datagram alone, and those behind it."""
    names = layers(packet)
    if is_cut(packet) and "ip" in names:
        names = before_fragment(packet, names)
    outer = names[:max([at for at, name in enumerate(names) if name in FAMILIES], default=0)]
    fields = dict(packet.fields)
    for keys, name in ((EACH, "ip"), (EACH6, "ipv6"), (EACH_FRAGMENT, "ipv6.fraghdr")):
        fields.update((key, fields[key][outer.count(name):]) for key in keys if key in fields)
    inner = Packet({key: values for key, values in fields.items() if values})
    inner.names, inner.tunnels = names, tunnels(packet, names)
    is_joined_outside = "ipv6.fraghdr" in outer or any(
        (int(more), int(offset)) != (0, 0) for _, more, offset in zip(
            outer, packet.all("ip.flags.mf")[:outer.count("ip")], packet.all("ip.frag_offset")[:outer.count("ip")]))
    if is_joined_outside:
        inner.frames = packet.numbers("ip.fragment" if packet.has("ip.fragment") else "ipv6.fragment")
    elif not is_cut(inner) and is_fragment(inner):
        inner.frames = packet.numbers("ip.fragment" if version(inner) == 4 else "ipv6.fragment") or None
    if is_cut(inner):
        inner.part = "cut" if has_header(inner) and is_fragment(inner) else None
    elif is_fragment(inner):
        is_refused = is_joined_outside or is_uneven(inner)
        inner.part = "refused" if is_refused else "joined" if inner.frames else "kept"
    return inner


def is_uneven(packet):
    """Whether a fragment of IPv6 that is not the last one has no multiple of 8 bytes (RFC 8200 section 4.5)."""
    if version(packet) == 4:
        return False
    return packet.text("ipv6.fraghdr.more") in ("1", "True") and not packet.has("ipv6.fragment") and (
        payload_length(packet) % 8 != 0)


def before_fragment(packet, names):
    """The headers up to a fragment that was cut, into which tshark looks all the same."""
    seen = 0
    for at, name in enumerate(names):
        if name == "ip":
            if [value for key in ("ip.flags.mf", "ip.frag_offset") for value in packet.all(key)[seen:seen + 1]] not in (
                    [], ["0", "0"]):
                return names[:at + 1]
            seen += 1
    return names


def tunnels(packet, names):
    """The tunnels that the innermost datagram is in: of each what it is called and the addresses outside."""
    seen, told = {"ip": 0, "ipv6": 0}, []
    places = [at for at, name in enumerate(names) if name in FAMILIES]
    for start, end in zip(places, places[1:]):
        family, name = names[start], "gre" if "gre" in names[start:end] else "ipv%d" % FAMILIES[names[end]]
        told.append({"tunnel": name, "src_addr": packet.text(family + ".src", seen[family]),
                     "dst_addr": packet.text(family + ".dst", seen[family])})
        seen[family] += 1
    return told


# ---- the innermost datagram

def version(packet):
    """The version of IP of the innermost datagram, or None."""
    return next((FAMILIES[name] for name in reversed(packet.names or layers(packet)) if name in FAMILIES), None)


def has_header(packet):
    """Whether the fixed header of IP is there."""
    return packet.has("ip.dst" if version(packet) == 4 else "ipv6.dst")


def headers(packet):
    """The headers behind that of IP, by their numbers, as far as they are there."""
    if version(packet) == 4:
        return [packet.number("ip.proto")]
    chain = [packet.number("ipv6.nxt")]
    # What was captured behind the fixed header.
    room = packet.number("frame.cap_len") - packet.number("frame.len") + packet.number("ipv6.plen")
    while chain[-1] in EXTENSIONS:
        following = packet.numbers(EXTENSIONS[chain[-1]] + ".nxt")
        if len(following) < chain.count(chain[-1]) or room < extension_length(packet, chain[-1]):
            break
        room -= extension_length(packet, chain[-1])
        chain.append(following[chain.count(chain[-1]) - 1])
    return chain


def is_cut(packet):
    return packet.number("frame.cap_len") < packet.number("frame.len")


def is_fragment(packet):
    if version(packet) == 4:
        return packet.text("ip.flags.mf") == "1" or packet.number("ip.frag_offset") != 0
    # A fragment that is a whole datagram alone is read as one (RFC 6946).
    # An error may quote one.
    told = packet.all("ipv6.fraghdr.offset") + packet.all("ipv6.fraghdr.more")
    return told not in ([], ["0", "0"]) and 44 in headers(packet)


def ports(packet):
    """The ports of the datagram: a fragment that is not the first has none, and of IPv6 none is looked into."""
    protocol = {17: "udp", 6: "tcp"}.get(headers(packet)[-1])
    if not protocol or not packet.has(protocol + ".srcport"):
        return None
    if protocol == "tcp" and not messages_over_tcp(packet):
        return None
    return packet.number(protocol + ".srcport"), packet.number(protocol + ".dstport")


def messages_over_tcp(packet):
    """How many messages of DNS a segment of TCP is full of; none where its data are anything else."""
    lengths = packet.numbers("dns.length")
    if not packet.has("tcp.len") or 53 not in (packet.number("tcp.srcport"), packet.number("tcp.dstport")):
        return 0
    if is_cut(packet):
        return 0
    is_full = sum(lengths) + 2 * len(lengths) == packet.number("tcp.len") and min(lengths, default=0) >= 12
    return len(lengths) if is_full else 0


def kind(packet):
    """The kind of a packet, or None where it is of another protocol."""
    if version(packet) is None or not has_header(packet):
        return "frame" if is_cut(packet) and version(packet) is not None else None
    last = headers(packet)[-1]
    if (version(packet), last) in ((4, 1), (4, 2), (6, 58)):
        return {1: "icmp4", 2: "igmp", 58: "icmp6"}[last]
    if version(packet) == 6 and last in EXTENSIONS:
        return "frame"
    if last == 6:
        return "dns" if messages_over_tcp(packet) else None
    if last != 17:
        return None
    both = ports(packet)
    if both is None:
        return "frame"
    named = next((name for port, name in PORTS if port in both), None)
    return named or ("dhcp" if version(packet) == 4 and (67 in both or 68 in both) else None)


def kind_of_tshark(packet):
    """The kind that tshark has for a packet, by the first protocol that it knows; over TCP where its messages are
    whole."""
    found = next((protocol for protocol in packet.protocols if protocol in KINDS or protocol == "tcp"), None)
    return ("dns" if messages_over_tcp(packet) else None) if found == "tcp" else KINDS.get(found)


def destination(packet):
    """The last destination of a datagram: a segment routing header has it first (RFC 8754 section 2)."""
    if version(packet) == 4:
        return packet.text("ip.dst")
    leads_on = packet.has("ipv6.routing.srh.addr") and packet.number("ipv6.routing.segleft") > 0 and is_whole(packet)
    return packet.text("ipv6.routing.srh.addr") if leads_on else packet.text("ipv6.dst")


def is_whole(packet):
    return not is_cut(packet) and packet.part in (None, "joined")


def payload_length(packet):
    """The bytes behind the header of IPv4, or the header and all headers that extend it of IPv6."""
    if packet.part == "joined":
        return packet.number(("ip" if version(packet) == 4 else "ipv6") + ".reassembled.length")
    if version(packet) == 4:
        return packet.number("ip.len") - packet.number("ip.hdr_len")
    return packet.number("ipv6.plen") - sum(extension_length(packet, number) for number in headers(packet)[:-1])


def extension_length(packet, number):
    """The bytes of the first header of a kind that extends IPv6."""
    length = EXTENSIONS[number] + ".len"
    return 8 * packet.number(length) + 8 if packet.has(length) else 8
