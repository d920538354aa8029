"""Messages of ICMPv4 (RFC 792) and ICMPv6 (RFC 4443) but for those of neighbors and listeners, as items."""
from extensions import divided
from frames import Refused
from ip import EXTENSIONS, FRAGMENT, HOP_BY_HOP, TCP, UDP, extension_len
from items import Field, named
from neighbors import lacking
from queries import QUERIES4, QUERIES6
from registries import ICMP4_CODES, ICMP4_TYPES, ICMP6_CODES, ICMP6_TYPES, PROTOCOLS
from text import be, colons, dotted
from transport import ports

# The types of errors, and of echoes.
ERRORS4, ECHOES4 = (3, 4, 5, 11, 12), (0, 8)
ERRORS6, ECHOES6 = (1, 2, 3, 4), (128, 129)


def icmp4(octets, is_whole):
    return message(octets, is_whole, ERRORS4 + ECHOES4, head4, items4, QUERIES4)


def icmp6(octets, is_whole):
    return message(octets, is_whole, ERRORS6 + ECHOES6, head6, items6, QUERIES6)


def message(octets, is_whole, types, head, items_of, others):
    """The items of a message, whole or cut, and why it is refused, or None. One that is not read is told by type, code
    and the octets behind the checksum, as far as they are there; those of other types have readers of their own."""
    try:
        if len(octets) < 8:
            raise Refused("short", "fewer than 8 bytes")
        if octets[0] in others:
            items = others[octets[0]](octets, is_whole)
            return head(octets) + items, lacking(items)
        if octets[0] not in types:
            raise Refused("type", None)
        return head(octets) + items_of(octets, is_whole), None
    except Refused as refused:
        front, rest = (head(octets), octets[4:]) if len(octets) >= 4 else ([], octets)
        return front + [Field("rest", rest)] + refused.fields(), refused


def head4(octets):
    return [named("type", octets[0], ICMP4_TYPES), named("code", octets[1], ICMP4_CODES.get(octets[0], {}))]


def head6(octets):
    return [named("type", octets[0], ICMP6_TYPES), named("code", octets[1], ICMP6_CODES.get(octets[0], {}))]


def echo(octets):
    return [Field("ident", be(octets[4:6])), Field("seq_no", be(octets[6:8])), Field("data", octets[8:])]


# ---- ICMPv4

def items4(octets, is_whole):
    if octets[0] in ECHOES4:
        if octets[1]:
            raise Refused("malformed", "an echo of code %d is not read" % octets[1])
        return echo(octets)
    quote, behind = divided4(octets, is_whole)
    return told4(octets) + quote4(quote) + behind


def divided4(octets, is_whole=False):
    """What is quoted, which is counted in words of 4 octets (RFC 4884 section 4), and the items behind that."""
    return divided(octets[8:], octets[5] if octets[0] in (3, 11, 12) else 0, 4, is_whole)


def told4(octets):
    """What an error says beside its quote; the MTU of the next link by RFC 1191 section 4."""
    if octets[0] == 3:
        return [Field("next_hop_mtu", octets[1] == 4 and be(octets[6:8]) or None)]
    if octets[0] == 5:
        return [Field("gateway", dotted(octets[4:8]))]
    return [Field("pointer", octets[4])] if octets[0] == 12 else []


QUOTE_CUT = "the quoted header is cut"


def quote4(quote):
    """A header, and 8 octets or more behind it."""
    if len(quote) < header_len4(quote) + 8:
        raise Refused("quote", "fewer than 8 bytes stand behind the quoted header")
    return header4(quote)


def header4(quote):
    """A header (RFC 791 section 3.1), and what stands behind it."""
    flags, total, length = be(quote[6:8]), be(quote[2:4]), header_len4(quote)
    payload, offset = quote[length:], flags % 0x2000 * 8
    # A total length that leaves no room for the header is none.
    own = payload if total < length else payload[:total - length]
    return quoted(
        Field("type_of_service", quote[1]), Field("total_len", total), Field("ident", be(quote[4:6])),
        Field("dont_frag", flags & 0x4000 > 0), Field("more_frags", flags & 0x2000 > 0), Field("frag_offset", offset),
        Field("hop_limit", quote[8]), named("next_header", quote[9], PROTOCOLS),
        Field("src_addr", dotted(quote[12:16])), Field("dst_addr", dotted(quote[16:20])),
        Field("options", quote[20:len(quote) - len(payload)]),
        # A later fragment does not begin with a header.
        *ports_of(quote[9], b"" if offset else own), Field("payload", payload))


def header_len4(quote):
    if len(quote) < 20:
        raise Refused("quote", QUOTE_CUT)
    version, length = quote[0] >> 4, quote[0] % 16 * 4
    if version != 4:
        raise Refused("quote", "the quoted header is of version %d" % version)
    if length < 20:
        raise Refused("quote", "the quoted header has %d bytes by its own length" % length)
    if len(quote) < length:
        raise Refused("quote", QUOTE_CUT)
    return length


# ---- ICMPv6

def items6(octets, is_whole):
    if octets[0] in ECHOES6:
        if octets[1]:
            raise Refused("malformed", "code %d is not read" % octets[1])
        return echo(octets)
    number = {2: "mtu", 4: "pointer"}.get(octets[0])
    quote, behind = divided6(octets, is_whole)
    return ([Field(number, be(octets[4:8]))] if number else []) + quote6(quote) + behind


def divided6(octets, is_whole=False):
    """What is quoted, which is counted in words of 8 octets (RFC 4884 section 4), and the items behind that."""
    return divided(octets[8:], octets[4] if octets[0] in (1, 3) else 0, 8, is_whole)


def quote6(quote):
    """A header (RFC 8200 section 3), and what stands behind it."""
    if len(quote) < 40:
        raise Refused("quote", QUOTE_CUT)
    if quote[0] >> 4 != 6:
        raise Refused("quote", "the quoted header is of version %d" % (quote[0] >> 4))
    # What is quoted behind the packet itself is padding (RFC 4884 section 4); of a jumbogram nothing is.
    length = be(quote[4:6])
    protocol, its_octets = upper(quote[6], quote[40:] if (length, quote[6]) == (0, HOP_BY_HOP) else
                                 quote[40:40 + length])
    return quoted(
        Field("traffic_class", be(quote[0:2]) >> 4 & 0xFF), Field("flow_label", be(quote[0:4]) % 2 ** 20),
        Field("payload_len", length), Field("hop_limit", quote[7]), named("next_header", quote[6], PROTOCOLS),
        Field("src_addr", colons(quote[8:24])), Field("dst_addr", colons(quote[24:40])),
        *([] if protocol in (None, quote[6]) else [named("protocol", protocol, PROTOCOLS)]),
        *ports_of(protocol, its_octets), Field("payload", quote[40:]))


def upper(protocol, octets):
    """The protocol that headers lead to, and the octets from there on (RFC 8200 section 4); none behind a header that
    is cut, and in a later fragment."""
    while protocol in EXTENSIONS or protocol == FRAGMENT:
        length = 8 if protocol == FRAGMENT else extension_len(octets)
        if len(octets) < length or protocol == FRAGMENT and be(octets[2:4]) >> 3:
            return None, b""
        protocol, octets = octets[0], octets[length:]
    return protocol, octets


# ---- quotes

def ports_of(protocol, payload):
    source, destination = protocol in (TCP, UDP) and ports(payload) or (None, None)
    return [Field("src_port", source), Field("dst_port", destination)]


def quoted(*items):
    for item in items:
        item.key = "quoted_" + item.key
    return list(items)
