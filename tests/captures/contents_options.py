"""What pcapdump --json is to print of the options of neighbor discovery, told by the fields that tshark has of them;
see contents.py."""

import re
import socket

from contents_errors import quoted_octets
from names import name
from patterns import Values, entry, flags, octets

PREFERENCES = ("medium", "high", "reserved", "low")
# The bits of the prefix of a NAT64 by their code (RFC 8781 section 4).
NAT64_LENGTHS = (96, 64, 56, 48, 40, 32)


def neighbor_options(packet):
    """The options in their order: each kind of value has a list of its own."""
    values = Values(packet)
    return {"options": [option(packet, values, number, length) for number, length in zip(
        packet.numbers("icmpv6.opt.type"), packet.numbers("icmpv6.opt.length"))]}


def option(packet, values, number, length):
    """An option of so many units of eight octets."""
    if number in (1, 2):
        return entry("option", number, addr=values.text("icmpv6.opt.linkaddr"))
    if number == 4:
        return redirected(packet)
    if number == 5:
        return entry("option", number, mtu=values.number("icmpv6.opt.mtu"))
    told = OPTIONS[number](values, length) if number in OPTIONS else {"data": octets(8 * length - 2)}
    return entry("option", number, **(told or {"data": octets(8 * length - 2), "refused": re.compile(".+")}))


# ---- the values of options, or None where they are refused: then tshark has other values of them, or none


def prefix(values, _):
    def number(name):
        return values.number("icmpv6.opt.prefix." + name)

    bits = number("length")
    told = {"prefix": f'{values.text("icmpv6.opt.prefix")}/{bits}',
            "flags": flags(number("flag"), "on_link", "autonomous", "router_address"),
            "valid_lifetime": 1000 * number("valid_lifetime"),
            "preferred_lifetime": 1000 * number("preferred_lifetime")}
    # An address has 128 bits.
    return told if bits <= 128 else None


def redirected(packet):
    length = packet.number("ipv6.plen", 1)
    return entry("option", 4, quoted_src_addr=packet.text("ipv6.src", 1), quoted_dst_addr=packet.text("ipv6.dst", 1),
                 quoted_next_header=packet.number("ipv6.nxt", 1), quoted_hop_limit=packet.number("ipv6.hlim", 1),
                 quoted_payload_len=length,
                 # The option is padded to units of eight octets.
                 quoted_payload=re.compile(quoted_octets(packet, packet.number("ipv6.nxt", 1), True, length).pattern
                                           + "(00){0,7}"))


def nonce(values, _):
    return {"nonce": values.text("icmpv6.opt.nonce")}


def route(values, length):
    """A route, whose prefix may be left out, or end behind its first half (RFC 4191 section 2.3)."""
    bits = values.number("icmpv6.opt.prefix.length")
    if length > 3 or bits > 64 * (length - 1):
        return None
    address = "::" if length == 1 else values.text("icmpv6.opt.prefix")
    return {"prefix": prefix_of(address, bits),
            "preference": PREFERENCES[values.number("icmpv6.opt.route_info.flag") >> 3 & 3],
            "lifetime": 1000 * values.number("icmpv6.opt.route_lifetime")}


def prefix_of(address, length):
    """A prefix of so many bits; bits behind them are no part of it, and tshark shows them."""
    told = int.from_bytes(socket.inet_pton(socket.AF_INET6, address), "big")
    bits = told >> 128 - length << 128 - length
    if bits != told:
        address = socket.inet_ntop(socket.AF_INET6, bits.to_bytes(16, "big"))
    return f"{address}/{length}"


def servers(values, length):
    """RFC 8106 section 5.1."""
    if length < 3 or length % 2 == 0:
        return None
    return {"servers": [values.text("icmpv6.opt.rdnss") for _ in range((length - 1) // 2)],
            "lifetime": 1000 * values.number("icmpv6.opt.rdnss.lifetime")}


def search_list(values, length):
    """Names, as many as the option has room for: of its padding there are less than eight octets. One without an end
    tshark does not have, and of one with a pointer, which no name may have here, it says what it thinks of it."""
    told, room = [], 8 * length - 8
    while room >= 8:
        text = values.text("icmpv6.opt.dnssl") if values.count("icmpv6.opt.dnssl") else "<"
        if text.startswith("<"):
            return None
        told.append(name(text))
        room -= len(text) + 2
    return {"names": told, "lifetime": 1000 * values.number("icmpv6.opt.dnssl.lifetime")} if told else None


def portal(values, _):
    """Octets that are no visible ASCII tshark writes as characters, or as that of none."""
    return {"uri": re.compile("".join(map(uri_character, values.text("icmpv6.opt.captive_portal"))))}


def uri_character(character):
    if character == "\ufffd":
        return r"\\x[0-9a-f]{2}"
    if "!" <= character <= "~":
        return re.escape("\\" * (character in '\\"') + character)
    return re.escape("".join("\\x%02x" % octet for octet in character.encode()))


def nat64(values, length):
    code = values.number("icmpv6.opt.pref64.plc")
    if length != 2 or code >= len(NAT64_LENGTHS):
        return None
    return {"prefix": prefix_of(values.text("icmpv6.opt.pref64.prefix"), NAT64_LENGTHS[code]),
            "lifetime": 8000 * values.number("icmpv6.opt.pref64.scaled_lifetime")}


OPTIONS = {3: prefix, 14: nonce, 24: route, 25: servers, 31: search_list, 37: portal, 38: nat64}
