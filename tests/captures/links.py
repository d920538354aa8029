#!/usr/bin/env python3
"""Turns a capture of Ethernet into one of another link: `links.py LINK FROM TO`.

The packets of IP keep their bytes and times, and get the header of the other link in the place of Ethernet's. Other
packets are left out where the link has none such.
"""

import struct
import sys

IPV4, IPV6 = 0x0800, 0x86dd
PPP = {IPV4: b"\x00\x21", IPV6: b"\x00\x57"}


def null(addresses, kind, payload):
    """BSD loopback: the address family in the order of the machine."""
    return {IPV4: struct.pack("<I", 2), IPV6: struct.pack("<I", 30)}[kind] + payload


def loop(addresses, kind, payload):
    """OpenBSD loopback: the same in network order."""
    return {IPV4: struct.pack(">I", 2), IPV6: struct.pack(">I", 24)}[kind] + payload


def ppp(addresses, kind, payload):
    """PPP with its protocol alone."""
    return PPP[kind] + payload


def ppp_hdlc(addresses, kind, payload):
    """PPP with an address and a control byte (RFC 1662)."""
    return b"\xff\x03" + PPP[kind] + payload


def pppoe(addresses, kind, payload):
    """A session of PPP over Ethernet (RFC 2516)."""
    return addresses + b"\x88\x64\x11\x00\x00\x01" + struct.pack(">H", len(payload) + 2) + PPP[kind] + payload


def padded(addresses, kind, payload):
    """Ethernet filled up to 60 bytes, as interfaces do."""
    return (addresses + struct.pack(">H", kind) + payload).ljust(60, b"\0")


def raw(addresses, kind, payload):
    """IP alone."""
    return payload


def vlan(addresses, kind, payload):
    """One tag of IEEE 802.1Q, with a priority of 5 before the number."""
    return addresses + struct.pack(">HHH", 0x8100, 0xa007, kind) + payload


def vlans(addresses, kind, payload):
    """A tag of a service and one of a customer."""
    return addresses + struct.pack(">HHHHH", 0x88a8, 4094, 0x8100, 0x1001, kind) + payload


def headers(addresses, kind, payload):
    """Ethernet, with a wrong checksum in the innermost header of IPv4 that is directly in others. Fragments are left as
    they are, since tshark puts none together whose header is wrong."""
    at = 0
    while kind == IPV4 and payload[at + 9] == 4:
        at += 20
    if kind == IPV4 and not struct.unpack_from(">H", payload, 6)[0] & 0x3fff:
        payload = payload[:at + 10] + bytes([payload[at + 10] ^ 1]) + payload[at + 11:]
    return addresses + struct.pack(">H", kind) + payload


# The number of each link, how a packet of it is made, and of which packets of Ethernet.
LINKS = {
    "null": (0, null, (IPV4, IPV6)), "loop": (108, loop, (IPV4, IPV6)), "ppp": (9, ppp, (IPV4, IPV6)),
    "ppp_hdlc": (50, ppp_hdlc, (IPV4, IPV6)), "pppoe": (1, pppoe, (IPV4, IPV6)), "raw": (101, raw, (IPV4, IPV6)),
    "ipv4": (228, raw, (IPV4,)), "ipv6": (229, raw, (IPV6,)), "padded": (1, padded, None), "vlan": (1, vlan, None),
    "vlans": (1, vlans, None), "headers": (1, headers, None),
}


def packets(capture):
    """The packets of a capture of Ethernet in the order of a little machine: times, lengths and bytes."""
    at = 24
    while at < len(capture):
        seconds, fraction, kept, length = struct.unpack_from("<4I", capture, at)
        yield seconds, fraction, length, capture[at + 16:at + 16 + kept]
        at += 16 + kept


def turned(link, capture):
    """The capture of another link; that of tags is written in the order of a big machine."""
    number, make, kinds = LINKS[link]
    magic, major, minor, zone, figures, limit, _ = struct.unpack_from("<IHHiIII", capture)
    order = ">" if make in (vlan, loop) else "<"
    pieces = [struct.pack(order + "IHHiIII", magic, major, minor, zone, figures, limit, number)]
    for seconds, fraction, length, octets in packets(capture):
        kind, = struct.unpack_from(">H", octets, 12)
        if kinds is None or kind in kinds:
            frame = make(octets[:12], kind, octets[14:])
            whole = length + len(frame) - len(octets)
            pieces += [struct.pack(order + "4I", seconds, fraction, len(frame), whole), frame]
    return b"".join(pieces)


if __name__ == "__main__":
    with open(sys.argv[2], "rb") as source:
        result = turned(sys.argv[1], source.read())
    with open(sys.argv[3], "wb") as target:
        target.write(result)
