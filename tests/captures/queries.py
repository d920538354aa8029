"""Messages of ICMP that are neither errors nor echoes, as items behind their type and code: timestamps (RFC 792),
address masks (RFC 950), solicitations and advertisements of routers (RFC 1256), extended echoes (RFC 8335), and node
information (RFC 4620)."""
import struct

from frames import Refused
from items import Cell, Entries, Entry, Field, named, seconds
from registries import ADDRESS_FAMILIES, NEIGHBOR_STATES, NODE_FLAGS, NODE_QTYPES
from text import address, be, colons, dotted, is_good, mac, name_text

SHORT = "fewer bytes than a message of this type has"
CUT = "the entries are cut short"


def additional(octets):
    return [Field("additional_data", octets)] if octets else []


def cut(is_cut):
    """That a list ends within an entry, or before all that are counted."""
    return [Field("refused", CUT)] if is_cut else []


def numbers(octets):
    """The identifier and the sequence number."""
    ident, seq_no = struct.unpack(">HH", octets[4:8])
    return [Field("ident", ident), Field("seq_no", seq_no)]


# ---- ICMPv4

def fixed(length, items_of):
    """The reader of messages of code 0 that have a fixed length."""
    def read(octets):
        if octets[1]:
            raise Refused("malformed", "code %d is not 0" % octets[1])
        if len(octets) < length:
            raise Refused("short", SHORT)
        return items_of(octets) + additional(octets[length:])
    return read


def timestamp(octets):
    times = struct.unpack(">III", octets[8:20])
    return numbers(octets) + [Field(*item) for item in zip(("originate", "receive", "transmit"), times)]


def mask(octets):
    return numbers(octets) + [Field("mask", dotted(octets[8:12]))]


def advertisement(octets):
    """Routers, in entries of some words of 4 octets (RFC 1256 section 3). Code 16 is that of a mobility agent that
    routes no common traffic (RFC 5944 section 2.1)."""
    code, count, words, lifetime = octets[1], octets[4], octets[5], be(octets[6:8])
    if code not in (0, 16):
        raise Refused("malformed", "code %d is not 0" % code)
    if not count:
        raise Refused("malformed", "an advertisement of no routers")
    if words < 2:
        raise Refused("malformed", "entries of fewer than 2 words each (%d)" % words)
    width = 4 * words
    end = 8 + width * count
    routers = [router(octets[at:at + width], width) for at in range(8, min(end, len(octets)), width)]
    return ([Field("lifetime", seconds(lifetime)), Entries("routers", routers)] + cut(len(octets) < end)
            + additional(octets[end:]))


def router(octets, width):
    """A router by its address and its preference level, a signed number (RFC 1256 section 3)."""
    if len(octets) < width:
        return Entry(("entry", "router"), ("data", octets), Cell("refused", "fewer bytes than an entry has"))
    level = struct.unpack(">i", octets[4:8])[0]
    spare = [Cell("additional_data", octets[8:])] if octets[8:] else []
    return Entry(("entry", "router"), ("addr", dotted(octets[:4])), Cell("preference_level", str(level)), *spare)


# ---- extended echoes

def extended_numbers(octets):
    return [Field("ident", be(octets[4:6])), Field("seq_no", octets[6])]


def extended_request(octets, is_whole):
    return extended_numbers(octets) + [Field("local", octets[7] % 2 == 1)] + structure(octets[8:], is_whole)


def extended_reply(octets):
    state = octets[7]
    return extended_numbers(octets) + [
        named("state", state >> 5, NEIGHBOR_STATES), Field("active", state & 4 > 0), Field("ipv4", state & 2 > 0),
        Field("ipv6", state & 1 > 0)] + additional(octets[8:])


def structure(octets, is_whole):
    """The extension structure of a request, with an object that names an interface (RFC 8335 section 2.1)."""
    why, items = interface(octets, is_whole)
    return items if why is None else [Field("data", octets), Field("data_refused", why)]


def interface(octets, is_whole):
    """Why a structure names no interface, or None, and the items of the one that it names."""
    why = unread(octets, is_whole)
    if why:
        return why, []
    length, kind, form = be(octets[4:6]), octets[6], octets[7]
    if kind != 3:
        return "an object of another class than 3", []
    why, items, told = identified(form, octets[8:4 + length])
    return why, items + additional(octets[8 + told:])


def unread(octets, is_whole):
    """Why a structure is not read, or its object (RFC 4884 sections 7 and 8), or None. The checksum is that of all its
    octets."""
    if len(octets) < 4:
        return "the header of the extensions is cut"
    if octets[0] >> 4 != 2:
        return "the extensions are of version %d" % (octets[0] >> 4)
    if is_whole and octets[2:4] != b"\0\0" and not is_good(octets):
        return "the checksum of the extensions is wrong"
    if len(octets) < 8:
        return "the header of the object is cut"
    length = be(octets[4:6])
    if length < 4:
        return "the object has fewer than 4 bytes by its length"
    return "the object is cut" if length > len(octets) - 4 else None


def identified(form, payload):
    """The interface by its name, its index or its address: why there is none, or None; its items; and how many octets
    they tell."""
    if form == 1:
        return None, [Field("interface_name", name_text(payload))], len(payload)
    if form == 2:
        wrong = None if len(payload) == 4 else "an index of other than 4 bytes"
        return wrong, [Field("interface_index", be(payload))], len(payload)
    return located(payload) if form == 3 else ("a C-Type that is not known", [], 0)


# How addresses are written, by their family and their length.
WRITTEN = {(1, 4): dotted, (2, 16): colons, (6, 6): mac, (16389, 6): mac}


def located(payload):
    """The interface by its address, which zeros pad to a multiple of 4 octets."""
    if len(payload) < 4:
        return "fewer than 4 bytes before an address", [], 0
    end = 4 + payload[2]
    if len(payload) < end:
        return "fewer bytes than the address counts", [], 0
    family, octets, padding = be(payload[:2]), payload[4:end], payload[end:end + -end % 4]
    value = WRITTEN.get((family, len(octets)), bytes)(octets)
    return None, [named("interface_addr_family", family, ADDRESS_FAMILIES), Field("interface_addr", value)], (
        end if padding.strip(b"\0") else end + len(padding))


# ---- node information

def node(data_of):
    """The reader of messages about a node, whose data these items tell by the code and the type of the query."""
    def read(octets):
        if len(octets) < 16:
            raise Refused("short", SHORT)
        qtype, flags = struct.unpack(">HH", octets[4:8])
        names = NODE_FLAGS if qtype in (3, 4) else {}
        bits = [1 << at for at in range(15, -1, -1) if flags >> at & 1]
        return [named("qtype", qtype, NODE_QTYPES), Field("flags", [names.get(bit, "0x%04x" % bit) for bit in bits]),
                Field("nonce", octets[8:16])] + data_of(octets[1], qtype, octets[16:])
    return read


def subject(code, _, octets):
    """The node that a query is about: an address of IPv6, a name, or an address of IPv4."""
    if (code, len(octets)) in ((0, 16), (2, 4)):
        return [Field("subject_addr", address(octets))]
    return [Field("data", octets)]


def answer(code, qtype, octets):
    """Addresses, each behind its time to live (RFC 4620 sections 6.3 and 6.4), or other data."""
    width = {3: 16, 4: 4}.get(qtype)
    if code or width is None:
        return [Field("data", octets)]
    parts = [octets[at:at + 4 + width] for at in range(0, len(octets), 4 + width)]
    return [Entries("addresses", [lived(part, 4 + width) for part in parts])] + cut(len(octets) % (4 + width) != 0)


def lived(octets, length):
    if len(octets) < length:
        why = "fewer bytes than an address and its time to live"
        return Entry(("entry", "address"), ("data", octets), Cell("refused", why))
    return Entry(("entry", "address"), ("addr", address(octets[4:])), Cell("ttl", seconds(be(octets[:4]))))


# ---- by their types, of 8 octets or more, whole messages or cut ones

def alike(items_of):
    """A reader of messages for which it makes no difference whether they are whole."""
    return lambda octets, is_whole: items_of(octets)


QUERIES4 = {
    9: alike(advertisement), 10: alike(fixed(8, lambda octets: [])), 13: alike(fixed(20, timestamp)),
    14: alike(fixed(20, timestamp)), 17: alike(fixed(12, mask)), 18: alike(fixed(12, mask)), 42: extended_request,
    43: alike(extended_reply),
}
QUERIES6 = {
    139: alike(node(subject)), 140: alike(node(answer)), 160: extended_request, 161: alike(extended_reply),
}
