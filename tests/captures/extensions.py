"""Extensions behind what ICMP errors quote (RFC 4884), as items: labels of MPLS (RFC 4950), interfaces (RFC 5837), and
the octets of others."""
from items import HIDDEN, Cell, Entries, Entry, Field, labelled
from text import be, colons, dotted, is_good, name_text

# IANA's registry of the classes of objects.
CLASSES = {1: "mpls_label_stack", 2: "interface_information", 3: "interface_identification", 4: "extended_information"}
LABELS, INTERFACE = 1, 2
ROLES = "incoming", "sub_ip", "outgoing", "next_hop"


class Broken(Exception):
    """Octets that are not what they are read as, and why."""


def divided(octets, length, unit, is_whole):
    """What is quoted of all octets behind an error's header, and the items behind that: by the length in the error,
    which counts so many octets each. Of an error that is not whole the checksum of the structure tells nothing."""
    if length == 0:
        return octets, []
    end = length * unit
    if end < 128:
        return octets, refused("the original datagram has fewer than 128 bytes by its length")
    if end > len(octets):
        return octets, refused("the original datagram is cut")
    return octets[:end], structure(octets[end:], is_whole) if octets[end:] else []


def refused(why):
    return [Field("extensions_refused", why)]


def structure(octets, is_whole):
    """An extension structure (RFC 4884 section 7), whose checksum is that of all its octets, with one or more objects,
    which may be what a cut one lacks."""
    why = None
    if len(octets) < 4:
        why = "the header of the extensions is cut"
    elif octets[0] >> 4 != 2:
        why = "the extensions are of version %d" % (octets[0] >> 4)
    elif is_whole and octets[2:4] != b"\0\0" and not is_good(octets):
        why = "the checksum of the extensions is wrong"
    elif is_whole and len(octets) == 4:
        why = "the extensions have no object"
    return refused(why) + [Field("extensions_octets", octets)] if why else [Entries("extensions", objects(octets[4:]))]


def objects(octets):
    """The objects in turn (RFC 4884 section 8)."""
    found = []
    while octets:
        length = be(octets[0:2])
        why = ("the header of the object is cut" if len(octets) < 4
               else "the object has fewer than 4 bytes by its length" if length < 4
               else "the object is cut" if length > len(octets) else None)
        if why:
            return found + [Entry(("object", "object"), ("data", octets), Cell("refused", why))]
        found += entries(octets[2], octets[3], octets[4:length])
        octets = octets[length:]
    return found


def entries(number, kind, data):
    try:
        if (number, kind) == (LABELS, 1) and data:
            return labels(data)
        if number == INTERFACE:
            return [interface(kind, data)]
        return [plain(number, kind, data)]
    except Broken as broken:
        return [plain(number, kind, data, Cell("refused", str(broken)))]


def plain(number, kind, data, *why):
    return Entry(("object", labelled(CLASSES, "object", number)), ("data", data), Cell("class", number, HIDDEN),
                 Cell("c_type", kind), *why)


def labels(data):
    """Entries of 4 octets (RFC 3032 section 2.1): a label of 20 bits, a class of 3, the bottom, and a time to live."""
    if len(data) % 4:
        raise Broken("the stack of labels ends within an entry")
    return [Entry(("object", "mpls_label"), ("label", be(data[at:at + 3]) >> 4),
                  Cell("traffic_class", data[at + 2] >> 1 & 7), Cell("bottom", data[at + 2] & 1 > 0),
                  Cell("ttl", data[at + 3]), Cell("class", LABELS, HIDDEN), Cell("c_type", 1, HIDDEN))
            for at in range(0, len(data), 4)]


def interface(kind, data):
    """What is told of an interface (RFC 5837 section 4), by the bits of the C-Type, and what is behind that."""
    parts = {}
    for bit, key, read in ((8, "index", number4), (4, "addr", address), (2, "name", name), (1, "mtu", number4)):
        parts[key], data = read(data) if kind & bit else (None, data)
    return Entry(("object", CLASSES[INTERFACE]), ("role", ROLES[kind >> 6]), *(Cell(*part) for part in parts.items()),
                 Cell("class", INTERFACE, HIDDEN), Cell("c_type", kind, HIDDEN),
                 *([Cell("additional_data", data)] if data else []))


def cut(data, length):
    if len(data) < length:
        raise Broken("the object about the interface is cut")
    return data[:length], data[length:]


def number4(data):
    number, rest = cut(data, 4)
    return be(number), rest


def address(data):
    family = be(cut(data, 4)[0][:2])
    if family not in (1, 2):
        raise Broken("the interface has an address of family %d" % family)
    octets, rest = cut(data, 8 if family == 1 else 20)
    return (dotted if family == 1 else colons)(octets[4:]), rest


def name(data):
    """A name behind its length, which counts itself and the zeros behind the name."""
    length = cut(data, 1)[0][0]
    if length % 4 or not 4 <= length <= 64:
        raise Broken("the name of the interface has a length of %d" % length)
    octets, rest = cut(data, length)
    return name_text(octets[1:]), rest
