"""What pcapdump --json is to print, as patterns and entries; see contents.py."""

import re

# A member that stands for all further ones, of which nothing is expected.
MORE = "..."


def octets(count, front="", ending=""):
    """So many octets: those in front are told as a pattern, of which `..` is an octet, and the last ones."""
    front, ending = front[:2 * count], ending[-2 * count:] if count else ""
    return re.compile(front + "[0-9a-f]{%d}" % (2 * count - len(front) - len(ending)) + ending)


def data(packet):
    """The octets at the end that tshark knows no more of. Behind those of an error may be extensions (RFC 4884)."""
    is_last = not any(map(packet.has, ("icmp.ext.version", "icmp.length", "icmpv6.length")))
    return packet.text("data.data") if packet.has("data.data") and is_last else ""


def entry(key, number, **values):
    """An entry of a list, with any label."""
    return {key: re.compile("[a-z0-9_]+"), **values, "type": number}


def flags(octet, *names_of):
    return [name for at, name in enumerate(names_of) if octet & 0x80 >> at]


def additional(count, front=""):
    """What stands behind all fields, where there is anything."""
    return {"additional_data": octets(count, front)} if count > 0 else {}


class Values:
    """The values of a packet's fields, each of which is taken once, in turn."""

    def __init__(self, packet):
        self.packet = packet
        self.left = {}

    def count(self, name):
        return len(self.left.setdefault(name, list(self.packet.all(name))))

    def text(self, name):
        self.count(name)
        return self.left[name].pop(0)

    def number(self, name):
        return int(self.text(name), 0)
