"""Captures: pcap (draft-ietf-opsawg-pcap) and pcapng (draft-ietf-opsawg-pcapng), in either order of bytes."""

# What is kept of a packet at the most, the greatest block that is read, and the most interfaces of a section.
MOST_OCTETS = 262144
MOST_BLOCK = 524288
MOST_INTERFACES = 65536

# Whether the seconds of if_tsoffset count in the time of a packet.
OFFSETS_COUNT = True

# The first four octets of a pcap file, with the order of its bytes and the nanoseconds in a unit of its fractions.
MAGIC = {
    bytes.fromhex("a1b2c3d4"): ("big", 1000),
    bytes.fromhex("d4c3b2a1"): ("little", 1000),
    bytes.fromhex("a1b23c4d"): ("big", 1),
    bytes.fromhex("4d3cb2a1"): ("little", 1),
}

SECTION = bytes.fromhex("0a0d0d0a")
ORDERS = {bytes.fromhex("1a2b3c4d"): "big", bytes.fromhex("4d3c2b1a"): "little"}

SECTION_KIND, INTERFACE, OBSOLETE, SIMPLE, ENHANCED = 0x0A0D0D0A, 1, 2, 3, 6
READ_KINDS = (SECTION_KIND, INTERFACE, OBSOLETE, SIMPLE, ENHANCED)


class Packet:
    """A packet: when it was captured (None where nothing tells it), of which link it is, how long it was, and what is
    kept of it."""

    def __init__(self, nanoseconds, link_type, original_len, octets):
        self.nanoseconds = nanoseconds
        self.link_type = link_type
        self.original_len = original_len
        self.octets = octets


# What ends a capture behind a block with too few bytes.
SHORT = "malformed: a block is too short for its kind"


class Ended(Exception):
    """What ends a capture where it is not whole: `cut`, `too large`, `too many`, `version`, `no capture`, or
    `malformed: ` and the check that fails."""


class Capture:
    """The packets of a capture one after another; behind them `ending` tells what ended it, `whole` where it is whole,
    and `end` the octets that were read before."""

    def __init__(self, data):
        self.data = data
        self.end = 0
        self.ending = "whole"

    def __iter__(self):
        try:
            if self.data[:4] == SECTION:
                yield from self.blocks()
            else:
                yield from self.records()
        except Ended as ended:
            self.ending = str(ended)

    # ---- pcap

    def records(self):
        data = self.data
        if data[:4] not in MAGIC:
            raise Ended("no capture")
        order, unit = MAGIC[data[:4]]

        def number(at, length):
            return int.from_bytes(data[at:at + length], order)

        if len(data) < 24:
            raise Ended("cut")
        if (number(4, 2), number(6, 2)) != (2, 4):
            raise Ended("version")
        # The upper half tells of the frames' ends.
        link_type = number(20, 4) % 65536
        self.end = 24
        while self.end < len(data):
            at = self.end
            if len(data) - at < 16:
                raise Ended("cut")
            captured_len = number(at + 8, 4)
            if captured_len > MOST_OCTETS:
                raise Ended("too large")
            if len(data) - at < 16 + captured_len:
                raise Ended("cut")
            nanoseconds = number(at, 4) * 10 ** 9 + number(at + 4, 4) * unit
            self.end = at + 16 + captured_len
            yield Packet(nanoseconds, link_type, number(at + 12, 4), data[at + 16:self.end])

    # ---- pcapng

    def blocks(self):
        order, interfaces = "big", []
        while self.end < len(self.data):
            kind, order, block = self.block(order)
            if block is None:
                continue
            if int.from_bytes(block[-4:], order) != len(block):
                raise Ended("malformed: a block ends with another length than it begins with")
            if kind == SECTION_KIND:
                check_section(block, order)
                interfaces = []
            elif kind == INTERFACE:
                interfaces.append(interface(block, order))
                if len(interfaces) > MOST_INTERFACES:
                    raise Ended("too many")
            else:
                packet = packet_of(kind, block, order, interfaces)
                self.end += len(block)
                yield packet
                continue
            self.end += len(block)

    def block(self, order):
        """The kind of the next block, the order of its bytes, and its bytes; those of a kind that is not read are
        passed over."""
        head = self.data[self.end:self.end + 12]
        if len(head) < 12:
            raise Ended("cut")
        kind = int.from_bytes(head[:4], order)
        if kind == SECTION_KIND:
            if head[8:] not in ORDERS:
                raise Ended("malformed: a section header tells no order of bytes")
            order = ORDERS[head[8:]]
        total = int.from_bytes(head[4:8], order)
        if total < 12 or total % 4:
            raise Ended("malformed: %d is not the length of a block" % total)
        if kind in READ_KINDS and total > MOST_BLOCK:
            raise Ended("too large")
        if len(self.data) - self.end < total:
            raise Ended("cut")
        if kind not in READ_KINDS:
            self.end += total
            return kind, order, None
        return kind, order, self.data[self.end:self.end + total]


def check_section(block, order):
    if len(block) < 28:
        raise Ended(SHORT)
    if int.from_bytes(block[12:14], order) != 1 or int.from_bytes(block[14:16], order) not in (0, 2):
        raise Ended("version")


class Interface:
    def __init__(self, link_type, snap_len, units, offset):
        self.link_type = link_type
        self.snap_len = snap_len
        self.units = units
        self.offset = offset

    def nanoseconds(self, ticks):
        """The time of so many units, none of which lies before 1970."""
        return max(0, ticks * 10 ** 9 // self.units + self.offset * 10 ** 9)


def interface(block, order):
    if len(block) < 20:
        raise Ended(SHORT)
    units, offset = 10 ** 6, 0
    found = options(block[16:-4], order)
    # The first of each counts.
    for code, value in reversed(found):
        if code == 9 and len(value) == 1:
            units = 2 ** (value[0] - 128) if value[0] >= 128 else 10 ** value[0]
        if code == 14 and len(value) == 8 and OFFSETS_COUNT:
            offset = int.from_bytes(value, order, signed=True)
    link_type = int.from_bytes(block[8:10], order)
    return Interface(link_type, int.from_bytes(block[12:16], order), units, offset)


def options(octets, order):
    """Options by code and value, up to code 0 or to one that is cut short; each is padded to four octets."""
    found = []
    while len(octets) >= 4:
        code, length = int.from_bytes(octets[:2], order), int.from_bytes(octets[2:4], order)
        end = 4 + (length + 3) // 4 * 4
        if code == 0 or end > len(octets):
            break
        found.append((code, octets[4:4 + length]))
        octets = octets[end:]
    return found


def packet_of(kind, block, order, interfaces):
    def number(at, length=4):
        return int.from_bytes(block[at:at + length], order)

    least, at = (16, 12) if kind == SIMPLE else (32, 28)
    place = 0 if kind == SIMPLE else number(8, 2) if kind == OBSOLETE else number(8)
    if len(block) < least:
        raise Ended(SHORT)
    if place >= len(interfaces):
        raise Ended("malformed: interface %d is not described" % place)
    of = interfaces[place]
    if kind == SIMPLE:
        original_len = number(8)
        captured_len = min(original_len, of.snap_len) if of.snap_len else original_len
        nanoseconds = None
    else:
        captured_len, original_len = number(20), number(24)
        nanoseconds = of.nanoseconds(number(12) * 2 ** 32 + number(16))
    if least + captured_len > len(block):
        raise Ended("malformed: a packet of %d bytes is longer than its block" % captured_len)
    if captured_len > MOST_OCTETS:
        raise Ended("too large")
    return Packet(nanoseconds, of.link_type, original_len, block[at:at + captured_len])
