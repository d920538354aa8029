"""Whole messages of DNS, multicast DNS, LLMNR and the NetBIOS name service, as items."""
import struct

import netbios
from frames import Refused
from items import BARE, KEYED, Cell, Entries, Entry, Field, named
from text import be
from zones import OPT, TOP, Part, class_text, generic_text, label, name, name_end, record_data, type_text

FLAGS = {0x8000: "qr", 0x0400: "aa", 0x0200: "tc", 0x0100: "rd", 0x0080: "ra", 0x0040: "z", 0x0020: "ad", 0x0010: "cd"}
# Those of LLMNR (RFC 4795 section 2.1.1).
LLMNR_FLAGS = {0x8000: "qr", 0x0400: "c", 0x0200: "tc", 0x0100: "t", 0x0080: "z1", 0x0040: "z2", 0x0020: "z3",
               0x0010: "z4"}
OPCODES = {0: "QUERY", 1: "IQUERY", 2: "STATUS", 4: "NOTIFY", 5: "UPDATE", 6: "DSO"}
RCODES = {
    0: "NOERROR", 1: "FORMERR", 2: "SERVFAIL", 3: "NXDOMAIN", 4: "NOTIMP", 5: "REFUSED", 6: "YXDOMAIN", 7: "YXRRSET",
    8: "NXRRSET", 9: "NOTAUTH", 10: "NOTZONE", 11: "DSOTYPENI",
}
# What headers of other kinds have.
HEADERS = {"llmnr": (LLMNR_FLAGS, OPCODES, RCODES), "nbns": (netbios.FLAGS, netbios.OPCODES, netbios.RCODES)}
# The options of EDNS.
EXTENSIONS = {
    3: "nsid", 5: "dau", 6: "dhu", 7: "n3u", 8: "client-subnet", 9: "expire", 10: "cookie", 11: "tcp-keepalive",
    12: "padding", 13: "chain", 14: "key-tag", 15: "extended-error", 18: "report-channel", 19: "zone-version",
}
# A query for what has the data of its answer (RFC 1035 section 6.4).
INVERSE = 1
ENTRY, ASKED_NAME, OWNER = Part("malformed"), Part("name"), Part("name", "the owner: ")
OPTIONS = Part("malformed", "the options: ")


def message(octets, kind):
    """The items of a message, and why the first of it is refused that is, or None."""
    if len(octets) < 12:
        why = "fewer than 12 bytes"
        return [Field("refused", why), Field("octets", octets)], Refused("short", why)
    found, at, refusals = [], 12, []
    try:
        for section, place in (("question", 4), ("answer", 6), ("authority", 8), ("additional", 10)):
            for _ in range(be(octets[place:place + 2])):
                at = entry(octets, at, section, kind, found, refusals)
    except Refused as refused:
        found.append(refused_entry(section, refused, Cell("octets", octets[at:])))
        refusals.append(refused)
    return header(octets, kind) + [Entries("entries", found)], refusals[0] if refusals else None


def header(octets, kind):
    word = be(octets[2:4])
    flags, opcodes, rcodes = HEADERS.get(kind, (FLAGS, OPCODES, RCODES))
    return [
        Field("transaction_id", be(octets[0:2])), Field("flags", [name for bit, name in flags.items() if word & bit]),
        named("opcode", word >> 11 & 15, opcodes), named("rcode", word & 15, rcodes),
    ]


def entry(octets, at, section, kind, found, refusals):
    """Adds the entry of the question or record at a place, and why it is refused, where it is; gives the place behind
    it."""
    of = record(octets, at, kind) if section != "question" else question(octets, at, kind)
    try:
        found.append(of.entry(octets, section))
    except Refused as refused:
        refusals.append(refused)
        found.append(refused_entry(section, refused, *of.known(octets), name=of.owner(octets)))
    else:
        refusals += of.refusals
    return of.end


def refused_entry(section, refused, *cells, name=None):
    return Entry(("section", section), ("name", name), *cells, Cell("refused", refused.phrase))


# ---- questions and records

def fields_end(octets, at, length):
    """Where the name of a question or record ends, and so many octets of fields behind it."""
    end = name_end(octets, at, len(octets), ENTRY)
    ENTRY.accept(len(octets) >= end + length, "the fields behind the name are cut")
    return end, end + length


class Question:
    """A question: of which kind of message it is, where its name stands in that, its numbers, and where it ends."""

    def __init__(self, message_kind, place, kind, of_class, end):
        self.is_multicast = message_kind == "mdns"
        self.is_netbios = message_kind == "nbns"
        self.place = place
        self.kind = kind
        self.of_class = of_class
        self.end = end
        self.refusals = []

    def name(self, octets, part):
        """The text of the name."""
        return name(octets, *self.place, part, netbios.name if self.is_netbios else None)

    def has_mark(self):
        return self.is_multicast and self.of_class & TOP

    def class_number(self):
        return self.of_class % TOP if self.is_multicast else self.of_class

    def class_cell(self, shown):
        return Cell("class", class_text(self.class_number()), shown)

    def type_cell(self, shown):
        of_netbios = netbios.TYPES.get(self.kind) if self.is_netbios else None
        return Cell("type", of_netbios or type_text(self.kind), shown)

    def marks(self):
        return [Cell("unicast_response", True)] if self.has_mark() else []

    def entry(self, octets, section):
        return Entry(("section", section), ("name", self.name(octets, ASKED_NAME)), self.class_cell(BARE),
                     self.type_cell(BARE), *self.marks())

    def owner(self, octets):
        """The name of one that does not read, or None where that does not."""
        try:
            return self.name(octets, OWNER)
        except Refused:
            return None

    def name_octets(self, octets):
        """The octets of a name that does not read."""
        return [] if self.owner(octets) is not None else [Cell("name_octets", octets[slice(*self.place)])]

    def known(self, octets):
        """What is told of one that does not read, behind its name."""
        return [*self.name_octets(octets), self.class_cell(KEYED), self.type_cell(KEYED), *self.marks()]


def question(octets, at, message_kind):
    end, behind = fields_end(octets, at, 4)
    return Question(message_kind, (at, end), be(octets[end:end + 2]), be(octets[end + 2:behind]), behind)


class Record(Question):
    """A record: also its time to live in seconds, and where its data begin, which end it."""

    def __init__(self, message_kind, place, kind, of_class, end, ttl, start):
        super().__init__(message_kind, place, kind, of_class, end)
        self.ttl = ttl
        self.start = start
        # The class of OPT is a size, of all bits.
        self.is_multicast = self.is_multicast and kind != OPT

    def marks(self):
        return [Cell("cache_flush", True)] if self.has_mark() else []

    def entry(self, octets, section):
        owner, own = self.name(octets, OWNER), octets[self.start:self.end]
        if self.kind == OPT and not self.is_netbios:
            return Entry(("section", section), ("name", owner), self.type_cell(BARE), *self.extensions(own))
        return Entry(("section", section), ("name", owner), Cell("ttl", self.ttl, BARE), self.class_cell(BARE),
                     self.type_cell(BARE), *self.data(octets, section, own), *self.marks())

    def data(self, octets, section, own):
        """The cells of the data, which are cut where they tell why."""
        word = be(octets[2:4])
        opcode = word >> 11 & 15
        if self.is_netbios:
            cells, why = netbios.data(self.kind, opcode, own, label) or ([generic(own)], None)
            return cells + self.cut(own, why)
        if section == "answer" and opcode == INVERSE and not word & TOP and not own:
            return [generic(own)]
        return [Cell("data", record_data(octets, self, self.class_number()), BARE)]

    def cut(self, own, why):
        """Why data are cut, where they are, and their octets."""
        if why is None:
            return []
        self.refusals.append(Refused("malformed", why))
        return [Cell("octets", own), Cell("refused", why)]

    def known(self, octets):
        return [*self.name_octets(octets), Cell("ttl", self.ttl), self.class_cell(KEYED), self.type_cell(KEYED),
                Cell("octets", octets[self.start:self.end]), *self.marks()]

    def extensions(self, own):
        """What OPT says of its sender, and its options (RFC 6891 section 6.1), those before one that is cut too."""
        flags, left, texts, why = self.ttl & 65535, own, [], None
        try:
            while left:
                text, left = extension(left)
                texts.append(text)
        except Refused as refused:
            why = refused.phrase
        reserved = [Cell("reserved_flags", flags % TOP)] if flags % TOP else []
        return [Cell("udp_size", self.of_class), Cell("extended_rcode", self.ttl >> 24),
                Cell("version", self.ttl >> 16 & 255), Cell("flags", ["do"] if flags & TOP else []),
                Cell("options", texts)] + reserved + self.cut(own, why)


def extension(data):
    """The option at the front of the data, and what stands behind it."""
    OPTIONS.accept(len(data) >= 4, "the code and the length are cut")
    code, end = be(data[0:2]), 4 + be(data[2:4])
    OPTIONS.accept(len(data) >= end, "the data of the option is cut")
    return "%s:%s" % (EXTENSIONS.get(code, code), data[4:end].hex()), data[end:]


def record(octets, at, message_kind):
    end, start = fields_end(octets, at, 10)
    kind, of_class, ttl, length = struct.unpack(">HHIH", octets[end:start])
    ENTRY.accept(len(octets) >= start + length, "the data is cut")
    return Record(message_kind, (at, end), kind, of_class, start + length, ttl, start)


def generic(data):
    """Data of no known layout (RFC 3597 section 5)."""
    return Cell("data", generic_text(data), BARE)
