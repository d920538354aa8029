#!/usr/bin/env python3
"""The page of statistics of a capture, written from the section "Statistics" of the manual of pcapdump: rows, each of
which is a fact that messages tell, with how many of them do. As a program:

    page.py [--only KIND,..] [--json] [--strict] [FILE..]"""
import sys

sys.dont_write_bytecode = True

import dhcp  # noqa: E402
import dns  # noqa: E402
import neighbors  # noqa: E402
import pairs  # noqa: E402
import zones  # noqa: E402
from frames import Refused  # noqa: E402
from items import Cell, Entries, Entry, Field, json_line, lines, seconds  # noqa: E402
from text import address, be, colons, mac  # noqa: E402
from transport import udp_length  # noqa: E402

# So many rows a sort has, so many servers, and so many times of a server are kept.
MOST_ROWS, MOST_SERVERS, MOST_TIMES = 1024, 256, 4096
UNSPECIFIED4, UNSPECIFIED6 = b"\0" * 4, b"\0" * 16


class Sort:
    """The rows of a sort: by the octets that they are ordered by, the values in front of the count; and of how many
    messages nothing is counted, where there are as many rows as there may be."""

    def __init__(self, name, key, first, most=MOST_ROWS, is_by_count=False):
        self.name = name
        self.key = key
        self.first = first
        self.most = most
        self.is_by_count = is_by_count
        self.cells = {}
        self.counts = {}
        self.not_counted = 0

    def add(self, octets, first, *cells):
        """Counts a fact, and gives whether it has a row."""
        if octets not in self.counts:
            if len(self.counts) == self.most:
                self.not_counted += 1
                return False
            self.cells[octets], self.counts[octets] = (first, cells), 0
        self.counts[octets] += 1
        return True

    def rows(self):
        return [Entry(("kind", self.name), (self.first, self.cells[octets][0]), *self.cells[octets][1],
                      Cell("count", self.counts[octets]), *self.further(octets)) for octets in self.in_order()]

    def in_order(self):
        return sorted(self.counts, key=lambda octets: (-self.counts[octets] if self.is_by_count else 0, octets))

    def further(self, octets):
        return []

    def items(self):
        return [Entries(self.key, self.rows())]

    def left_out(self):
        return [Field(self.key + "_not_counted", self.not_counted)] if self.not_counted else []


class Servers(Sort):
    """The servers, with the times of their answers."""

    def __init__(self):
        super().__init__("server", "servers", "addr", MOST_SERVERS, True)
        self.times = {}

    def answered(self, octets, nanoseconds):
        """Keeps a time of a server that has a row."""
        self.times.setdefault(octets, []).append(nanoseconds)

    def further(self, octets):
        times = self.times.get(octets, [])
        if not times:
            return []
        kept = sorted(times[:MOST_TIMES])
        more = [Cell("times_not_kept", len(times) - len(kept))] if len(times) > len(kept) else []
        return [Cell("times", len(kept)), Millis("median", ranked(kept, 50)),
                Millis("percentile_99", ranked(kept, 99))] + more


class Millis(Cell):
    """A time that a line tells in milliseconds, and JSON in nanoseconds."""

    def __init__(self, key, nanoseconds):
        super().__init__(key + "_ns", nanoseconds)

    def words(self):
        return ["%s=%s" % (self.key.removesuffix("_ns"), pairs.millis(self.value))]


def ranked(times, percent):
    """A percentile by the nearest rank: the least time that so many of a hundred are not above."""
    return times[-(-percent * len(times) // 100) - 1]


class Page:
    """What the messages of a capture say."""

    def __init__(self):
        self.pairs = pairs.Pairs()
        self.questions = Sort("question", "questions", "name", is_by_count=True)
        self.rcodes = Sort("rcode", "rcodes", "rcode", is_by_count=True)
        self.servers = Servers()
        self.clients = Sort("client", "clients", "hardware")
        self.leases = Sort("lease", "leases", "addr")
        self.members = Sort("group", "members", "addr")
        self.sources = Sort("group", "sources", "addr")
        self.neighbors = Sort("neighbor", "neighbors", "addr")
        self.routers = Sort("router", "routers", "addr")
        self.prefixes = Sort("prefix", "prefixes", "prefix")
        self.sorts = (self.questions, self.rcodes, self.servers, self.clients, self.leases, self.members,
                      self.sources, self.neighbors, self.routers, self.prefixes)

    def add(self, shown, number, packet):
        """Counts what the messages of a packet say."""
        answers = self.pairs.answers(shown, number, packet)
        for items, octets, answer in zip(shown.messages, shown.octets, answers):
            if pairs.is_there(items) and shown.kind in COUNTS:
                try:
                    COUNTS[shown.kind](self, shown, items, octets, answer)
                except Refused:
                    pass

    def text(self):
        return "statistics\n" + "".join("  %s\n" % line for line in lines(self.items()))

    def json(self):
        return json_line([Field("summary", "statistics")] + self.items()) + "\n"

    def items(self):
        return [item for sort in self.sorts for item in sort.items() + sort.left_out()]


# ---- DNS

def count_names(page, shown, _, octets, answer):
    message = pairs.message_octets(shown, octets)
    if not pairs.is_response(message):
        count_questions(page, message, shown.kind)
        return
    rcode = message[3] & 15
    page.rcodes.add(bytes([rcode]), dns.HEADERS.get(shown.kind, (0, 0, dns.RCODES))[2].get(rcode, "rcode_%d" % rcode))
    source = shown.datagram.source
    has_row = page.servers.add(source, address(source))
    if has_row and answer and answer.after is not None:
        page.servers.answered(source, answer.after)


def count_questions(page, message, kind):
    at = 12
    for _ in range(be(message[4:6])):
        of = dns.question(message, at, kind)
        at = of.end
        try:
            labels = pairs.labels(message, of)
        except Refused:
            continue
        its_name = "".join(zones.label(label) + "." for label in labels) or "."
        octets = b"".join(bytes([len(label)]) + label for label in labels) + b"\0" + of.kind.to_bytes(2, "big")
        page.questions.add(octets, its_name, Cell("type", zones.type_text(of.kind)))


# ---- DHCP

LEASE_TIME = 51


def count_lease(page, _, items, octets, __):
    operation = next((item.value for item in items if item.key == "op"), None)
    message = octets[8:udp_length(octets)]
    client, given = message[28:28 + min(be(message[2:3]), 16)], message[16:20]
    if operation == 1:
        page.clients.add(client, mac(client))
    options = dhcp.first_parts(message) if operation == 2 and given != UNSPECIFIED4 else {}
    if options.get(dhcp.MESSAGE_TYPE) == bytes([pairs.ACK]):
        time = options.get(LEASE_TIME, b"")
        told = [Cell("time", seconds(be(time)))] if len(time) == 4 else []
        order = given + client + (time if told else b"")
        page.leases.add(order, address(given), Cell("client", mac(client)), *told)


# ---- groups

REPORTS4, RECORDS4, REPORT6, RECORDS6 = (0x12, 0x16), 0x22, 131, 143
# The key of the sources of a record by its type, and what their rows are ordered by.
INCLUDED, EXCLUDED = ("source", b"\0"), ("excluded", b"\1")
FILTERS = {1: INCLUDED, 2: EXCLUDED, 3: INCLUDED, 4: EXCLUDED, 5: INCLUDED}


def count_group(page, shown, _, octets, __):
    if len(octets) < 8:
        return
    if octets[0] in REPORTS4:
        add_member(page, octets[4:8], shown.datagram.source)
    elif octets[0] == RECORDS4:
        count_records(page, shown, octets, 4)


def count_records(page, shown, octets, width):
    """The records by which the host wants a group, of those that are whole, and their sources."""
    left = octets[8:]
    for _ in range(be(octets[6:8])):
        length = neighbors.record_length(left, width)
        if len(left) < max(length, 4 + width):
            return
        count, group, host = be(left[2:4]), left[4:4 + width], shown.datagram.source
        of = FILTERS.get(left[0])
        if of == EXCLUDED or of == INCLUDED and count:
            add_member(page, group, host)
            for at in range(4 + width, 4 + width + width * count, width):
                add_source(page, group, host, of, left[at:at + width])
        left = left[length:]


def add_member(page, group, host):
    page.members.add(group + host, address(group), Cell("member", address(host)))


def add_source(page, group, host, of, source):
    key, order = of
    page.sources.add(group + host + order + source, address(group), Cell("member", address(host)),
                     Cell(key, address(source)))


# ---- neighbors, routers and listeners

SOURCE, TARGET, PREFIX = 1, 2, 3


def count_neighbor(page, shown, _, octets, __):
    kind, source = octets[0] if octets else None, shown.datagram.source
    if kind == REPORT6 and len(octets) >= 24:
        add_member(page, octets[8:24], source)
    elif kind == RECORDS6 and len(octets) >= 8:
        count_records(page, shown, octets, 16)
    if kind not in (133, 134, 135, 136) or len(octets) < neighbors.HEADERS[kind]:
        return
    options = whole_options(octets[neighbors.HEADERS[kind]:])
    if kind == 136:
        add_neighbor(page, octets[8:24], options, TARGET)
    elif source != UNSPECIFIED6:
        add_neighbor(page, source, options, SOURCE)
    if kind == 134:
        page.routers.add(source, address(source))
        for option in options:
            if option[0] == PREFIX and len(option) == 32 and option[2] <= 128:
                page.prefixes.add(option[16:32] + option[2:3] + source,
                                  "%s/%d" % (colons(option[16:32]), option[2]), Cell("router", address(source)))


def whole_options(octets):
    """The options that are there as a whole."""
    found = []
    while len(octets) >= 2 and octets[1] and 8 * octets[1] <= len(octets):
        found.append(octets[:8 * octets[1]])
        octets = octets[8 * octets[1]:]
    return found


def add_neighbor(page, its_address, options, kind):
    link = next((option[2:] for option in options if option[0] == kind and len(option) == 8), None)
    if link is not None:
        page.neighbors.add(its_address + link, address(its_address), Cell("link", mac(link)))


COUNTS = {
    "dns": count_names, "mdns": count_names, "llmnr": count_names, "dhcp": count_lease, "igmp": count_group,
    "icmp6": count_neighbor,
}


if __name__ == "__main__":
    import plain
    sys.exit(plain.main(["--stats"] + sys.argv[1:]))
