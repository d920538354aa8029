#!/usr/bin/env python3
"""Prints the control packets of capture files as pcapdump does, written from its manual and from the RFCs:

    plain.py [--only KIND,..] [--port KIND=PORT] [--count | --stats] [--json] [--brief] [--pairs] [--strict] [FILE..]

As a module: `dump(octets)` gives the text, the status and the counts of a capture."""
import json
import os
import re
import sys

sys.dont_write_bytecode = True
sys.path.insert(0, os.path.dirname(os.path.abspath(__file__)))

import brief  # noqa: E402
import frames  # noqa: E402
import items  # noqa: E402
import messages  # noqa: E402
import page  # noqa: E402
import pairs  # noqa: E402
import reading  # noqa: E402
import tunnels  # noqa: E402
from counts import Counts  # noqa: E402
from fragments import Fragments  # noqa: E402
from frames import Refused  # noqa: E402
from ip import TCP, UDP  # noqa: E402
from items import Cell, Entry, Field, Named  # noqa: E402
from messages import KINDS, kind_of  # noqa: E402
from neighbors import hop_by_hop  # noqa: E402
from registries import LINKS  # noqa: E402
from text import address, endpoint, time  # noqa: E402
from transport import dns_messages, ports  # noqa: E402

# What --only takes besides kinds: a word for both of ICMP, and one for packets of any kind.
FAMILIES = {"icmp": ("icmp4", "icmp6"), "hbh": ("hbh",)}
# Options of tcpdump that change nothing.
HABITS = ("-n", "-r")

# The status of each ending of a capture, and what is told of it.
ENDINGS = {
    "whole": (0, None), "cut": (1, "it ends within a record"), "too large": (1, "a record is too large"),
    "too many": (1, "it describes too many interfaces"), "malformed": (1, "a record contradicts itself"),
    "version": (2, "its version is not read"), "no capture": (2, "it is no capture"),
}


class Options:
    """What is printed of captures: the kinds that are let through, or None for all; objects of JSON or brief lines;
    messages whose checksum is wrong; the ports that are given to kinds; what answers what in brief lines, and a page of
    statistics in the place of packets."""

    def __init__(self, only=None, is_json=False, is_strict=False, given=None, is_brief=False, is_paired=False,
                 is_page=False):
        self.only = only
        self.is_json = is_json
        self.is_strict = is_strict
        self.given = given or {}
        self.is_brief = is_brief
        self.is_paired = is_paired
        self.is_page = is_page

    def passes(self, shown):
        return self.only is None or shown.kind in self.only or shown.has_options and "hbh" in self.only


class Shown:
    """What a packet prints: its kind, where it is one of those that are printed; the reason under which it is counted,
    or None where all of it is in order; what it leads to as far as that is known, its VLANs, and its items, once for
    each of its messages, whose octets are in `octets`, with the header of UDP. One that is of no kind has a name of its
    protocol in `other`, or as a fragment that is kept in `fragment`, or in `link` the name of its link, where that is
    not read."""

    def __init__(self):
        self.kind = None
        self.reason = None
        self.datagram = None
        self.ports = (None, None)
        self.vlans = []
        self.tunnels = []
        self.numbers = None
        self.is_tcp = False
        self.messages = [[]]
        self.octets = [b""]
        self.has_options = False
        self.other = None
        self.fragment = None
        self.link = None

    def text(self, number, packet):
        """A line of what the headers tell, and below it a line of each item."""
        words = [str(number), "-" if packet.nanoseconds is None else time(packet.nanoseconds)]
        of = self.datagram
        if of is not None:
            words += [endpoint(of.source, self.ports[0]), ">", endpoint(of.destination, self.ports[1])]
        heading = " ".join(words + self.marks() + [self.kind]) + "\n"
        return "".join(heading + "".join("  %s\n" % line for line in items.lines(of)) for of in self.messages)

    def marks(self):
        """The words of a heading between the addresses and the kind."""
        words = ["vlan=%d" % vlan for vlan in self.vlans]
        words += ["in=%s,%s,%s" % (tunnel.name, address(tunnel.source), address(tunnel.destination))
                  for tunnel in self.tunnels]
        words += ["frames=" + ",".join(map(str, self.numbers))] if self.numbers else []
        return words + (["hbh"] if self.has_options else []) + (["tcp"] if self.is_tcp else [])

    def brief(self, number, packet):
        """A line of each message."""
        return brief.text(self, number, packet)

    def json(self, number, packet):
        """The same as an object of JSON."""
        of = self.datagram
        tunnels = [Entry(("tunnel", tunnel.name), ("src_addr", address(tunnel.source)),
                         Cell("dst_addr", address(tunnel.destination))) for tunnel in self.tunnels]
        front = [
            Field("number", number), Field("time", None if packet.nanoseconds is None else time(packet.nanoseconds)),
            Named("link", packet.link_type, LINKS.get(packet.link_type)), Field("length", len(packet.octets)),
            Field("original_length", packet.original_len), Field("vlans", self.vlans),
        ] + ([Field("tunnels", tunnels)] if tunnels else []) + [
            Field("src_addr", of and address(of.source)), Field("dst_addr", of and address(of.destination)),
            Field("src_port", self.ports[0]), Field("dst_port", self.ports[1]),
        ] + ([Field("frames", self.numbers)] if self.numbers else []) + (
            [Field("transport", "tcp")] if self.is_tcp else []) + [Field("kind", self.kind)]
        return "".join(items.json_line(front + of) + "\n" for of in self.messages)


def show(packet, number, fragments, is_strict, given):
    """What a packet prints of this number. `fragments` are those of the packets before."""
    shown = Shown()
    if packet.link_type not in frames.LINKS:
        shown.link = LINKS.get(packet.link_type, str(packet.link_type))
        return shown
    is_cut = len(packet.octets) < packet.original_len
    try:
        frame = frames.LINKS[packet.link_type](packet.octets)
    except Refused as refused:
        # Where the header of the link does not read, no kind is known.
        shown.kind, shown.messages = "frame", [refused.fields()]
        shown.reason = refused.reason if refused.reason != "ended" else "cut" if is_cut else "short"
        return shown
    shown.vlans = frame.vlans
    is_typed = packet.link_type in frames.TYPED
    shown.other = frames.network_name(frame.number) if is_typed else "network %d" % frame.number
    if frame.version is not None:
        found = tunnels.follow(frame.version, frame.payload, number, is_cut, fragments)
        show_datagram(shown, found, is_strict, given)
    return shown


def show_datagram(shown, found, is_strict, given):
    of, segments = found.of, []
    if found.kept:
        shown.fragment, shown.other = found.protocol_name(), None
        return
    if of is not None and of.protocol == TCP and found.refused is None:
        segments = dns_messages(of.payload, given.get("dns"))
    head(shown, found, segments, given)
    if shown.kind is None:
        return
    if of is not None:
        shown.octets = segments or [of.payload]
    if is_strict and found.is_bad:
        why = Refused("cut" if found.refused and found.refused.reason == "cut" else "checksum", BAD_HEADER)
        shown.messages, shown.reason = [why.fields()] * max(1, len(segments)), why.reason
        return
    front = [Field("ip_checksum", "bad")] if found.is_bad else []
    if of is not None and of.hop_by_hop is not None:
        shown.has_options = True
        front += hop_by_hop(of.hop_by_hop)
    shown.messages = [front + message for message in show_messages(shown, found, segments, is_strict)]
    if found.is_bad and shown.reason != "cut":
        shown.reason = "checksum"


BAD_HEADER = "the checksum of the IPv4 header does not hold"


def head(shown, found, segments, given):
    """Puts the kind and the addresses, as far as they are known."""
    of = found.of
    shown.datagram, shown.tunnels, shown.numbers, shown.kind = of, found.tunnels, found.numbers, "frame"
    if of is None:
        return
    shown.kind = "dns" if segments else kind_of(found.version, of.protocol, of.payload, given)
    shown.is_tcp = bool(segments)
    if of.protocol == UDP or segments:
        shown.ports = ports(of.payload) or (None, None)
    if shown.kind is None:
        shown.other = found.other or found.protocol_name()


def show_messages(shown, found, segments, is_strict):
    """The items of each message, of which there is one but over TCP."""
    of, refused = found.of, found.refused
    # Of one that is cut the message is told as far as it is there.
    if shown.kind == "frame" or refused and not of.missing:
        refused = refused or Refused("short", "fewer than 8 bytes")
        shown.reason = refused.reason
        return [refused.fields()]
    if segments:
        found, shown.reason = messages.read_segment(of, segments, is_strict)
        return found
    found, shown.reason = messages.read(shown.kind, of, refused and refused.reason, is_strict)
    return [found]


class Dumped:
    """What a capture prints, its status, what was counted of its packets, and how it ended."""

    def __init__(self, text, ending, counts):
        self.text = text
        kind, colon, check = ending.partition(": ")
        self.status, said = ENDINGS[kind]
        self.ending = said and said + colon + check
        self.counts = counts

    def said(self, name, count=False):
        """The lines on standard error, of which the first is left out where packets are counted alone."""
        lines = [] if count else [self.counts.summary()]
        if self.ending:
            behind = ", after packet %d" % self.counts.packets if self.counts.packets else ""
            lines.append(self.ending + behind)
        return "".join("pcapdump: %s: %s\n" % (name, line) for line in lines)


def among_others(name, text, options):
    """What a capture prints that is one of several files: in JSON its name is in each object, and else above all."""
    if not options.is_json:
        return name + ":\n" + text
    told = ',"file":' + json.dumps(name, ensure_ascii=False)
    return re.sub(r'^\{("number":\d+|"summary":"\w+")', lambda front: front[0] + told, text, flags=re.MULTILINE)


class Texts:
    """What is printed of the packets of a capture."""

    def __init__(self, options):
        self.options = options
        self.texts = []
        self.page = page.Page() if options.is_page else None
        self.pairs = pairs.Pairs() if options.is_paired else None

    def add(self, shown, number, packet):
        if self.page:
            self.page.add(shown, number, packet)
        elif self.pairs:
            self.texts.append(brief.text(shown, number, packet, self.pairs.answers(shown, number, packet)))
        else:
            form = shown.json if self.options.is_json else shown.brief if self.options.is_brief else shown.text
            self.texts.append(form(number, packet))

    def text(self):
        if self.page:
            return self.page.json() if self.options.is_json else self.page.text()
        return "".join(self.texts) + (self.pairs.unanswered() if self.pairs else "")


class Read:
    """The packets of a capture, each with its number and what it prints, and how the capture ended."""

    def __init__(self, octets, is_strict=False, given=None):
        capture, fragments = reading.Capture(octets), Fragments()
        self.packets = [(number, packet, show(packet, number, fragments, is_strict, given or {}))
                        for number, packet in enumerate(capture, 1)]
        self.ending = capture.ending


def dump(octets, options=Options(), total=None):
    """What the octets of a capture print. `total` counts the packets of several captures."""
    return dumped(Read(octets, options.is_strict, options.given), options, total)


def dumped(read, options=Options(), total=None):
    """What a capture prints that was read."""
    counts, texts = Counts(), Texts(options)
    for number, packet, shown in read.packets:
        counts.add(shown, packet.octets, options)
        if total is not None:
            total.add(shown, packet.octets, options)
        if shown.kind is not None and options.passes(shown):
            texts.add(shown, number, packet)
    return Dumped(texts.text(), read.ending, counts)


def arguments(words):
    """The options, whether to count, and the files of a command line."""
    options, count, files = Options(), False, []
    while words:
        word = words.pop(0)
        if word == "--only" and words:
            options.only = chosen(words.pop(0))
        elif word.startswith("--only="):
            options.only = chosen(word[7:])
        elif word == "--port" and words:
            kind, _, port = words.pop(0).partition("=")
            options.given[kind] = int(port)
        elif word == "--count":
            count = True
        elif word in ("--json", "--brief", "-1"):
            # The last one counts.
            options.is_json = word == "--json"
            options.is_brief = not options.is_json
        elif word == "--strict":
            options.is_strict = True
        elif word == "--pairs":
            options.is_paired = True
        elif word == "--stats":
            options.is_page = True
        elif word.startswith("-") and word not in HABITS + ("-",):
            return None
        elif word not in HABITS:
            files.append(word)
    if options.only is not None and not all(kind in KINDS + ("hbh",) for kind in options.only):
        return None
    return options, count, files or ["-"]


def chosen(words):
    """The kinds of a list."""
    return [kind for word in words.split(",") for kind in FAMILIES.get(word, (word,))]


def file_octets(name):
    if name == "-":
        return sys.stdin.buffer.read()
    with open(name, "rb") as file:
        return file.read()


def main(words):
    asked = arguments(words)
    if asked is None:
        print("usage: plain.py [--only KIND,..] [--port KIND=PORT] [--count | --stats] [--json] [--brief] [--pairs]\n"
              "                [--strict] [FILE..]", file=sys.stderr)
        return 2
    options, count, files = asked
    status, total = 0, Counts()
    for name in files:
        try:
            octets = file_octets(name)
        except OSError as error:
            print("pcapdump: %s: %s" % (name, error.strerror), file=sys.stderr)
            status = max(status, 2)
            continue
        printed = dump(octets, options, total)
        status = max(status, printed.status)
        if not count:
            sys.stdout.write(among_others(name, printed.text, options) if len(files) > 1 else printed.text)
        sys.stdout.flush()
        sys.stderr.write(printed.said(name, count))
    if count:
        sys.stdout.write(total.table(options.only))
        sys.stdout.flush()
        name = "%s: " % files[0] if len(files) == 1 else ""
        print("pcapdump: %s%s" % (name, total.summary()), file=sys.stderr)
    return status


if __name__ == "__main__":
    try:
        sys.exit(main(sys.argv[1:]))
    except BrokenPipeError:
        os.dup2(os.open(os.devnull, os.O_WRONLY), 1)
        sys.exit(0)
