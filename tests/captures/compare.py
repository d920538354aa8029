#!/usr/bin/env python3
"""Compares what pcapdump prints of captures with what tshark has of them: `compare.py [--all] PCAPDUMP CAPTURE..`.

Beside each capture is the table that fields.py made of it. The objects of `pcapdump --json` are compared with it, and
the lines that pcapdump prints with the values of the objects, and the brief lines with those of brief.py. Of each
packet that is a difference it prints both; then the kinds of packets that both programs see but read differently, with
their numbers; and last 'N passed, M failed', of packets and of the counts of each capture. With --all the captures are
all that are kept, and have to have each kind of packet that is wanted of them."""

import collections
import datetime
import itertools
import json
import os
import re
import shutil
import subprocess
import sys

import contents
import contents_options
import contents_page
import contents_queries
import datagrams
import expected
import fields
import names
import patterns
import plain
from messages import KINDS, REASONS


def once(members):
    """An object, none of whose members is there twice."""
    found = dict(members)
    if len(found) != len(members):
        raise ValueError(f"a member is there twice in {members}")
    return found


def printed(text):
    """The objects that were printed, by their numbers: of a segment of TCP one for each message."""
    found = {}
    for line in text.splitlines():
        it = json.loads(line, object_pairs_hook=once)
        found.setdefault(str(it["number"]), []).append(it)
    for number, objects in found.items():
        if len(objects) > 1 and not all("transport" in it for it in objects):
            raise ValueError(f"packet {number} is there twice")
    return found


def time(packet):
    seconds, fraction = packet.text("frame.time_epoch").split(".")
    start = datetime.datetime.fromtimestamp(int(seconds), datetime.timezone.utc)
    return start.strftime("%Y-%m-%dT%H:%M:%S") + "." + fraction + "Z"


# ---- objects

def mistakes(wanted, found, place=""):
    """Where what was found is not what is wanted, and both."""
    if isinstance(wanted, dict) and isinstance(found, dict):
        its_keys = list(keys(found, wanted))
        wanted_keys = [key for key in wanted if key != patterns.MORE]
        is_same = its_keys[:len(wanted_keys)] == wanted_keys if patterns.MORE in wanted else its_keys == wanted_keys
        if not is_same:
            yield f"{place}: members {wanted_keys}, and not {its_keys}"
        for key in wanted_keys:
            yield from mistakes(wanted[key], found.get(key), f"{place}.{key}")
    elif isinstance(wanted, list) and isinstance(found, list) and len(wanted) == len(found):
        for at, (one, other) in enumerate(zip(wanted, found)):
            yield from mistakes(one, other, f"{place}[{at}]")
    elif not agrees(wanted, found):
        yield f"{place}: {wanted}, and not {json.dumps(found)}"


def keys(found, wanted):
    """The keys of an object, without those of the names of numbers."""
    for key in found:
        if key in wanted or not (key.endswith("_name") and isinstance(found.get(key[:-5]), int)):
            yield key


def agrees(wanted, found):
    if hasattr(wanted, "agrees"):
        return isinstance(found, str) and wanted.agrees(found)
    if isinstance(wanted, re.Pattern):
        return isinstance(found, str) and wanted.fullmatch(found) is not None
    return type(wanted) is type(found) and wanted == found


def difference(packet, found):
    """What is wrong with what was printed of a packet, or None; and its kind and reason where it is one of ours."""
    if packet.part == "kept":
        return "nothing is expected of a fragment" if found else None, None, None
    kind, of_tshark = datagrams.kind(packet), datagrams.kind_of_tshark(packet)
    if kind is None:
        # tshark looks into a fragment of a tunnel that was cut.
        is_read = of_tshark and packet.part != "cut"
        wrong = "nothing is expected" if found else f"tshark has {of_tshark}" if is_read else None
        return wrong, None, None
    reason = expected.refusal(packet, kind)
    if kind != of_tshark and reason not in ("cut", "fragment"):
        return f"tshark has {of_tshark}", kind, reason
    wanted = expected.objects(packet, kind, reason)
    if len(found) != len(wanted):
        return f'{kind} is expected, {reason or "listed"}, {len(wanted)} times', kind, reason
    for it, members in zip(map(dict, found), wanted):
        if it.pop("time", None) != time(packet) or not isinstance(it.pop("link", None), int):
            return f"time {time(packet)}, and a link", kind, reason
        it.pop("link_name", None)
        wrong = "; ".join(mistakes(members, it))
        if wrong:
            return wrong, kind, reason
    return None, kind, reason


# ---- lines

def texts(value, name=None):
    """How a line may have a value: octets are `-` where there are none, and times are in seconds."""
    if value is None:
        return ["none"]
    if isinstance(value, bool):
        return ["true" if value else "false"]
    if isinstance(value, int):
        part = ".%03d" % (value % 1000) if value % 1000 else ""
        return ["%d" % value + ("" if name is None else " (%s)" % name), "%d%ss" % (value // 1000, part)]
    if isinstance(value, list):
        return [",".join(str(it) for it in value) or "-"]
    return [value] if value else ["", "-"]


def is_hidden(key, value, entry):
    """Whether a line leaves out a number: of a type, or of a class and a C-Type where the object is told by fields."""
    return isinstance(value, int) and (key in ("type", "class") or key == "c_type" and "data" not in entry)


def entry_lines(entry):
    """How a line may have an entry: numbers of its type are left out, and each value may have its key."""
    (label, first), *rest = [item for item in entry.items() if not is_hidden(*item, entry)]
    lines = ["%s=" % first]
    for at, (key, value) in enumerate(rest):
        words = [form % text for text in texts(value) for form in (("%s",) if at == 0 else (" %s", f" {key}=%s"))]
        lines = [line + word for line in lines for word in words]
    return lines


def listing(found):
    """The lines of an object, each with the forms that it may have."""
    members = list(found.items())
    start = [key for key, _ in members].index("kind") + 1
    for key, value in members[start:]:
        if isinstance(value, list) and (key in LISTS or any(isinstance(it, dict) for it in value)):
            yield from map(entry_lines, value)
        elif not (key == "checksum" and value != "bad" or key.endswith("_name") and key[:-5] in found):
            yield [f"{key}={text}" for text in texts(value, found.get(key + "_name"))]


LISTS = ("hop_by_hop", "options", "records", "entries", "extensions", "routers", "addresses")


def heading(found):
    both = [found["src_addr"], found["dst_addr"]]
    if found["src_port"] is not None:
        form = "[%s]:%d" if ":" in both[0] else "%s:%d"
        both = [form % pair for pair in zip(both, (found["src_port"], found["dst_port"]))]
    words = [str(found["number"]), found["time"] or "-"] + ([both[0], ">", both[1]] if both[0] else [])
    words += ["vlan=%d" % vlan for vlan in found["vlans"]]
    words += ["in=%s,%s,%s" % tuple(tunnel.values()) for tunnel in found.get("tunnels", [])]
    words += ["frames=" + ",".join(map(str, found["frames"]))] if "frames" in found else []
    words += (["hbh"] if "hop_by_hop" in found else []) + ([found["transport"]] if "transport" in found else [])
    return " ".join(words + [found["kind"]])


def same(objects, text):
    """What of the lines has not the values of the objects, or None."""
    wanted = [line for found in objects for line in [[heading(found)]] + [["  " + form for form in forms]
                                                                          for forms in listing(found)]]
    lines = text.splitlines()
    for line, forms in zip(lines, wanted):
        if line not in forms:
            return f"the line {line!r} is none of {forms}"
    return None if len(lines) == len(wanted) else f"{len(lines)} lines, and not {len(wanted)}"


# ---- what is known

def known_differences(packet, kind, reason):
    """The kinds of a packet that tshark reads in another way, in words."""
    if packet.part == "kept" and packet.frames:
        yield "the last fragment of a datagram, of which another was refused: kept"
    elif kind is None:
        inner = [protocol for protocol in packet.protocols if protocol in ("dns", "mdns", "dhcp", "llmnr", "nbns")]
        if inner and not {"icmp", "icmpv6"} & set(packet.protocols):
            what = "dns over tcp, no whole messages" if "tcp" in packet.protocols else f"{inner[0]} over udp"
            yield f"{what}: of another protocol"
    elif packet.has("icmp.addr_entry_size") and packet.number("icmp.addr_entry_size") > 2:
        yield "icmp4: routers of more than two words: read, where tshark has octets"
    elif reason is not None:
        yield from known_refusals(packet, kind, reason)
    elif kind in ("dns", "mdns", "llmnr"):
        yield from known_of_names(packet)
    elif kind in ("icmp4", "icmp6"):
        protocol = "icmp" if kind == "icmp4" else "icmpv6"
        if packet.number(protocol + ".type") not in contents_queries.READERS[kind]:
            yield from known_of_errors(packet, protocol + ".length")
        elif "0" in packet.all("icmp.ext.checksum.status"):
            yield f"{kind}: an extended echo whose structure has a wrong checksum: refused, and read by tshark"
        if kind == "icmp6":
            yield from known_of_options(packet)
    elif kind == "dhcp":
        for number in sorted({*packet.numbers("dhcp.option.type")} - {0, 255, *contents.DHCP_OPTIONS}):
            yield f"dhcp: option {number}: its octets"


def known_refusals(packet, kind, reason):
    field = {"icmp4": "icmp", "icmp6": "icmpv6", "igmp": "igmp"}.get(kind, "udp") + ".type"
    if reason == "type":
        yield f"{kind} of type {packet.number(field)}: its octets"
    elif reason == "fragment":
        what = "within a datagram that came in fragments" if packet.frames else "of no multiple of 8 bytes"
        yield f"{kind}: a fragment {what}: refused, where tshark keeps it"
    elif reason == "cut" and packet.has(field) and packet.number(field) not in (0, 8, 128, 129):
        yield f"{kind} that the capture cut: its first members are compared"
    elif kind == "dhcp":
        yield "dhcp without the magic cookie (BOOTP): refused as malformed"


def known_of_errors(packet, length):
    if packet.has("icmp.ext.version") and not packet.has(length):
        yield "icmp: an error without a length: no extensions, which tshark looks for behind 128 bytes"
    elif "0" in packet.all("icmp.ext.checksum.status"):
        yield "icmp: extensions with a wrong checksum: refused, and read by tshark"
    if packet.all("icmp.int_info.name_present").count("1") > len(packet.all("icmp.int_info.name")):
        yield "icmp: a name of up to three bytes in an extension: not told by tshark"
    if packet.protocols.count("ipv6") == 2 and packet.has("ipv6.fraghdr.nxt") and packet.number("icmpv6.type") < 128:
        yield "icmp6: a fragment that is quoted: the ports of the first one, where tshark has octets"
    if packet.protocols.count("ah"):
        yield "icmp6: an authentication header that is quoted: no ports behind it, which tshark tells"


def known_of_options(packet):
    if packet.number("icmpv6.type") in range(133, 138):
        for told in contents_options.neighbor_options(packet)["options"]:
            its = f'icmp6: option {told["type"]} of neighbor discovery'
            if told["type"] not in (1, 2, 4, 5, *contents_options.OPTIONS):
                yield its + ": its octets"
            elif "refused" in told and not packet.has("_ws.malformed"):
                yield its + ": refused, and read by tshark"


def known_of_names(packet):
    for number in set(names.TYPES) - {*names.TOLD, 255}:
        for _ in range(packet.numbers("dns.resp.type").count(number)):
            yield f"dns: data of type {names.TYPES[number]}: in hexadecimal"
    if any(re.search(r"[^-\w.<>]", name) for name in packet.all("dns.qry.name") + packet.all("dns.resp.name")):
        yield "dns: characters of a label: behind a backslash, where tshark shows them alone"


# What all captures together have to have, so that one that went wrong is seen: of each field these numbers.
WANTED = {
    "icmp.type": {0, 3, 5, 8, 9, 10, 11, 12, 13, 14, 17, 18, 42, 43}, "igmp.type": {0x11, 0x12, 0x16, 0x17, 0x22},
    "icmpv6.type": {1, 2, 3, 4, 128, 129, 130, 131, 132, 133, 134, 135, 136, 137, 139, 140, 143, 160, 161},
    "igmp.version": {1, 2, 3}, "igmp.record_type": set(range(1, 7)), "icmpv6.mldr.mar.record_type": set(range(1, 7)),
    "icmpv6.opt.type": {1, 2, 3, 4, 5, 7, 8, 14, 24, 25, 31, 37, 38}, "icmpv6.opt.pref64.plc": set(range(8)),
    "icmp.ext.class": {1, 2, 3, 247}, "icmp.int_info.role": {0, 1, 2, 3}, "icmp.ext.checksum.status": {0, 1},
    "icmp.int_ident.afi": {1, 2}, "icmpv6.ni.qtype": {0, 2, 3, 4}, "icmp.addr_entry_size": {2, 3},
    "dhcp.option.dhcp": {1, 2, 3, 5, 7}, "dns.qry.type": {1, 2, 5, 6, 12, 13, 15, 16, 28, 33, 35, 255, 257},
    "dns.resp.type": {1, 2, 5, 6, 12, 13, 15, 16, 28, 33, 35, 41, 44, 47, 52, 65, 257, 65280},
    "nbns.type": {10, 32, 33}, "udp.checksum.status": {0, 1, 3}, "vlan.id": {1, 7}, "ieee8021ad.id": {4094},
    "ipv6.routing.type": {4}, "ip.checksum.status": {0, 1}, "tcp.checksum.status": {1},
    "gre.proto": {0x0800, 0x86dd}, "ip.proto": {1, 2, 4, 6, 17, 41, 47}, "ipv6.nxt": {0, 4, 6, 17, 41, 43, 44, 47, 58},
}


def lacking(seen):
    """The checks of what was seen of the captures, by their words."""
    for name, numbers in WANTED.items():
        missing = sorted(numbers - seen[name])
        yield f"the captures have no {name} {missing}", not missing


def run(program, *arguments):
    return subprocess.run([program, *arguments], capture_output=True, text=True, errors="replace")


def counts_of(text):
    """The table of `--count`, by the kind."""
    return {line.split("\t")[0]: line.split("\t")[1:] for line in text.splitlines()[1:]}


def objects_of(program, capture):
    """What the program prints in JSON, by the numbers of the packets; its status; and what of that does not read."""
    ran = run(program, "--json", capture)
    try:
        return printed(ran.stdout), ran.returncode, None
    except (ValueError, KeyError, TypeError) as error:
        return {}, ran.returncode, f"{error}"


def read_by_jq(program, capture):
    """What jq reads otherwise of the objects, or None."""
    ran = run(program, "--json", capture)
    asked = subprocess.run(["jq", "--compact-output", "."], input=ran.stdout, capture_output=True, text=True)
    return None if (asked.returncode, asked.stdout) == (0, ran.stdout) else asked.stderr or "it prints something else"


def other_brief_line(program, capture):
    """The first of the brief lines that is not the one of brief.py, and that one; or None."""
    with open(capture, "rb") as file:
        wanted = plain.dump(file.read(), plain.Options(is_brief=True)).text.splitlines()
    lines = run(program, "--brief", capture).stdout.splitlines()
    return next((both for both in itertools.zip_longest(lines, wanted) if both[0] != both[1]), None)


def other_rows(program, capture, members, sources):
    """What the page of `--stats` has of members of groups and of their sources that is not this, or None."""
    found = json.loads(run(program, "--stats", "--json", capture).stdout)
    wrong = [*mistakes(members, found["members"], "members"), *mistakes(sources, found["sources"], "sources")]
    return "; ".join(wrong) or None


def told(text):
    """The numbers of the line that sums up: of what is listed and refused, of other protocols, and of fragments."""
    def number(pattern):
        found = re.search(pattern, text)
        return int(found[1]) if found else 0
    return {"packets": number(r": (\d+) packets, "), "listed": number(r" (\d+) listed, "),
            "refused": number(r" (\d+) refused"), "others": number(r" (\d+) of other protocols"),
            "fragments": number(r" (\d+) fragments"), "joined": number(r" (\d+) of them put together")}


class Totals:
    """What is expected of a capture: the table by kinds, and the line that sums up."""

    def __init__(self):
        self.kinds = {kind: collections.Counter() for kind in KINDS}
        self.line = collections.Counter({"packets": 0, "listed": 0, "refused": 0, "others": 0, "fragments": 0,
                                         "joined": 0})

    def add(self, packet, kind, reason):
        self.line["packets"] += 1
        if packet.part == "kept":
            self.line["fragments"] += 1
        elif kind is None:
            self.line["others"] += 1
        else:
            self.line["refused" if reason else "listed"] += 1
            self.kinds[kind][reason or "listed"] += 1
            self.kinds[kind]["octets"] += packet.number("frame.cap_len")
        if packet.part != "kept" and packet.frames:
            self.line["joined"] += len(packet.frames) - 1

    def table(self):
        columns = ("listed",) + REASONS + ("octets",)
        return {kind: [str(counts[column]) for column in columns] for kind, counts in self.kinds.items()}


def without_refused(packet, refused):
    """Keeps a fragment whose datagram is not whole, since others of it were refused; `refused` are their numbers."""
    if packet.part == "refused":
        refused.add(packet.number("frame.number"))
    elif packet.part == "joined" and refused.intersection(packet.frames):
        packet.part = "kept"


def compare(program, capture, known, seen):
    """Compares a capture; gives the numbers of what agrees and of what differs."""
    with open(capture + ".fields", encoding="utf-8") as table:
        packets = [datagrams.Packet(values) for values in fields.packets(table.read())]
    found, status, unread = objects_of(program, capture)
    objects, left, agree, differ = [it for of in found.values() for it in of], dict(found), 0, 0
    totals, members, refused = Totals(), contents_page.Members(), set()
    for whole in packets:
        number = whole.text("frame.number")
        for name in WANTED:
            seen[name].update(whole.numbers(name))
        packet = datagrams.innermost(whole)
        without_refused(packet, refused)
        wrong, kind, reason = difference(packet, left.pop(number, []))
        totals.add(packet, kind, reason)
        if kind in ("igmp", "icmp6") and reason != "fragment":
            members.add(packet, kind)
        known.update(known_differences(packet, kind, reason))
        agree, differ = agree + (wrong is None), differ + (wrong is not None)
        if wrong is not None:
            print(f"{capture}: packet {number}: {wrong}, but:\n    {json.dumps(found.get(number))}")
    ran = run(program, capture)
    lines, line = same(objects, ran.stdout), told(ran.stderr)
    table, printed_table = totals.table(), counts_of(run(program, "--count", capture).stdout)
    by_jq = read_by_jq(program, capture) if shutil.which("jq") else None
    brief, page = other_brief_line(program, capture), other_rows(program, capture, *members.rows())
    for text, holds in ((f"packets {list(left)} are printed, and not in the capture", not left),
                        (f"the status is {status}", status == 0), (f"no JSON: {unread}", unread is None),
                        (f"jq reads something else: {by_jq}", by_jq is None),
                        (f"{lines}", lines is None), (f"a brief line, and brief.py: {brief}", brief is None),
                        (f"the page has not the members of groups and their sources: {page}", page is None),
                        (f"the counts are not {table}, but {printed_table}", printed_table == table),
                        (f"the line that sums up has not {dict(totals.line)}, but {line}", line == totals.line)):
        agree, differ = agree + holds, differ + (not holds)
        if not holds:
            print(f"{capture}: {text}")
    print(f'{capture}: {len(packets)} packets, {totals.line["listed"] + totals.line["refused"]} of control protocols, '
          f"{differ} differences")
    return agree, differ


def main(words):
    is_all = words[:1] == ["--all"]
    program, *captures = words[is_all:] or [""]
    if not captures or program.startswith("-"):
        print("usage: compare.py [--all] PCAPDUMP CAPTURE..", file=sys.stderr)
        return 2
    if not shutil.which(program):
        print(f"compare.py: there is no program {program}", file=sys.stderr)
        return 1
    for it in captures:
        if not (os.path.isfile(it) and os.path.isfile(it + ".fields")):
            print(f"compare.py: there is no {it}, or no table {it}.fields", file=sys.stderr)
            return 1
    known, seen, passed, failed = collections.Counter(), collections.defaultdict(set), 0, 0
    for capture in captures:
        agree, differ = compare(program, capture, known, seen)
        passed, failed = passed + agree, failed + differ
    for text, holds in lacking(seen) if is_all else ():
        passed, failed = passed + holds, failed + (not holds)
        if not holds:
            print(text)
    print("What both programs see and read differently:")
    for text, count in sorted(known.items()):
        print(f"{count:6} {text}")
    if not shutil.which("jq"):
        print("There is no jq: that it reads each line of --json was not checked.")
    print(f"{passed} passed, {failed} failed")
    return 1 if failed else 0


if __name__ == "__main__":
    sys.exit(main(sys.argv[1:]))
