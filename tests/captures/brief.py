#!/usr/bin/env python3
"""The brief lines of packets, written from the section "Brief lines" of the manual of pcapdump: a line has the number
of the packet, the time of day, its addresses, the words of its heading, its kind, and what its message says. As a
program:

    brief.py [--only KIND,..] [--strict] [FILE..]

What a message says comes as texts one after another. Where the next one is missing or does not read, or something is
that is told by no text, `Refused` is raised, and the line ends in ` ...` behind those before it."""
import sys

sys.dont_write_bytecode = True

import dns  # noqa: E402
import icmp  # noqa: E402
import neighbors  # noqa: E402
import netbios  # noqa: E402
import zones  # noqa: E402
from dhcp import MESSAGE_TYPE  # noqa: E402
from frames import Refused  # noqa: E402
from items import Field, line_value  # noqa: E402
from registries import DHCP_MESSAGES  # noqa: E402
from text import address, be  # noqa: E402
from transport import udp_length  # noqa: E402

# Data of TXT of more octets are told as their number, and so are data of more that are not told apart.
MOST_OF_STRINGS, MOST_OF_DATA = 64, 32
# So many records of a report are told.
MOST_RECORDS = 3
DAY = 86400 * 1000


def text(shown, number, packet, answers=None):
    """A line of each message of a packet, with what it answers, where that is told."""
    front = " ".join(heading(shown, number, packet))
    behind = [answer.words() if answer else "" for answer in answers or [None] * len(shown.messages)]
    return "".join("%s%s%s\n" % (front, message(shown, items, octets), words)
                   for items, octets, words in zip(shown.messages, shown.octets, behind))


def heading(shown, number, packet):
    """The words in front of what is told of a message."""
    of = shown.datagram
    both = [] if of is None else [address(of.source), ">", address(of.destination)]
    return [str(number), "-" if packet.nanoseconds is None else clock(packet.nanoseconds)] + both + shown.marks()


def clock(nanoseconds):
    """The time of day in UTC, cut to milliseconds."""
    millis = nanoseconds // 10 ** 6 % DAY
    return "%02d:%02d:%02d.%03d" % (millis // 3600000, millis // 60000 % 60, millis // 1000 % 60, millis % 1000)


def message(shown, items, octets):
    """The kind of a message and what it says, behind the marks of wrong checksums."""
    by_key = {item.key: item for item in items}
    checksum = by_key.get("checksum")
    marks = (" ip_checksum=bad" if "ip_checksum" in by_key else "") + (
        " checksum=bad" if checksum and checksum.is_bad() else "")
    if checksum is None:
        # No message is there that could be read.
        said, is_whole = " refused=" + by_key["refused"].value, True
    else:
        said, is_whole = as_far_as_read(SAYS[shown.kind](shown, by_key, octets))
    return "%s %s%s%s" % (marks, shown.kind, said, "" if is_whole and "cut" not in by_key else " ...")


def as_far_as_read(texts):
    """The texts up to one that is missing or does not read, and whether all of them are there."""
    found = []
    try:
        for its_text in texts:
            found.append(its_text)
    except Refused:
        return "".join(found), False
    return "".join(found), True


def wanted(is_there):
    """Ends the texts where the next one is not there."""
    if not is_there:
        raise Refused("short", None)


def further(count):
    """How many more there are, or nothing."""
    return ", +%d" % count if count > 0 else ""


def called(item, prefix):
    """The name of a number, or where it has none the number behind a prefix."""
    return item.name if item.name is not None else "%s%d" % (prefix, item.value)


def number_of(entry):
    """The number of an option or a record, which is its last value."""
    return entry.cells[-1].value


def refused(entry):
    """Why an entry does not read, or None."""
    return next((cell.value for cell in entry.cells if cell.key == "refused"), None)


# ---- DNS and its kin

def says_of_names(shown, _, octets):
    if not shown.is_tcp:
        octets = octets[8:udp_length(octets)]
    wanted(len(octets) >= 12)
    header = {item.key: item for item in dns.header(octets, shown.kind)}
    is_response = "qr" in header["flags"].value
    yield " %d" % header["transaction_id"].value + ("" if is_response else "?")
    if header["opcode"].value:
        yield " " + called(header["opcode"], "opcode_")
    if is_response:
        yield " " + called(header["rcode"], "rcode_")
    if "tc" in header["flags"].value:
        yield " tc"
    questions, answers = be(octets[4:6]), be(octets[6:8])
    yield from answered(octets, shown.kind, questions, answers) if is_response else asked(octets, shown.kind, questions)


def asked(octets, kind, questions):
    """What a query asks first, and how many more questions there are."""
    if questions:
        yield from owner(octets, dns.question(octets, 12, kind))
        yield further(questions - 1)


def answered(octets, kind, questions, answers):
    """What a response was asked first, its first answer, and how many more answers there are."""
    question = dns.question(octets, 12, kind) if questions else None
    if question:
        yield from owner(octets, question)
    if answers:
        yield answer_text(octets, question, first_answer(octets, kind, questions)) + further(answers - 1)


def answer_text(octets, question, answer):
    """An answer, which is told as a whole or not at all: its name has to read behind a question too."""
    type_and_name = "".join(owner(octets, answer))
    if question is None:
        front = type_and_name + " ="
    else:
        front = " =" + ("" if answer.kind == question.kind else type_text(answer))
    return "%s %s" % (front, data(octets, answer))


def owner(octets, of):
    """The type of a question or record, and its name."""
    yield type_text(of)
    yield " " + of.name(octets, dns.ASKED_NAME)


def type_text(of):
    return " " + of.type_cell(None).value


def first_answer(octets, kind, questions):
    """The record behind so many questions."""
    at = 12
    for _ in range(questions):
        at = dns.question(octets, at, kind).end
    return dns.record(octets, at, kind)


def data(octets, of):
    """The data of an answer."""
    own = octets[of.start:of.end]
    if of.is_netbios:
        return netbios_data(octets, of, own)
    # OPT is no answer (RFC 6891 section 6.1.1), and not told apart.
    its_text = zones.generic_text(own) if of.kind == zones.OPT else zones.record_data(octets, of, of.class_number())
    if own and of.kind == zones.TXT:
        return length_or(MOST_OF_STRINGS, own, its_text)
    return length_or(MOST_OF_DATA, own, its_text) if its_text == zones.generic_text(own) else its_text


def netbios_data(octets, of, own):
    """The first address or the first name of a node, with its flags, or a dash where there is none."""
    found = netbios.data(of.kind, be(octets[2:4]) >> 11 & 15, own, zones.label)
    if found is None:
        return length_or(MOST_OF_DATA, own, zones.generic_text(own))
    cells, why = found
    wanted(cells[0].value or why is None)
    return line_value(cells[0].value[:1])


def length_or(most, own, its_text):
    """The text of data, or where they have more octets how many these are."""
    return "%d bytes" % len(own) if len(own) > most else its_text


# ---- DHCP

REQUESTED, LEASE, SERVER = 50, 51, 54
TOLD = (REQUESTED, LEASE, MESSAGE_TYPE, SERVER)
UNSPECIFIED = "0.0.0.0"


class Options:
    """The values of the options that are told by their codes, and whether all that is told of options reads."""

    def __init__(self, by_key):
        entries = by_key["options"].entries if "options" in by_key else []
        values = {number_of(entry): entry.cells[0].value for entry in entries if number_of(entry) in TOLD}
        # An option of another length than its format has octets; one without octets is as none.
        self.values = {code: value for code, value in values.items() if not isinstance(value, bytes)}
        self.is_whole = "refused" not in by_key and not any(
            value for code, value in values.items() if code not in self.values)

    def value(self, code):
        """The value of an option, or None."""
        return self.values.get(code)


def says_of_lease(_, by_key, __):
    wanted("op" in by_key)
    options, client, given = Options(by_key), by_key["client_hardware_address"].value, by_key["your_ip"].value
    yield " %s %d" % (lease_type(by_key, options), by_key["transaction_id"].value)
    yield " " + client if client else ""
    yield " = " + given if given != UNSPECIFIED else wished(by_key, options)
    server = options.value(SERVER)
    yield " from " + server if server else ""
    lease = options.value(LEASE)
    yield " lease=" + lease.text() if lease else ""
    wanted(options.is_whole)


def lease_type(by_key, options):
    """The type of a message, or without one the operation."""
    number = options.value(MESSAGE_TYPE)
    return called(by_key["op"], "op_") if number is None else DHCP_MESSAGES.get(number, "message_%d" % number)


def wished(by_key, options):
    """The address that the client asks for, or else the one that it has."""
    requested, own = options.value(REQUESTED), by_key["client_ip"].value
    return " ? " + requested if requested else " ? " + own if own != UNSPECIFIED else ""


# ---- ICMP

def says_of_icmp4(_, by_key, octets):
    yield type_of(by_key)
    yield code_of(by_key)
    yield from behind_code(octets, icmp.ECHOES4, icmp.ERRORS4, icmp.told4, icmp.divided4, icmp.header4)


def says_of_icmp6(_, by_key, octets):
    yield type_of(by_key)
    if octets[0] in LISTENERS:
        yield from LISTENERS[octets[0]](by_key, octets)
        return
    yield code_of(by_key)
    if octets[0] in NEIGHBORS:
        yield from NEIGHBORS[octets[0]](by_key, octets)
    else:
        yield from behind_code(octets, icmp.ECHOES6, icmp.ERRORS6, told6, icmp.divided6, icmp.quote6)


def type_of(by_key):
    """The type of a message of ICMP or IGMP."""
    wanted("type" in by_key)
    return " " + called(by_key["type"], "type_")


def code_of(by_key):
    """The code behind a type, which is left out where it is 0 without a name."""
    code, name = by_key["code"].value, getattr(by_key["code"], "name", None)
    return " " + name if name else " code=%d" % code if code else ""


def behind_code(octets, echoes, errors, told, divided, header):
    """What the header of a message says, and of an error the header that it quotes, without the extensions behind."""
    wanted(len(octets) >= 8)
    if octets[0] in echoes:
        yield " %d %d len=%d" % (be(octets[4:6]), be(octets[6:8]), len(octets) - 8)
    elif octets[0] in errors:
        for item in told(octets):
            # An MTU of 0 is none.
            if item.value or item.key == "pointer":
                yield " %s=%s" % (item.key.removeprefix("next_hop_"), item.value)
        yield quoted({item.key: item for item in header(divided(octets)[0])})


def told6(octets):
    """What an error of ICMPv6 tells beside its quote (RFC 4443 sections 3.2 and 3.4)."""
    key = {2: "mtu", 4: "pointer"}.get(octets[0])
    return [Field(key, be(octets[4:8]))] if key else []


def quoted(by_key):
    """The ends and the protocol of a quoted datagram: in IPv6 that behind the headers that extend it."""
    return " quoted=%s>%s %s" % (quoted_end(by_key, "src"), quoted_end(by_key, "dst"), called(
        by_key.get("quoted_protocol", by_key["quoted_next_header"]), "protocol_"))


def quoted_end(by_key, side):
    """An end of a quoted datagram, with its port where that is quoted."""
    its_address, port = by_key["quoted_%s_addr" % side].value, by_key["quoted_%s_port" % side].value
    if port is None:
        return its_address
    return ("[%s]:%d" if ":" in its_address else "%s:%d") % (its_address, port)


# ---- neighbor discovery

TARGET_LINK_ADDRESS, PREFIX = 2, 3


def options(by_key, number):
    """The first values of the options of a type, but for those that are refused."""
    return [entry.cells[0].value for entry in by_key["options"].entries
            if number_of(entry) == number and refused(entry) is None]


def says_of_router_solicitation(by_key, _):
    yield ""
    wanted_options(by_key)


def says_of_router(by_key, _):
    wanted("router_lifetime" in by_key)
    yield " " + by_key["router_lifetime"].value.text()
    prefixes = options(by_key, PREFIX)
    if prefixes:
        yield " " + prefixes[0] + further(len(prefixes) - 1)
    wanted_options(by_key)


def says_of_solicitation(by_key, _):
    wanted("target_addr" in by_key)
    yield " " + by_key["target_addr"].value
    wanted_options(by_key)


def says_of_advertisement(by_key, _):
    wanted("target_addr" in by_key)
    yield " " + by_key["target_addr"].value
    for link_address in options(by_key, TARGET_LINK_ADDRESS)[:1]:
        yield " = " + link_address
    wanted_options(by_key)


def says_of_redirect(by_key, _):
    wanted("target_addr" in by_key)
    yield " %s via %s" % (by_key["dest_addr"].value, by_key["target_addr"].value)
    wanted_options(by_key)


def wanted_options(by_key):
    """Ends the texts where an option is refused, also one that is not told."""
    wanted("options" in by_key and all(refused(entry) is None for entry in by_key["options"].entries))


# ---- groups and listeners

def says_of_igmp(_, by_key, octets):
    yield type_of(by_key)
    if octets[0] == 0x11:
        yield from says_of_query(by_key, octets)
    elif octets[0] == 0x22:
        yield from says_of_records(by_key, octets)
    elif octets[0] in neighbors.GROUPS:
        yield from says_of_group(by_key, octets)


def says_of_query(by_key, octets):
    wanted("version" in by_key)
    yield "_v%d" % by_key["version"].value
    yield from says_of_group(by_key, octets)
    # The sources are not told, but are to be there.
    wanted("refused" not in by_key)


def says_of_group(by_key, _):
    group = by_key.get("group_addr") or by_key.get("mcast_addr")
    wanted(group is not None)
    yield " " + group.value


def says_of_records(by_key, octets):
    wanted("records" in by_key)
    entries, count = by_key["records"].entries, be(octets[6:8])
    whole = [entry for entry in entries[:MOST_RECORDS] if refused(entry) is None]
    yield "".join(" " + record(entry) for entry in whole) + further(count - MOST_RECORDS)
    wanted(len(whole) == min(count, MOST_RECORDS))


# The records that want all sources, and those that want none, where they have no sources (RFC 3376 section 4.2.12).
ALL, NONE = (2, 4), (1, 3)


def record(entry):
    group, sources = entry.cells[0].value, entry.cells[1].value
    if not sources and number_of(entry) in ALL + NONE:
        return ("+" if number_of(entry) in ALL else "-") + group
    return "%s=%s" % (entry.label[1], group)


# What is told of each kind, and of ICMPv6 also of these types.
LISTENERS = {130: says_of_query, 131: says_of_group, 132: says_of_group, 143: says_of_records}
NEIGHBORS = {
    133: says_of_router_solicitation, 134: says_of_router, 135: says_of_solicitation,
    136: says_of_advertisement, 137: says_of_redirect,
}
SAYS = {
    "icmp4": says_of_icmp4, "igmp": says_of_igmp, "icmp6": says_of_icmp6, "dhcp": says_of_lease,
    "dns": says_of_names, "mdns": says_of_names, "llmnr": says_of_names, "nbns": says_of_names,
}


if __name__ == "__main__":
    import plain
    sys.exit(plain.main(["--brief"] + sys.argv[1:]))
