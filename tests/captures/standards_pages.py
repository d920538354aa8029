"""Captures for pages of statistics: messages that say the same, questions with their answers, and more of a sort than a
page has rows for."""
import struct

from building import (NOON, dhcp, hexed, igmp, ip4, ip6_icmp6, message, name, pcap_header,
                      pcap_record, pointer, question, record, udp4, v4, v6)

CLIENT, SERVER, OTHER = v4("192.0.2.1"), v4("192.0.2.2"), v4("192.0.2.3")
HOST_A, HOST_B, GROUP = v6("fe80::a"), v6("fe80::b"), v6("ff02::1:ff00:1")
ALL_NODES, ALL_ROUTERS = v6("ff02::1"), v6("ff02::2")
MILLISECOND = 10 ** 6


def capture(*packets):
    """A capture of raw IP of datagrams with their times in nanoseconds."""
    return pcap_header(101, digits=9) + b"".join(
        pcap_record(octets, NOON + time // 10 ** 9, time % 10 ** 9) for octets, time in packets)


def in_turn(*datagrams):
    """The same, a millisecond apart."""
    return capture(*((octets, at * MILLISECOND) for at, octets in enumerate(datagrams)))


# ---- DNS

def asks(ident, *questions, flags=0x0100, source=CLIENT, destination=SERVER, ports=(40000, 53)):
    return udp4(message(flags, questions, ident=ident), *ports, source=source, destination=destination)


def says(ident, *questions, rcode=0, source=SERVER, destination=CLIENT, ports=(53, 40000)):
    answers = () if rcode else (record(pointer(12), 1, b"\xc0\0\2\7"),) * bool(questions)
    octets = message(0x8180 | rcode, questions, answers, ident=ident)
    return udp4(octets, *ports, source=source, destination=destination)


def asked(ident, its_name="a.test", kind=1, **more):
    return asks(ident, question(name(its_name), kind), **more)


def said(ident, its_name="a.test", kind=1, **more):
    return says(ident, question(name(its_name), kind), **more)


def answers(count, time_of):
    """So many questions and answers, and the time of each answer in nanoseconds."""
    packets = []
    for at in range(count):
        packets += [(asked(at), at * 10 ** 9), (said(at), at * 10 ** 9 + time_of(at))]
    return capture(*packets)


A, B = question(name("a.test"), 1), question(name("b.test"), 1)
CH, UNICAST = question(name("a.test"), 1, 3), question(name("a.test"), 1, 0x8001)
MDNS, LLMNR = v4("224.0.0.251"), v4("224.0.0.252")

NAMES = {
    "page_of_names": in_turn(
        asked(1, "B.test"), asked(2, "b.TEST"), asked(3, "aa"), asked(4, "c", 28), asked(5, "c", 1), asked(6, "."),
        said(2, "b.TEST", rcode=3), said(9, rcode=5), said(9, source=OTHER, rcode=5), asked(6, ".", 65280)),
    "page_of_questions_together": in_turn(
        asks(1, A, B), says(1, A, B), asks(2, A), says(2, A, B), asks(3, pointer(900) + A[-4:], B, A),
        asks(4, A + B[:3]), asks(5), says(5), asks(6, A), says(6, CH),
        asks(7, UNICAST, ports=(40000, 5353), destination=MDNS), says(7, A, ports=(5353, 40000))),
    "page_of_other_names": in_turn(
        asked(1, ports=(5353, 5353), destination=MDNS), said(1, ports=(5353, 5353), destination=MDNS),
        asked(2, ports=(40000, 5355), destination=LLMNR), said(2, ports=(5355, 40000), source=OTHER),
        asked(3, ports=(40000, 5353), destination=MDNS), said(3, ports=(5353, 40000)), said(3, ports=(5353, 40000))),
    "page_of_times": capture(
        (asked(1), 0), (asked(1), 5), (said(1), 1999), (said(1), 3000), (asked(2), 10 ** 9), (said(2), 5),
        (asked(3), 0), (said(3, source=OTHER), 7), (said(3), 10 ** 10)),
}

# ---- DHCP

ACK, REQUEST = b"\x35\1\5", b"\x35\1\3"
HOUR, DAY = b"\x33\4\0\0\x0e\x10", b"\x33\4\0\1\x51\x80"
GIVEN, NOTHING = b"\0" * 4 + v4("192.0.2.50") + b"\0" * 8, b"\0" * 16


def gives(options, addresses=GIVEN, hardware=b"\1\6\0"):
    return udp4(dhcp(2, options, addresses=addresses, hardware=hardware), 67, 68, source=SERVER, destination=CLIENT)


def wants(options, hardware=b"\1\6\0"):
    return udp4(dhcp(1, options, hardware=hardware), 68, 67, source=b"\0" * 4, destination=b"\xff" * 4)


LEASES = {
    "page_of_leases": in_turn(*(gives(options + b"\xff") for options in (
        ACK + DAY, ACK + HOUR, ACK, ACK + HOUR, ACK + b"\x33\3\0\0\1", ACK + b"\x33\0", DAY, b"\x35\1\2" + DAY))),
    "page_of_leases_in_parts": in_turn(*(gives(options + b"\xff") for options in (
        ACK + ACK, ACK + b"\x33\2\0\0" + b"\x33\2\0\7", ACK + HOUR + DAY, b"\x35\0" + ACK + DAY, b"\x35\2\5\0"))),
    "page_of_clients": in_turn(
        wants(REQUEST, b"\1\6\0"), wants(REQUEST, b"\1\0\0"), wants(REQUEST, b"\1\1\0"), wants(REQUEST, b"\x20\x10\0"),
        wants(b"", b"\1\xff\0"), gives(ACK, NOTHING), gives(ACK, hardware=b"\1\0\0"), gives(ACK, hardware=b"\1\1\0"),
        gives(ACK + HOUR, hardware=b"\1\0\0"), gives(ACK + HOUR, hardware=b"\1\xff\0"), wants(ACK)),
}

# ---- groups


def records4(*records):
    told = struct.pack(">HH", 0, len(records)) + b"".join(records)
    return ip4(igmp(0x22, 0, told)[20:], 2, CLIENT, v4("224.0.0.22"))


def record4(kind, *sources, aux=0, group=v4("239.1.2.3")):
    return struct.pack(">BBH", kind, aux, len(sources)) + group + b"".join(sources) + b"\0" * (4 * aux)


def record6(kind, *sources):
    return struct.pack(">BBH", kind, 0, len(sources)) + GROUP + b"".join(sources)


def records6(*records):
    return ip6_icmp6(143, 0, struct.pack(">HH", 0, len(records)), b"".join(records), HOST_A, v6("ff02::16"))


GROUPS = {
    "page_of_groups": in_turn(
        igmp(0x12, 0, v4("239.1.2.3")), igmp(0x16, 0, v4("239.1.2.3")), igmp(0x17, 0, v4("239.1.2.3")),
        igmp(0x11, 0, v4("239.1.2.3")), igmp(0x16, 0, v4("10.0.0.1")), igmp(0x16, 0, v4("0.0.0.0")),
        records4(*(record4(kind) for kind in range(8))), records4(*(record4(kind, SERVER) for kind in range(8))),
        records4(record4(4, aux=1), record4(2), record4(1, SERVER)[:-1])),
    "page_of_listeners": in_turn(
        *(ip6_icmp6(kind, 0, b"\0" * 4, GROUP, HOST_B, GROUP) for kind in (130, 131, 132)),
        records6(*(record6(kind) for kind in range(1, 7))), records6(*(record6(kind, HOST_B) for kind in range(1, 7))),
        records6(record6(4), record6(1, HOST_B)[:-1])),
    "page_of_sources": in_turn(
        records4(*(record4(kind, SERVER, OTHER, aux=kind % 2) for kind in range(8))),
        records4(record4(5, OTHER, SERVER, OTHER, group=v4("232.1.1.1"))), records4(record4(4), record4(1)),
        records4(record4(5, CLIENT, aux=2), record4(2, OTHER)[:-1]),
        records6(record6(5, HOST_B, HOST_A), record6(4, HOST_B), record6(6, HOST_B))),
}

# ---- neighbors and routers


def link(kind, last, units=1):
    return bytes([kind, units, 2, 0, 0, 0, 0, last]) + b"\0" * (8 * units - 8)


def prefix(length=64, last=0, units=4):
    octets = bytes([3, units, length, 0xC0]) + b"\0" * 12 + v6("2001:db8::")[:15] + bytes([last])
    return octets + b"\0" * (8 * units - 32)


def router(options, source=HOST_A, code=0):
    return ip6_icmp6(134, code, hexed("4000 0708"), b"\0" * 8 + options, source, ALL_NODES)


def neighbor(kind, options, source=HOST_A, target=HOST_A, code=0):
    return ip6_icmp6(kind, code, b"\x60\0\0\0", target + options, source, HOST_B)


NEIGHBORS = {
    "page_of_neighbors": in_turn(
        neighbor(136, link(2, 1)), neighbor(136, link(2, 2), target=HOST_B), neighbor(136, link(2, 3)),
        neighbor(136, link(1, 4)), neighbor(135, link(1, 1)), neighbor(135, link(2, 5)),
        neighbor(135, link(1, 6), source=b"\0" * 16), neighbor(136, link(2, 7), code=1),
        ip6_icmp6(133, 0, b"\0" * 4, link(1, 8), HOST_B, ALL_ROUTERS)),
    "page_of_options": in_turn(
        neighbor(136, link(2, 1, units=2) + link(2, 2)), neighbor(136, link(2, 3) + link(2, 4)),
        neighbor(136, link(14, 5) + link(2, 6)), neighbor(136, link(2, 7)[:-1]), neighbor(136, link(2, 7, units=0)),
        neighbor(137, HOST_B + link(2, 9)), neighbor(136, link(2, 8) + b"\2\0")),
    "page_of_routers": in_turn(
        router(link(1, 1) + prefix() + prefix(48)), router(prefix() + prefix(), HOST_B), router(prefix(64, 1), code=1),
        router(prefix(units=5) + prefix(129)), router(prefix()[:-1]), router(b"", source=b"\0" * 16)),
}

# ---- more than a page has rows for


def many(count, datagram_of):
    return in_turn(*(datagram_of(at) for at in range(count)))


def host(at):
    return v4("10.0.%d.%d" % (at // 256, at % 256))


def host6(at):
    return HOST_A[:14] + struct.pack(">H", at)


MOST = 1060
FULL = {
    **{"page_of_%d_times" % count: answers(count, lambda at: (at + 1) * MILLISECOND)
       for count in (1, 2, 3, 4, 99, 100, 101, 199, 200)},
    "page_of_too_many_times": answers(4200, lambda at: (at * 7919 % 4200 + 1) * 1000),
    "page_of_too_many_questions": many(MOST + 40, lambda at: asked(at, "n%d.test" % (at % MOST))),
    "page_of_too_many_servers": many(600, lambda at: said(at, source=host(at % 300))),
    "page_of_too_many_that_wait": in_turn(*map(asked, range(2100)), *map(said, range(2100))),
    "page_of_each_rcode": many(32, lambda at: said(at, rcode=at % 16)),
    "page_of_each_operation": many(16, lambda at: asks(at, A, flags=at << 11)),
    "page_of_too_many_members": many(MOST, lambda at: ip4(igmp(0x16, 0, v4("239.0.0.1"))[20:], 2, host(at), MDNS)),
    "page_of_too_many_sources": many(2, lambda at: records4(record4(1 + at, *map(host, range(MOST // 2))))),
    "page_of_too_many_neighbors": many(MOST, lambda at: neighbor(136, link(2, 1), target=host6(at))),
    "page_of_too_many_routers": many(MOST, lambda at: router(prefix(), host6(at))),
    "page_of_too_many_leases": many(MOST, lambda at: gives(ACK + HOUR, b"\0" * 4 + host(at) + b"\0" * 8)),
}
PAGES = {**NAMES, **LEASES, **GROUPS, **NEIGHBORS}
