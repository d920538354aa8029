#!/usr/bin/env python3
"""Sends, octet by octet as the standards have them, messages for which no program is to be had, and answers what
programs ask: `send.py WORD ARGUMENT..`, see the functions below."""

import socket
import struct
import sys
import time

sys.dont_write_bytecode = True

from speak import checksum, datagram, name  # noqa: E402

HOST4, ROUTER4 = socket.inet_aton("192.0.2.7"), socket.inet_aton("192.0.2.1")


def six(text):
    return socket.inet_pton(socket.AF_INET6, text)


def raw4(protocol=socket.IPPROTO_ICMP):
    return socket.socket(socket.AF_INET, socket.SOCK_RAW, protocol)


def raw6(protocol=socket.IPPROTO_ICMPV6):
    return socket.socket(socket.AF_INET6, socket.SOCK_RAW, protocol)


def sealed(message):
    """A message of ICMPv4 or IGMP with its checksum, which the kernel makes of ICMPv6 alone."""
    return message[:2] + struct.pack("!H", checksum(message)) + message[4:]


# ---- sources of groups (RFC 3678)

MCAST_JOIN_GROUP, MCAST_BLOCK_SOURCE, MCAST_UNBLOCK_SOURCE, MCAST_LEAVE_GROUP = 42, 43, 44, 45
MCAST_JOIN_SOURCE_GROUP, MCAST_LEAVE_SOURCE_GROUP, MCAST_MSFILTER = 46, 47, 48
MCAST_INCLUDE = 1
# Groups with the addresses of three senders.
GROUPS = (("239.1.2.3", ("198.51.100.2", "203.0.113.1", "203.0.113.2")),
          ("ff3e::1:3", ("2001:db8:2::2", "2001:db8:3::1", "2001:db8:3::2")))


def storage(text):
    """An address as the kernel has it (sockaddr_storage)."""
    octets = struct.pack("=HHI", socket.AF_INET6, 0, 0) + six(text) if ":" in text else struct.pack(
        "=HH", socket.AF_INET, 0) + socket.inet_aton(text)
    return octets.ljust(128, b"\0")


def sources(interface):
    """Joins a group of each version of IP for the packets of one sender, then of others as well, and leaves these one
    by one; then for those of all senders but some, and last of one alone."""
    index = struct.pack("=II", socket.if_nametoindex(interface), 0)
    members = [(socket.socket(socket.AF_INET6 if ":" in group else socket.AF_INET, socket.SOCK_DGRAM), group, senders)
               for group, senders in GROUPS]

    def change(what, at=None):
        for member, group, senders in members:
            level = socket.IPPROTO_IPV6 if ":" in group else socket.IPPROTO_IP
            request = index + storage(group) + (b"" if at is None else storage(senders[at]))
            member.setsockopt(level, what, request)
        time.sleep(0.4)

    for at in range(3):
        change(MCAST_JOIN_SOURCE_GROUP, at)
    # The querier asks in this time.
    time.sleep(2)
    for at in range(3):
        change(MCAST_LEAVE_SOURCE_GROUP, at)
    change(MCAST_JOIN_GROUP)
    change(MCAST_BLOCK_SOURCE, 0)
    change(MCAST_BLOCK_SOURCE, 2)
    change(MCAST_UNBLOCK_SOURCE, 0)
    for member, group, senders in members:
        level = socket.IPPROTO_IPV6 if ":" in group else socket.IPPROTO_IP
        chosen = index + storage(group) + struct.pack("=II", MCAST_INCLUDE, 1) + storage(senders[1])
        member.setsockopt(level, MCAST_MSFILTER, chosen)
    time.sleep(0.8)
    change(MCAST_LEAVE_GROUP)


def query(interface):
    """A query of IGMPv1 (RFC 1112 appendix I)."""
    querier = raw4(socket.IPPROTO_IGMP)
    querier.setsockopt(socket.SOL_SOCKET, socket.SO_BINDTODEVICE, interface.encode())
    querier.sendto(sealed(bytes.fromhex("1100000000000000")), ("224.0.0.1", 0))
    time.sleep(0.3)


def records(interface):
    """Reports with auxiliary data and records of a type that is not assigned (RFC 3376 section 4.2, RFC 3810 section
    5.2), and one that counts more records than it has."""
    four, other = raw4(socket.IPPROTO_IGMP), raw6()
    for member in (four, other):
        member.setsockopt(socket.SOL_SOCKET, socket.SO_BINDTODEVICE, interface.encode())
    # A router alert (RFC 2711).
    other.setsockopt(socket.IPPROTO_IPV6, socket.IPV6_HOPOPTS, bytes.fromhex("0000050200000100"))
    for count in (3, 4):
        for member, octets_of, to, front in (
                (four, socket.inet_aton, "224.0.0.22", "2200"), (other, six, "ff02::16", "8f00")):
            group, (first, second, _) = GROUPS[member is other]
            message = bytes.fromhex(front) + struct.pack("!3H", 0, 0, count)
            message += struct.pack("!BBH", 2, 1, 1) + octets_of(group) + octets_of(first) + b"data"
            message += struct.pack("!BBH", 7, 0, 2) + octets_of(group) + octets_of(first) + octets_of(second)
            message += struct.pack("!BBH", 5, 2, 0) + octets_of(group) + b"no group"
            member.sendto(sealed(message) if member is four else message, (to, 0))
    time.sleep(0.3)


# ---- options of neighbor discovery that radvd does not send

def choice(kind, units, octets):
    """An option of so many units of eight octets."""
    return (bytes([kind, units]) + octets).ljust(8 * units, b"\0")


def lifetime(seconds, octets):
    return struct.pack("!HI", 0, seconds) + octets


def route(units, length, preference, octets):
    return choice(24, units, struct.pack("!BBI", length, preference << 3, 1800) + octets)


def nat64(code, units=2):
    return choice(38, units, struct.pack("!H", 75 << 3 | code) + six("64:ff9b::")[:12])


def adverts(interface):
    """Advertisements of a router with options of other lengths and values than radvd gives them; those behind the
    first two hold options that are to be ignored, one in each."""
    router = raw6()
    router.setsockopt(socket.SOL_SOCKET, socket.SO_BINDTODEVICE, interface.encode())
    router.setsockopt(socket.IPPROTO_IPV6, socket.IPV6_MULTICAST_HOPS, 255)
    prefix, server = six("2001:db8:1:2:3:4:5:6"), six("2001:db8::53")
    for options in (
            (choice(14, 2, b"fourteen bytes"), route(3, 64, 2, prefix), route(3, 0, 3, b""), route(2, 1, 0, prefix[:8]),
             choice(25, 3, lifetime(0, server)), choice(37, 2, b"urn:a:\"quoted\""), choice(253, 1, b"either")),
            (choice(31, 3, lifetime(60, name("a b.test"))), choice(37, 2, "urn:\u00e9\\".encode()), nat64(0)),
            (nat64(6),), (nat64(7),), (nat64(0, 3),), (route(2, 65, 0, prefix[:8]),), (route(3, 129, 0, prefix),),
            (route(4, 64, 0, prefix),), (choice(25, 1, b""),), (choice(25, 4, lifetime(60, server)),),
            (choice(31, 1, b""),), (choice(31, 2, lifetime(60, b"\7no end ")),),
            (choice(31, 2, lifetime(60, b"\xc0\0")),)):
        router.sendto(struct.pack("!BBHBBHII", 134, 0, 0, 64, 0, 0, 0, 0) + b"".join(options), ("ff02::1", 0))
    time.sleep(0.3)


# ---- extension structures (RFC 4884 section 7)

def item(kind, c_type, payload):
    """An object of an extension structure."""
    return struct.pack("!HBB", 4 + len(payload), kind, c_type) + payload


def structure(*items):
    return sealed(b"\x20\0\0\0" + b"".join(items))


def padded(octets, unit=4):
    return octets + bytes(-len(octets) % unit)


# ---- requests about interfaces (RFC 8335)

def interface_objects(index):
    """The objects that ask for an interface by its name, its index or an address: of the router, and of none."""
    yield from (item(3, 1, padded(text)) for text in (b"lan", b"no such one"))
    yield from (item(3, 2, struct.pack("!I", index)) for index in (int(index), 2 ** 31 - 1))
    addresses = [(1, ROUTER4), (1, socket.inet_aton("192.0.2.77")), (2, six("2001:db8:1::1")), (2, six("2001:db8::7"))]
    yield from (item(3, 3, struct.pack("!HBB", afi, len(address), 0) + address) for afi, address in addresses)


def probes(router4, router6, index):
    """Requests about interfaces of the router, which its kernel answers; one of them has this index."""
    four, other = raw4(), raw6()
    for at, asked in enumerate(interface_objects(index)):
        fields = struct.pack("!HBB", 0x1234, at, 1) + structure(asked)
        four.sendto(sealed(b"\x2a\0\0\0" + fields), (router4, 0))
        other.sendto(b"\xa0\0\0\0" + fields, (router6, 0))
        time.sleep(0.1)
    # An object of a type that is not assigned, a structure with a wrong checksum, and a request about the neighbor,
    # which is not local.
    named = structure(item(3, 1, b"lan\0"))
    about = structure(item(3, 3, struct.pack("!HBB", 1, 4, 0) + ROUTER4))
    for local, asked in ((1, structure(item(3, 9, bytes(4)))), (1, named[:2] + b"\xde\xad" + named[4:]), (0, about)):
        fields = struct.pack("!HBB", 0x1234, 0x20, local) + asked
        four.sendto(sealed(b"\x2a\0\0\0" + fields), (router4, 0))
        other.sendto(b"\xa0\0\0\0" + fields, (router6, 0))
    time.sleep(0.3)


def states(host4, host6):
    """Replies about interfaces that no kernel sends: of a neighbor, by its state, and of each code."""
    four, other = raw4(), raw6()
    for code, flags in ((0, 0x46), (0, 0xa5), (1, 0), (2, 0), (3, 0), (4, 0)):
        fields = struct.pack("!HBB", 0x1234, code, flags)
        four.sendto(sealed(struct.pack("!BBH", 43, code, 0) + fields), (host4, 0))
        other.sendto(struct.pack("!BBH", 161, code, 0) + fields, (host6, 0))
    time.sleep(0.3)


# ---- what is asked of a node (RFC 4620)

NODE_ANSWERS = {2: b"\0\0\0\0" + name("router") + b"\0", 3: struct.pack("!I", 600) + six("2001:db8:1::1"),
                4: struct.pack("!I", 600) + ROUTER4}


def node():
    """Answers the queries about a node that ping sends: where they ask for its name or its addresses, with these."""
    asked = raw6()
    # Of all types this one alone.
    asked.setsockopt(socket.IPPROTO_ICMPV6, 1, struct.pack("=8I", *(
        0xffffffff & ~(1 << 139 % 32 if at == 139 // 32 else 0) for at in range(8))))
    print("open", flush=True)
    while True:
        query, there = asked.recvfrom(2048)
        if len(query) < 16:
            continue
        qtype, flags, nonce = struct.unpack_from("!HH8s", query, 4)
        # What is not known has code 2, and an answer to nothing is empty.
        code = 0 if qtype in NODE_ANSWERS or qtype == 0 else 2
        asked.sendto(struct.pack("!BBHHH", 140, code, 0, qtype, flags) + nonce + NODE_ANSWERS.get(qtype, b""), there)


def queries(there):
    """Queries about a node that ping does not send: of no type, of one that is not assigned, and one that is cut."""
    asked, nonce = raw6(), bytes.fromhex("0123456789abcdef")
    asked.sendto(struct.pack("!BBHHH", 139, 1, 0, 0, 0) + nonce, (there, 0))
    asked.sendto(struct.pack("!BBHHH", 139, 0, 0, 1, 0) + nonce + six(there), (there, 0))
    asked.sendto(struct.pack("!BBHHH", 139, 0, 0, 9, 0x12) + nonce + six(there), (there, 0))
    asked.sendto(struct.pack("!BBHHH", 139, 0, 0, 2, 0) + nonce[:3], (there, 0))
    time.sleep(0.3)


# ---- other messages of ICMPv4

def replies(host4):
    """Replies with an address mask (RFC 950), information replies (RFC 792), and messages that end before their
    fields."""
    four = raw4()
    for message in ("1200000012340001ffffff00", "1000000012340001", "0e0000001234000100000001", "1100000012340001",
                    "090000000102070800000000"):
        four.sendto(sealed(bytes.fromhex(message)), (host4, 0))
    # An advertisement of two routers, each with a third word that nobody reads (RFC 1256 section 5.2).
    routers = b"".join(socket.inet_aton(text) + struct.pack("!iI", level, 0) for text, level in (
        ("192.0.2.1", -2 ** 31), ("192.0.2.9", 100)))
    four.sendto(sealed(bytes.fromhex("09000000") + struct.pack("!BBH", 2, 3, 1800) + routers), (host4, 0))
    time.sleep(0.3)


# ---- errors with extensions (RFC 4884), since no kernel here sends them

def labels(*entries):
    """A label stack (RFC 4950): of each entry its label, its traffic class and its time to live."""
    words = [label << 12 | traffic << 9 | (at + 1 == len(entries)) << 8 | ttl
             for at, (label, traffic, ttl) in enumerate(entries)]
    return item(1, 1, struct.pack("!%dI" % len(words), *words))


def interface_object(role, index=None, address=None, text=None, mtu=None):
    """Information of an interface (RFC 5837 section 4): what is there is told by bits of its type."""
    payload, bits = b"", role << 6
    if index is not None:
        bits, payload = bits | 8, payload + struct.pack("!I", index)
    if address is not None:
        bits, payload = bits | 4, payload + struct.pack("!HH", 1 if len(address) == 4 else 2, 0) + address
    if text is not None:
        length = -(-(1 + len(text)) // 4) * 4
        bits, payload = bits | 2, payload + (bytes([length]) + text).ljust(length, b"\0")
    if mtu is not None:
        bits, payload = bits | 1, payload + struct.pack("!I", mtu)
    return item(2, bits, payload)


def structures():
    """Extension structures that errors have: three that hold, one with an object of a private class, one with a wrong
    checksum, one without a checksum, and one whose object ends behind it."""
    yield structure(labels((16, 0, 1)))
    yield structure(labels((299776, 5, 254), (1048575, 0, 1)), interface_object(0, 7, ROUTER4, b"eth0", 1500))
    yield structure(interface_object(1, text=b"wan"), interface_object(2, address=six("fe80::1"), mtu=9000),
                    interface_object(3, index=2 ** 31))
    yield structure(item(247, 3, bytes.fromhex("c0ffee00")), labels((16, 0, 1)))
    wrong = structure(labels((16, 0, 1)))
    yield wrong[:2] + b"\xde\xad" + wrong[4:]
    yield wrong[:2] + b"\0\0" + wrong[4:]
    yield structure(labels((16, 0, 1)), struct.pack("!HBB", 64, 1, 1) + bytes(4))


UDP = bytes.fromhex("9c40829b00180000") + b"what was quoted."


def extensions(router4, router6):
    """Errors of both families, with extensions."""
    four, other = raw4(), raw6()
    quote4 = datagram(UDP, "198.51.100.2", 17)
    quote4 = quote4[:2] + struct.pack("!H", len(quote4)) + quote4[4:12] + HOST4 + quote4[16:]
    quote6 = struct.pack("!IHBB", 6 << 28, len(UDP), 17, 1) + six("2001:db8:1::7") + six("2001:db8:2::2") + UDP
    for at, told in enumerate(structures()):
        kind, rest = ((3, 0x05dc), (11, 0), (12, 0))[at % 3]
        quoted = quote4.ljust(128, b"\0")
        # Only a parameter problem has a pointer in front of the length, and only code 4 of type 3 has an MTU behind it.
        front = struct.pack("!BBHBBH", kind, 4 if kind == 3 else 0, 0, 20 if kind == 12 else 0, len(quoted) // 4, rest)
        four.sendto(sealed(front + quoted + told), (router4, 0))
        quoted = quote6.ljust(128, b"\0")
        other.sendto(struct.pack("!BBHB3x", (1, 3)[at % 2], 0, 0, len(quoted) // 8) + quoted + told, (router6, 0))
    # No extensions: the length counts all that is quoted; a length that counts more than there is; and none, where the
    # structure stands behind 128 bytes as it did before there was a length (RFC 4884 section 5.5).
    four.sendto(sealed(struct.pack("!BBHI", 11, 0, 0, 0) + quote4.ljust(128, b"\0") + structure(labels((16, 0, 1)))),
                (router4, 0))
    other.sendto(struct.pack("!BBHI", 3, 0, 0, 0) + quote6.ljust(128, b"\0") + structure(labels((16, 0, 1))),
                 (router6, 0))
    for words in (32, 48):
        four.sendto(sealed(struct.pack("!BBHBBH", 11, 0, 0, 0, words, 0) + quote4.ljust(128, b"\0")), (router4, 0))
        other.sendto(struct.pack("!BBHB3x", 3, 0, 0, words // 2) + quote6.ljust(128, b"\0"), (router6, 0))
    time.sleep(0.3)


# ---- datagrams with headers that extend IPv6, to which a kernel answers by errors that quote them

HOP_OPTIONS, DESTINATION_OPTIONS = bytes.fromhex("0000010400000000"), bytes.fromhex("00001e0401020304")
# A segment routing header whose segments are all passed (RFC 8754 section 2).
SEGMENTS = struct.pack("!BBBBBBH", 0, 2, 4, 0, 0, 0, 0) + six("2001:db8:1::1")
AUTHENTICATION = struct.pack("!BBHII", 0, 2, 0, 256, 1) + bytes(4)
TCP = struct.pack("!HHIIBBHHH", 40000, 80, 1, 0, 0x50, 2, 1024, 0, 0)
HEADERS = {0: HOP_OPTIONS, 43: SEGMENTS, 60: DESTINATION_OPTIONS, 51: AUTHENTICATION}


def chained(numbers, protocol, payload):
    """The number of the first of some headers, and their octets in front of a payload."""
    following = protocol
    for number in reversed(numbers):
        payload, following = bytes([following]) + HEADERS[number][1:] + payload, number
    return following, payload


def fragment(protocol, offset, more, payload):
    return struct.pack("!BBHI", protocol, 0, offset | more, 0xc0de) + payload


def behind(router6, server6):
    """Datagrams of UDP and TCP behind headers that extend IPv6: to a port of the router where nobody listens, and
    further than their hop limit lets them; and fragments, whose others do not come."""
    def send(to, numbers, protocol, payload, hops=64):
        first, octets = chained(numbers, protocol, payload)
        whole = raw6(socket.IPPROTO_RAW)
        whole.setsockopt(socket.IPPROTO_IPV6, 36, 1)
        here = socket.socket(socket.AF_INET6, socket.SOCK_DGRAM)
        here.connect((to, 9))
        source, there = six(here.getsockname()[0]), six(to)
        if protocol in (6, 17) and octets.endswith(payload):
            at = 16 if protocol == 6 else 6
            before = source + there + struct.pack("!2I", len(payload), protocol)
            total = checksum(before + payload[:at] + b"\0\0" + payload[at + 2:])
            octets = octets[:-len(payload)] + payload[:at] + struct.pack("!H", total) + payload[at + 2:]
        whole.sendto(struct.pack("!IHBB", 6 << 28, len(octets), first, hops) + source + there + octets, (to, 0))
        time.sleep(0.15)

    udp = struct.pack("!4H", 40000, 33435, 8 + 12, 0) + b"nobody reads"
    for numbers in ((60,), (0,), (0, 60), (0, 43, 60), (43,)):
        send(router6, numbers, 17, udp)
    for numbers, protocol, payload in (((), 17, udp), ((60, 60), 17, udp), ((0, 60), 6, TCP), ((51,), 6, TCP),
                                       ((60,), 253, b"of no protocol"), ((0,), 59, b"")):
        send(server6, numbers, protocol, payload, 1)
    send(router6, (60,), 44, fragment(17, 0, 1, udp + bytes(4)))
    send(router6, (), 44, fragment(17, 64, 1, b"not eight octets, nor sixteen"))
    send(server6, (0,), 44, fragment(17, 64, 0, b"a later fragment"), 1)
    # The router gives these up after a second.
    time.sleep(2)


if __name__ == "__main__":
    words = {function.__name__: function for function in (
        sources, query, records, adverts, probes, states, node, queries, replies, extensions, behind)}
    words[sys.argv[1]](*sys.argv[2:])
