#!/usr/bin/env python3
"""Sends what no program of make's other programs sends: `speak.py WORD ARGUMENT..`, see the functions below."""

import fcntl
import os
import select
import socket
import struct
import sys
import time

GROUP4, GROUP6 = "239.1.2.3", "ff15::1:3"
MCAST_JOIN_SOURCE_GROUP, SO_NO_CHECK = 46, 11


def join(interface):
    """Joins a group of each version of IP and leaves it, and then one for a source alone."""
    index = socket.if_nametoindex(interface)
    four = socket.socket(socket.AF_INET, socket.SOCK_DGRAM)
    six = socket.socket(socket.AF_INET6, socket.SOCK_DGRAM)
    request = socket.inet_aton(GROUP4) + struct.pack("=Ii", 0, index)
    four.setsockopt(socket.IPPROTO_IP, socket.IP_ADD_MEMBERSHIP, request)
    six.setsockopt(socket.IPPROTO_IPV6, socket.IPV6_JOIN_GROUP, socket.inet_pton(socket.AF_INET6, GROUP6)
                   + struct.pack("=I", index))
    time.sleep(1.2)
    four.setsockopt(socket.IPPROTO_IP, socket.IP_DROP_MEMBERSHIP, request)
    six.close()
    six = socket.socket(socket.AF_INET6, socket.SOCK_DGRAM)
    group = struct.pack("=HHI", socket.AF_INET6, 0, 0) + socket.inet_pton(socket.AF_INET6, GROUP6) + bytes(104)
    source = struct.pack("=HHI", socket.AF_INET6, 0, 0) + socket.inet_pton(socket.AF_INET6, "2001:db8::5") + bytes(104)
    six.setsockopt(socket.IPPROTO_IPV6, MCAST_JOIN_SOURCE_GROUP, struct.pack("=II", index, 0) + group + source)
    time.sleep(0.3)


def checksum(data):
    """The Internet checksum of data (RFC 1071)."""
    total = sum(struct.unpack(f"!{(len(data) + 1) // 2}H", data + b"\0" * (len(data) % 2)))
    while total > 0xffff:
        total = (total & 0xffff) + (total >> 16)
    return total ^ 0xffff


def datagram(payload, to, protocol, options=b""):
    """A datagram of IPv4; the kernel fills in what is 0."""
    length = 20 + len(options)
    return struct.pack("!BBHHHBBH4x4s", 0x40 | length // 4, 0, length + len(payload), 0x1234, 0, 64, protocol, 0,
                       socket.inet_aton(to)) + options + payload


def errors(four, six):
    """What the other side answers by errors, and messages of types that few programs know."""
    raw = socket.socket(socket.AF_INET, socket.SOCK_RAW, socket.IPPROTO_ICMP)
    for kind, length in ((13, 20), (17, 12), (15, 8), (10, 8), (42, 8)):
        message = struct.pack("!BBHHH", kind, 0, 0, 0x1234, 1).ljust(length, b"\0")
        raw.sendto(message[:2] + struct.pack("!H", checksum(message)) + message[4:], (four, 0))
    raw.sendto(bytes.fromhex("0800dead12340001"), (four, 0))
    # An error with a label of MPLS behind what it quotes (RFC 4884, RFC 4950).
    quoted = datagram(bytes.fromhex("9c40829b00280000"), "198.51.100.2", 17).ljust(128, b"\0")
    quoted = quoted[:2] + struct.pack("!H", 60) + quoted[4:12] + socket.inet_aton("192.0.2.7") + quoted[16:]
    label = bytes.fromhex("0008010103e80101")
    label = b"\x20\0" + struct.pack("!H", checksum(b"\x20\0\0\0" + label)) + label
    message = bytes.fromhex("0b00000000200000") + quoted + label
    raw.sendto(message[:2] + struct.pack("!H", checksum(message)) + message[4:], (four, 0))
    whole = socket.socket(socket.AF_INET, socket.SOCK_RAW, socket.IPPROTO_RAW)
    whole.sendto(datagram(b"of no protocol", four, 253), (four, 0))
    echo = bytes.fromhex("0800e5ca12340001")
    whole.sendto(datagram(echo, four, 1, bytes.fromhex("07070a0a000a0100")), (four, 0))
    whole.sendto(datagram(echo, four, 1, bytes.fromhex("0107040000000000")), (four, 0))
    none = socket.socket(socket.AF_INET6, socket.SOCK_RAW, 253)
    none.sendto(b"of no protocol", (six, 0))
    udp = socket.socket(socket.AF_INET6, socket.SOCK_DGRAM)
    udp.setsockopt(socket.IPPROTO_IPV6, socket.IPV6_DSTOPTS, bytes.fromhex("00009e0400000000"))
    udp.sendto(b"an option that nobody knows", (six, 40000))
    ping = socket.socket(socket.AF_INET6, socket.SOCK_RAW, socket.IPPROTO_ICMPV6)
    for kind in (139, 144, 155, 200, 128):
        ping.sendto(struct.pack("!BBHHH", kind, 0, 0, 0x1234, kind) + bytes(16), (six, 0))
    ping.setsockopt(socket.IPPROTO_IPV6, socket.IPV6_HOPOPTS, bytes.fromhex("00001e0401020304"))
    ping.sendto(bytes.fromhex("8000000012340001"), (six, 0))
    ping.setsockopt(socket.IPPROTO_IPV6, socket.IPV6_DSTOPTS, bytes.fromhex("0000010400000000"))
    ping.sendto(bytes.fromhex("8000000012340002"), (six, 0))
    # The only fragment of its datagram (RFC 6946), whose checksum the kernel does not make.
    atomic = socket.socket(socket.AF_INET6, socket.SOCK_RAW, 44)
    atomic.connect((six, 0))
    here = socket.inet_pton(socket.AF_INET6, atomic.getsockname()[0])
    message = bytes.fromhex("8000000012340003")
    before = here + socket.inet_pton(socket.AF_INET6, six) + struct.pack("!2I", len(message), 58)
    message = message[:2] + struct.pack("!H", checksum(before + message)) + message[4:]
    atomic.send(bytes.fromhex("3a00000000001234") + message)
    time.sleep(0.3)


def fragments(four, six):
    """Datagrams of UDP that are sent in fragments, to the port of DNS and to another."""
    for family, address in ((socket.AF_INET, four), (socket.AF_INET6, six)):
        udp = socket.socket(family, socket.SOCK_DGRAM)
        udp.sendto(bytes(1600), (address, 53))
        udp.sendto(bytes(1600), (address, 9))
    time.sleep(0.3)


def name(text):
    """A name of DNS without pointers."""
    return b"".join(bytes([len(label)]) + label.encode() for label in text.split(".")) + b"\0"


def names(interface):
    """A query and an answer of multicast DNS (RFC 6762), over both versions of IP, and a query of LLMNR."""
    local = name("host.local")
    query = struct.pack("!6H", 0, 0, 2, 0, 0, 0) + local + struct.pack("!2H", 1, 0x8001)
    query += b"\xc0\x0c" + struct.pack("!2H", 28, 1)
    answer = struct.pack("!6H", 0, 0x8400, 0, 4, 0, 1) + local
    answer += struct.pack("!2HIH", 1, 0x8001, 120, 4) + socket.inet_aton("192.0.2.7")
    answer += b"\xc0\x0c" + struct.pack("!2HIH", 28, 0x8001, 120, 16) + socket.inet_pton(socket.AF_INET6, "fe80::7")
    service = struct.pack("!H", 0xc000 + len(answer))
    answer += name("_http._tcp.local") + struct.pack("!2HIH", 12, 1, 4500, 7) + b"\x04blog" + service
    answer += b"\x04blog" + service + struct.pack("!2HIH", 33, 0x8001, 120, 8)
    answer += struct.pack("!3H", 0, 0, 80) + b"\xc0\x0c"
    answer += b"\xc0\x0c" + struct.pack("!2HIH", 47, 0x8001, 120, 8) + b"\xc0\x0c" + bytes.fromhex("000440000008")
    for family, group in ((socket.AF_INET, "224.0.0.251"), (socket.AF_INET6, "ff02::fb")):
        udp = socket.socket(family, socket.SOCK_DGRAM)
        udp.setsockopt(socket.SOL_SOCKET, socket.SO_BINDTODEVICE, interface.encode())
        udp.bind(("", 5353))
        udp.sendto(query, (group, 5353))
        udp.sendto(answer, (group, 5353))
        udp.sendto(answer[:-3], (group, 5353))
        udp.sendto(answer[:9], (group, 5353))
    llmnr = socket.socket(socket.AF_INET, socket.SOCK_DGRAM)
    llmnr.sendto(struct.pack("!6H", 7, 0, 1, 0, 0, 0) + name("host") + struct.pack("!2H", 1, 1), ("224.0.0.252", 5355))


def oddities(server):
    """A query that ends within its question, and one without a checksum of UDP; a request of BOOTP (RFC 951)."""
    udp = socket.socket(socket.AF_INET, socket.SOCK_DGRAM)
    query = struct.pack("!6H", 7, 0x0100, 1, 0, 0, 0) + name("a.example.test") + struct.pack("!2H", 1, 1)
    udp.sendto(query[:-2], (server, 53))
    udp.setsockopt(socket.SOL_SOCKET, SO_NO_CHECK, 1)
    udp.sendto(query, (server, 53))
    bootp = socket.socket(socket.AF_INET, socket.SOCK_DGRAM)
    bootp.bind(("", 68))
    request = bytes.fromhex("010106001234567800010000").ljust(28, b"\0") + bytes.fromhex("020000000007")
    bootp.sendto(request.ljust(300, b"\0"), (server, 67))


def segments(server):
    """Queries of DNS over TCP (RFC 7766): three in one segment, one of which the length comes in a segment of its own,
    and one in two segments."""
    def query(ident, text, number):
        message = struct.pack("!6H", ident, 0x0100, 1, 0, 0, 0) + name(text) + struct.pack("!2H", number, 1)
        return struct.pack("!H", len(message)) + message

    several = b"".join(query(at, "%s.example.test" % text, number) for at, text, number in
                       ((1, "a", 1), (2, "aaaa", 28), (3, "absent", 1)))
    one = query(4, "www.example.test", 1)
    for parts in ((several,), (one[:2], one[2:]), (one[:20], one[20:])):
        with socket.create_connection((server, 53), 1) as tcp:
            tcp.setsockopt(socket.IPPROTO_TCP, socket.TCP_NODELAY, 1)
            for part in parts:
                tcp.sendall(part)
                time.sleep(0.1)
            try:
                while tcp.recv(4096):
                    tcp.settimeout(0.3)
            except TimeoutError:
                pass


GRE_FLAGS = {"checksum": 0x8000, "key": 0x2000, "sequence": 0x1000}
GRE, MTU_DISCOVER4, MTU_DISCOVER6 = 47, 10, 23
INSIDE = {4: (4, 0x0800), 6: (41, 0x86dd)}


def gre(words, payload, sequence):
    """What GRE carries behind its header (RFC 2784, RFC 2890)."""
    flags, fields = sum(GRE_FLAGS[word] for word in words), b""
    if "checksum" in words:
        fields += bytes(4)
    if "key" in words:
        fields += struct.pack("!I", 0xc0de)
    if "sequence" in words:
        fields += struct.pack("!I", sequence)
    whole = struct.pack("!2H", flags, INSIDE[payload[0] >> 4][1]) + fields + payload
    return whole[:4] + struct.pack("!H", checksum(whole)) + whole[6:] if "checksum" in words else whole


def without_gre(octets):
    flags, = struct.unpack_from("!H", octets)
    return octets[4 + 4 * sum(flags & flag > 0 for flag in GRE_FLAGS.values()):]


def carry(interface, kind, near, far):
    """Carries the packets of an interface to another host in datagrams that the kernel makes: as `ip` in IP (RFC 2003,
    RFC 4213), or in GRE as `gre` and the fields that it has."""
    kind, *words = kind.split("-")
    family = socket.AF_INET6 if ":" in near else socket.AF_INET
    device = os.open("/dev/net/tun", os.O_RDWR)
    fcntl.ioctl(device, 0x400454ca, struct.pack("16sH22x", interface.encode(), 0x1001))
    outer = {}
    for number in (GRE,) if kind == "gre" else (4, 41):
        outer[number] = socket.socket(family, socket.SOCK_RAW, number)
        outer[number].bind((near, 0))
        # What is too long for the link goes in fragments.
        level, option = (41, MTU_DISCOVER6) if family == socket.AF_INET6 else (0, MTU_DISCOVER4)
        outer[number].setsockopt(level, option, 0)
    print("open", flush=True)
    sequence = 0
    while True:
        for ready in select.select([device, *outer.values()], [], [])[0]:
            if ready is device:
                packet = os.read(device, 65536)
                number = GRE if kind == "gre" else INSIDE[packet[0] >> 4][0]
                outer[number].sendto(gre(words, packet, sequence) if kind == "gre" else packet, (far, 0))
                sequence += 1
            else:
                octets = ready.recv(65536)
                octets = octets[(octets[0] & 15) * 4:] if family == socket.AF_INET else octets
                os.write(device, without_gre(octets) if kind == "gre" else octets)


def tunnel(here, there):
    """Carries the packets of the interface `tunnel` to another process, by sockets at these two paths."""
    device = os.open("/dev/net/tun", os.O_RDWR)
    fcntl.ioctl(device, 0x400454ca, struct.pack("16sH22x", b"tunnel", 0x1001))
    peer = socket.socket(socket.AF_UNIX, socket.SOCK_DGRAM)
    peer.bind(here)
    while not os.path.exists(there):
        time.sleep(0.05)
    print("open", flush=True)
    while True:
        for ready in select.select([device, peer], [], [])[0]:
            if ready is peer:
                os.write(device, peer.recv(65536))
            else:
                peer.sendto(os.read(device, 65536), there)


if __name__ == "__main__":
    words = {"join": join, "errors": errors, "fragments": fragments, "names": names, "oddities": oddities,
             "segments": segments, "carry": carry, "tunnel": tunnel}
    words[sys.argv[1]](*sys.argv[2:])
