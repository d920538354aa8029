"""What pcapdump --json is to print of messages of ICMP that ask and answer, beside echoes, told by the fields that
tshark has of them; see contents.py."""

import re

from datagrams import payload_length
from patterns import additional, octets
from text import name_text


def refusal(packet, kind, number):
    """Why a message is refused, or None: it is not told by its fields, or its list is cut."""
    return unread(packet, kind, number) or ("short" if is_cut(packet, kind, number) else None)


def unread(packet, kind, number):
    """Why a message is not told by its fields, or None: it is short, its code is wrong, or it has wrong routers. Code
    16 is that of a mobility agent that routes no common traffic (RFC 5944 section 2.1)."""
    if payload_length(packet) < LEAST.get((kind, number), 8):
        return "short"
    if kind == "icmp6" or number in (42, 43):
        return None
    if packet.number("icmp.code") not in ((0, 16) if number == 9 else (0,)):
        return "malformed"
    return wrong_routers(packet) if number == 9 else None


def wrong_routers(packet):
    """RFC 1256 section 5.2."""
    count, words = packet.number("icmp.num_addrs"), packet.number("icmp.addr_entry_size")
    return "malformed" if not count or words < 2 else None


def is_cut(packet, kind, number):
    """Whether a message ends before its routers do, or within an address of a node."""
    if (kind, number) == ("icmp4", 9):
        words = packet.number("icmp.num_addrs") * packet.number("icmp.addr_entry_size")
        return payload_length(packet) < 8 + 4 * words
    if (kind, number) == ("icmp6", 140) and node_list(packet):
        return (payload_length(packet) - 16) % node_list(packet)[0] > 0
    return False


def cut_entry(label, count):
    """The entry of so many octets, where there are any."""
    return [{"entry": label, "data": octets(count), "refused": re.compile(".+")}] if count else []


# The octets that a message has at least.
LEAST = {("icmp4", 13): 20, ("icmp4", 14): 20, ("icmp4", 17): 12, ("icmp4", 18): 12, ("icmp6", 139): 16,
         ("icmp6", 140): 16}


# ---- ICMPv4

def ids(packet):
    return {"ident": packet.number("icmp.ident"), "seq_no": packet.number("icmp.seq")}


def timestamps(packet):
    """RFC 792."""
    times = {key: packet.number(f"icmp.{key}_timestamp") for key in ("originate", "receive", "transmit")}
    return {**ids(packet), **times, **additional(payload_length(packet) - 20)}


def mask(packet):
    """RFC 950."""
    return {**ids(packet), "mask": packet.text("icmp.address_mask"), **additional(payload_length(packet) - 12)}


def solicitation(packet):
    """RFC 1256."""
    return additional(payload_length(packet) - 8)


def advertisement(packet):
    """RFC 1256: entries of more than two words are read as well, which tshark does not."""
    count, words = packet.number("icmp.num_addrs"), packet.number("icmp.addr_entry_size")
    whole, behind = divmod(payload_length(packet) - 8, 4 * words)
    routers = [router(packet, at) if words == 2 else unread_router(packet.text("data.data"), at, words)
               for at in range(min(count, whole))]
    return {"lifetime": 1000 * packet.number("icmp.lifetime"),
            "routers": routers + cut_entry("router", behind if whole < count else 0),
            **additional(payload_length(packet) - 8 - 4 * words * count)}


def router(packet, at):
    return {"entry": "router", "addr": packet.text("icmp.router_address", at),
            "preference_level": packet.text("icmp.pref_level", at)}


def unread_router(text, at, words):
    its = bytes.fromhex(text)[4 * words * at:4 * words * (at + 1)]
    return {"entry": "router", "addr": ".".join(map(str, its[:4])),
            "preference_level": str(int.from_bytes(its[4:8], "big", signed=True)), "additional_data": its[8:].hex()}


# ---- both (RFC 8335)

def extended_request(packet, protocol, ident):
    """A request about an interface, which its only object tells."""
    of = protocol + ".ext.echo."
    return {"ident": packet.number(ident), "seq_no": packet.number(of + "seq"),
            "local": packet.text(of + "req.local") == "1", **interface(packet, payload_length(packet) - 8)}


def interface(packet, room):
    """What an object says of the interface by its C-Type, in a structure whose checksum is not wrong."""
    is_read = packet.has("icmp.ext.ctype") and "0" not in packet.all("icmp.ext.checksum.status")
    c_type = packet.number("icmp.ext.ctype") if is_read else 0
    if c_type == 1:
        return {"interface_name": name_text(packet.text("icmp.int_ident.name").encode())}
    if c_type == 2:
        return {"interface_index": packet.number("icmp.int_ident.index")}
    if c_type == 3:
        afi = packet.number("icmp.int_ident.afi")
        return {"interface_addr_family": afi,
                "interface_addr": packet.text("icmp.int_ident.ipv4" if afi == 1 else "icmp.int_ident.ipv6")}
    return {"data": octets(room), "data_refused": re.compile(".+")}


def extended_reply(packet, protocol, ident):
    """The kernel of Linux sends the structure of the request back, of which RFC 8335 has nothing."""
    of = protocol + ".ext.echo."
    bits = {key: packet.text(of + "rsp." + key) == "1" for key in ("active", "ipv4", "ipv6")}
    return {"ident": packet.number(ident), "seq_no": packet.number(of + "seq"),
            "state": packet.number(of + "rsp.state"), **bits, **additional(payload_length(packet) - 8)}


# ---- what is asked of a node (RFC 4620)

# The bits of flags that have names, for queries about addresses.
NODE_FLAGS = ((0x20, "global_scope"), (0x10, "site_local"), (0x08, "link_local"), (0x04, "compatible"), (0x02, "all"),
              (0x01, "truncated"))


def node(packet):
    qtype, bits, code = packet.number("icmpv6.ni.qtype"), packet.number("icmpv6.ni.flag"), packet.number("icmpv6.code")
    named = dict(NODE_FLAGS) if qtype in (3, 4) else {}
    told = {"qtype": qtype, "flags": [named.get(1 << at, "0x%04x" % (1 << at)) for at in range(15, -1, -1)
                                      if bits >> at & 1],
            "nonce": "%016x" % packet.number("icmpv6.ni.nonce")}
    return {**told, **(subject(packet, code) if packet.number("icmpv6.type") == 139 else answer(packet))}


def subject(packet, code):
    """The node that is asked about: its address, or the octets of its name."""
    for its_code, name in ((0, "icmpv6.ni.query.subject_ipv6"), (2, "icmpv6.ni.query.subject_ipv4")):
        if code == its_code and packet.has(name):
            return {"subject_addr": packet.text(name)}
    return {"data": name_octets(packet, "icmpv6.ni.query.subject_fqdn", "")}


# The octets of an address and its time to live, and the field that has the address, by the type of the query.
NODE_LISTS = {3: (20, "icmpv6.ni.reply.node_address"), 4: (8, "icmpv6.ni.reply.ipv4_address")}


def node_list(packet):
    """The row of a message that answers with addresses, or None."""
    return NODE_LISTS.get(packet.number("icmpv6.ni.qtype")) if packet.number("icmpv6.code") == 0 else None


def answer(packet):
    """Addresses, each with its time to live, or else octets: a name behind such a time."""
    if node_list(packet):
        width, name = node_list(packet)
        addresses = [{"entry": "address", "addr": text, "ttl": 1000 * time} for text, time in zip(
            packet.all(name), packet.numbers("icmpv6.ni.reply.node_ttl"))]
        return {"addresses": addresses + cut_entry("address", (payload_length(packet) - 16) % width)}
    time = "%08x" % packet.number("icmpv6.ni.reply.node_ttl") if packet.has("icmpv6.ni.reply.node_ttl") else ""
    return {"data": name_octets(packet, "icmpv6.ni.reply.node_name", time)}


def name_octets(packet, field, front):
    """All octets behind the fields, which begin with a name."""
    text = packet.text(field) if packet.has(field) else ""
    front += "".join("%02x" % len(label) + label.encode().hex() for label in text.split(".") if label)
    return octets(payload_length(packet) - 16, front)


# ---- all of them

# What reads each type.
READERS = {
    "icmp4": {9: advertisement, 10: solicitation, 13: timestamps, 14: timestamps, 17: mask, 18: mask,
              42: lambda packet: extended_request(packet, "icmp", "icmp.ident"),
              43: lambda packet: extended_reply(packet, "icmp", "icmp.ident")},
    "icmp6": {139: node, 140: node, 160: lambda packet: extended_request(packet, "icmpv6", "icmpv6.echo.identifier"),
              161: lambda packet: extended_reply(packet, "icmpv6", "icmpv6.echo.identifier")},
}


def query(packet, kind, number):
    """The members of a message that is no error and no echo; of a type that is not known by its octets."""
    rest = {"rest": octets(payload_length(packet) - 4)}
    if number not in READERS[kind]:
        return rest
    why = {"refused": re.compile(".+")} if refusal(packet, kind, number) else {}
    return {**(rest if unread(packet, kind, number) else READERS[kind][number](packet)), **why}
