"""What wiredump prints of a line: its manual and the RFCs again."""
import re

import zones
from frames import Refused
from listings import (ERRORS4, ERRORS6, HEADERS6, LISTENERS, dhcp, hop_by_hop, icmp4, icmp6, igmp, neighbor_options,
                      number, packet6, prefix, refuse, unknown)
from text import be, dotted, field, hexadecimal

# A word of more octets makes a bad line.
MOST = 131070
PACKET = re.compile(rb"-|(?:[0-9a-fA-F]{2})+")
ADDRESS = re.compile(rb"[0-9a-fA-F]{32}")
OFFSET = re.compile(rb"0*([0-9]{1,6})")


class Bad(Exception):
    """A line of no command."""


def printed(line):
    """What a line without its LF prints, and whether it is no bad one."""
    words = [word for word in line.removesuffix(b"\r").split(b" ") if word]
    try:
        return "".join(text + "\n" for text in listing(words) if words), True
    except Refused:
        return "refused\n", True
    except Bad:
        return "bad line\n", False


def listing(words):
    if not words:
        return []
    if any(len(word) > MOST for word in words):
        raise Bad
    packet = octets(words[-1], PACKET)
    if len(words) == 2 and words[0] in COMMANDS:
        return COMMANDS[words[0]](packet)
    if len(words) == 3 and words[0] == b"name":
        offset = OFFSET.fullmatch(words[1])
        if not offset or int(offset[1]) > len(packet):
            raise Bad
        return name(packet, int(offset[1]))
    if len(words) == 4 and words[0] == b"icmp6":
        return icmp6(octets(words[1], ADDRESS), octets(words[2], ADDRESS), packet, error6)
    raise Bad


def octets(word, form):
    if not form.fullmatch(word):
        raise Bad
    return bytes.fromhex(word.decode().strip("-"))


def error4(kind, message):
    """A quote holds its own total length, and eight octets behind its header (RFC 792). Its version is not looked at,
    and the length of its header may be too short for one."""
    quote = message[8:]
    refuse(kind not in (3, 11) or len(quote) < 20)
    header_len, total_len = quote[0] % 16 * 4, be(quote[2:4])
    data = quote[header_len:]
    refuse(total_len < header_len or len(quote) < total_len or len(data) < 8)
    return [ERRORS4[kind], number("reason", message, 1, 1),
            field("header.src_addr", dotted(quote[12:16])), field("header.dst_addr", dotted(quote[16:20])),
            number("header.next_header", quote, 9, 1), field("header.payload_len", len(data)),
            number("header.hop_limit", quote, 8, 1), field("data", hexadecimal(data))]


def error6(kind, message):
    """A quote holds a header (RFC 4443 section 3), whose version and length are not looked at."""
    refuse(len(message) < 48 or kind == 2 and message[1])
    lines = [ERRORS6[kind], number("mtu", message, 4, 4) if kind == 2 else number("reason", message, 1, 1)]
    return lines + ([number("pointer", message, 4, 4)] if kind == 4 else []) + packet6(message[8:])


def mld(message):
    """A message of multicast listener discovery, whatever its code and its checksum."""
    refuse(not message or message[0] not in LISTENERS or len(message) < HEADERS6[message[0]])
    return LISTENERS[message[0]](message)


def neighbor_option(packet):
    """The option at the front of a packet."""
    refuse(len(packet) < 2)
    found = neighbor_options(packet[:8 * packet[1]], 0)
    refuse(not found)
    (kind, block), = found.items()
    if kind in (1, 2):
        return [field("SourceLinkLayerAddr" if kind == 1 else "TargetLinkLayerAddr", hexadecimal(block[2:10]))]
    if kind == 3:
        return ["PrefixInformation"] + prefix(block)
    if kind == 4:
        return ["RedirectedHeader"] + packet6(block[8:48 + be(block[12:14])])
    return [number("Mtu", block, 4, 4)] if kind == 5 else unknown(block)


NAME = zones.Part("name")


def question(packet):
    """A question of the Internet's class (RFC 1035 section 4.1.2)."""
    end = zones.name_end(packet, 0, len(packet), NAME)
    refuse(len(packet) < end + 4 or be(packet[end + 2:end + 4]) != zones.INTERNET)
    return [field("name", packet[:end].hex()), number("type_", packet, end, 2), field("rest", len(packet) - end - 4)]


def name(message, at):
    """The labels of a name, and how many of them and of pointers were passed. A pointer leads to what precedes the
    place that the last one led to, and the first one anywhere."""
    lines, steps, end, below, ending = [], 0, len(message), len(message), "error"
    try:
        while ending == "error":
            behind = zones.label_end(message, at, end, NAME)
            if message[at] == 0:
                ending = "end"
            elif message[at] < 64:
                lines.append(message[at + 1:behind].hex())
                at, steps = behind, steps + 1
            else:
                place = be(message[at:behind]) % 0x4000
                refuse(place >= below)
                at, end, below, steps = place, below, place, steps + 1
    except Refused:
        pass
    return lines + ["%s steps=%d" % (ending, steps)]


COMMANDS = {
    b"hbh": hop_by_hop, b"icmp4": lambda packet: icmp4(packet, error4), b"igmp": igmp, b"mld": mld,
    b"ndopt": neighbor_option, b"dhcp": dhcp, b"question": question,
}
