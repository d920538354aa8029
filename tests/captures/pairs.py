#!/usr/bin/env python3
"""Which message answers which, written from the section "Pairs" of the manual of pcapdump: a packet is asked what its
messages answer, by the questions of the packets before it. As a program:

    pairs.py [--only KIND,..] [--strict] [FILE..]     the brief lines of packets, with what they answer

A question has a key: what its answer has in common with it. It is None of a message that asks nothing."""
import sys

sys.dont_write_bytecode = True

import dhcp  # noqa: E402
import dns  # noqa: E402
import zones  # noqa: E402
from frames import Refused  # noqa: E402
from items import Field  # noqa: E402
from text import address, be, colons, mac  # noqa: E402
from transport import udp_length  # noqa: E402

# So many questions wait, and so many to several hosts are kept behind their first answers.
MOST, MOST_ANSWERED = 2048, 64
MULTICAST_PORT = 5353
# The kinds whose questions go to several hosts, each of which may answer.
OF_SEVERAL = ("mdns", "llmnr", "nbns", "dhcp")
UNSPECIFIED = b"\0" * 16
# What is said of a question without an answer, and the types of DHCP that ask, with those that answer.
DISCOVER, REQUEST, INFORM, OFFER, ACK, NAK = 1, 3, 8, 2, 5, 6
ASKS, GIVES = {DISCOVER: "offer", REQUEST: "ack", INFORM: "ack"}, {OFFER: "offer", ACK: "ack", NAK: "ack"}


class Waiting:
    """A question that waits: the number and the time of the packet in which it was asked first, what is told of it
    where nothing answers it, and how often it was asked."""

    def __init__(self, number, nanoseconds, items):
        self.number = number
        self.nanoseconds = nanoseconds
        self.items = items
        self.tries = 1


class Answer:
    """What a message answers: the number of the packet with the question, and the time between the two, or None where
    one of them has none, or the answer that of an earlier moment."""

    def __init__(self, question, nanoseconds):
        self.number = question.number
        has_times = nanoseconds is not None and question.nanoseconds is not None
        self.after = nanoseconds - question.nanoseconds if has_times and nanoseconds >= question.nanoseconds else None

    def words(self):
        return " answers=%d" % self.number + ("" if self.after is None else " after=" + millis(self.after))


def millis(nanoseconds):
    """A time in milliseconds, cut to three digits behind the point."""
    return "%d.%03dms" % (nanoseconds // 10 ** 6, nanoseconds // 1000 % 1000)


class Pairs:
    """The questions that wait, in their order, those of several hosts that are answered, and how many were dropped."""

    def __init__(self):
        self.waiting = {}
        self.answered = {}
        self.dropped = 0

    def answers(self, shown, number, packet):
        """What each message of a packet answers, or None."""
        return [self.answer(shown, items, octets, number, packet) if is_there(items) else None
                for items, octets in zip(shown.messages, shown.octets)]

    def answer(self, shown, items, octets, number, packet):
        try:
            asked, answered, told = KEYS[shown.kind](shown, items, octets)
        except Refused:
            return None
        if asked is not None:
            self.ask((shown.kind,) + asked, number, packet, told)
            return None
        key = answered and (shown.kind,) + answered
        question = self.waiting.pop(key, None) or self.answered.get(key)
        if question and shown.kind in OF_SEVERAL:
            self.answered.setdefault(key, question)
            if len(self.answered) > MOST_ANSWERED:
                del self.answered[next(iter(self.answered))]
        return question and Answer(question, packet.nanoseconds)

    def ask(self, key, number, packet, told):
        self.answered.pop(key, None)
        if key in self.waiting:
            self.waiting[key].tries += 1
            return
        if len(self.waiting) == MOST:
            del self.waiting[next(iter(self.waiting))]
            self.dropped += 1
        self.waiting[key] = Waiting(number, packet.nanoseconds, told)

    def unanswered(self):
        """The brief lines of the questions without an answer."""
        lines = [[Field("question", of.number)] + of.items + [Field("tries", of.tries)] for of in self.waiting.values()]
        texts = ["unanswered %s\n" % " ".join(line for item in items for line in item.lines()) for items in lines]
        return "".join(texts) + ("unanswered dropped=%d\n" % self.dropped if self.dropped else "")


def is_there(items):
    """Whether a message is there that can be read."""
    return any(item.key == "checksum" for item in items)


def both(of):
    """The addresses of a question."""
    return [Field("src_addr", address(of.source)), Field("dst_addr", address(of.destination))]


# ---- what a message asks, what it answers, and what is told of it where nothing answers it

def names(shown, _, octets):
    message, of = message_octets(shown, octets), shown.datagram
    its_question = its_one_question(message, shown.kind)
    front, (source, destination) = (shown.is_tcp, be(message[:2]), key_of(message, its_question)), shown.ports
    forth = front + (of.source, source, destination)
    back = front + (of.destination, destination, source)
    told = [Field("kind", shown.kind)] + both(of)[:1]
    if shown.kind == "dns":
        forth, back, told = forth + (of.destination,), back + (of.source,), told + both(of)[1:]
    if shown.kind == "mdns" and MULTICAST_PORT == (destination if is_response(message) else source):
        return None, None, []
    if is_response(message):
        return None, back, []
    told += [Field("name", its_question.name(message, dns.ASKED_NAME)),
             Field("type", zones.type_text(its_question.kind))]
    return forth, None, told


def message_octets(shown, octets):
    """A message of DNS, with its whole header."""
    message = octets if shown.is_tcp else octets[8:udp_length(octets)]
    if len(message) < 12:
        raise Refused("short", None)
    return message


def is_response(message):
    return message[2] >= 0x80


def its_one_question(message, kind):
    """The question of a message that has one alone (RFC 9619)."""
    if be(message[4:6]) != 1:
        raise Refused("malformed", None)
    return dns.question(message, 12, kind)


def key_of(message, of):
    """What is asked: the name without the case of its letters, the type and the class."""
    return tuple(labels(message, of)), of.kind, of.class_number()


def labels(message, of):
    """The labels of the name of a question, in lower case."""
    return [label.lower() for label in zones.labels(message, *of.place, dns.ASKED_NAME)]


def netbios(shown, _, octets):
    message, of = message_octets(shown, octets), shown.datagram
    ident = be(message[:2])
    if is_response(message):
        return None, (ident, of.destination, shown.ports[1]), []
    # A query by its operation, of which a registration is none (RFC 1002 section 4.2.1.1).
    if message[2] & 0x78:
        return None, None, []
    return (ident, of.source, shown.ports[0]), None, (
        [Field("kind", "nbns")] + both(of)[:1] + [Field("transaction_id", ident)])


def lease(_, __, octets):
    message = octets[8:udp_length(octets)]
    of_type = dhcp.first_parts(message).get(dhcp.MESSAGE_TYPE, b"")
    if len(of_type) != 1:
        return None, None, []
    number = of_type[0]
    ident, client = be(message[4:8]), message[28:34]
    if number in ASKS:
        return (ASKS[number], ident, client), None, [
            Field("kind", "dhcp"), Field("client_hardware_address", mac(client)), Field("transaction_id", ident),
            Field("awaits", ASKS[number])]
    return None, (GIVES[number], ident, client) if number in GIVES else None, []


def icmp4(shown, _, octets):
    return echo(shown, octets, 8, 0)


def icmp6(shown, _, octets):
    of = shown.datagram
    if len(octets) >= 24 and octets[0] == 135 and of.source != UNSPECIFIED:
        return ("neighbor", octets[8:24], of.source), None, (
            [Field("kind", "neighbor")] + both(of)[:1] + [Field("target_addr", colons(octets[8:24]))])
    if len(octets) >= 24 and octets[0] == 136 and octets[4] & 0x40:
        return None, ("neighbor", octets[8:24], of.destination), []
    return echo(shown, octets, 128, 129)


def echo(shown, octets, request, reply):
    of = shown.datagram
    if len(octets) < 8:
        return None, None, []
    number = octets[4:8]
    if octets[0] == request and not is_group(of.destination):
        return (number, of.source, of.destination), None, [Field("kind", "echo")] + both(of) + [
            Field("ident", be(number[:2])), Field("seq_no", be(number[2:]))]
    return None, (number, of.destination, of.source) if octets[0] == reply else None, []


def is_group(its_address):
    return its_address[0] == 255 if len(its_address) == 16 else 224 <= its_address[0] <= 239


def nothing(_, __, ___):
    return None, None, []


KEYS = {
    "dns": names, "mdns": names, "llmnr": names, "nbns": netbios, "dhcp": lease, "icmp4": icmp4, "icmp6": icmp6,
    "igmp": nothing,
}


if __name__ == "__main__":
    import plain
    sys.exit(plain.main(["--pairs", "--brief"] + sys.argv[1:]))
