"""What pcapdump --json is to print of a message of DNS, multicast DNS, LLMNR or the NetBIOS name service, told by the
fields that tshark has of it; see expected.py."""

import re
import socket

TYPES = {1: "A", 2: "NS", 3: "MD", 4: "MF", 5: "CNAME", 6: "SOA", 7: "MB", 8: "MG", 9: "MR", 12: "PTR", 13: "HINFO",
         14: "MINFO", 15: "MX", 16: "TXT", 17: "RP", 18: "AFSDB", 21: "RT", 24: "SIG", 26: "PX", 28: "AAAA",
         30: "NXT", 33: "SRV", 35: "NAPTR", 36: "KX", 39: "DNAME", 43: "DS", 44: "SSHFP", 46: "RRSIG", 47: "NSEC",
         48: "DNSKEY", 50: "NSEC3", 52: "TLSA", 64: "SVCB", 65: "HTTPS", 99: "SPF", 251: "IXFR", 252: "AXFR",
         255: "ANY", 257: "CAA"}
CLASSES = {1: "IN", 3: "CH", 4: "HS", 254: "NONE", 255: "ANY"}
FLAGS = ((0x8000, "qr"), (0x0400, "aa"), (0x0200, "tc"), (0x0100, "rd"), (0x0080, "ra"), (0x0040, "z"), (0x0020, "ad"),
         (0x0010, "cd"))
LLMNR_FLAGS = ((0x8000, "qr"), (0x0400, "c"), (0x0200, "tc"), (0x0100, "t"), (0x0080, "z1"), (0x0040, "z2"),
               (0x0020, "z3"), (0x0010, "z4"))
OPT, NSEC = 41, 47

# The classes of records without data in an update (RFC 2136 section 2.5).
UPDATED = (254, 255)

# A character of a label: those that a zone file gives a meaning stand behind a backslash, and bytes that are no visible
# character are three digits behind one.
A_CHARACTER = r'(\\\d{3}|\\["$().;@\\]|(?!["$().;@\\])[!-~])'
# A name, a number, and a string in quotes, as pcapdump prints them: a name is one word.
A_NAME, A_NUMBER, A_STRING = rf"(\.|({A_CHARACTER}+\.)+)", r"\d+", r'"([^"\\]|\\.)*"'
# A type.
A_TYPE = r"[A-Z][A-Z0-9]*"

# The data of types of which the tables have no fields: their shape alone.
SHAPES = {
    **dict.fromkeys((3, 4, 7, 8, 9, 39), A_NAME), **dict.fromkeys((14, 17), f"{A_NAME} {A_NAME}"),
    **dict.fromkeys((18, 21, 36), f"{A_NUMBER} {A_NAME}"), 26: f"{A_NUMBER} {A_NAME} {A_NAME}",
    24: f"{A_TYPE}( {A_NUMBER}){{6}} {A_NAME} [A-Za-z0-9+/]*={{0,2}}", 30: f"{A_NAME}( {A_TYPE})*",
    35: f"{A_NUMBER} {A_NUMBER}( {A_STRING}){{3}} {A_NAME}",
}

# The types whose data pcapdump tells, and OPT, which is no record of the zone.
TOLD = (1, 2, 5, 6, 12, 15, 16, 28, 33, OPT, NSEC, *SHAPES)

# The sections of records, and what tshark calls the numbers of their records, in updates as well (RFC 2136).
SECTIONS = (("answer", "answers", "prerequisites"), ("authority", "auth_rr", "updates"), ("additional", "add_rr"))

# Why there is no name: no label begins with a byte of 64 to 191.
NO_NAME = r"the name is cut|a label that begins with byte (6[4-9]|[7-9]\d|1[0-8]\d|19[01]) is not read"
# Why there is no question or record where one should begin; of a question no data are cut.
NO_RECORD = NO_NAME + "|the fields behind the name are cut|the data is cut"
OCTETS = re.compile("([0-9a-f]{2})*")


class Name(str):
    """A name that is compared as its characters are, without the backslashes of a zone file."""

    def agrees(self, found):
        return re.sub(r"\\(\d{3}|.)", character, found) == self


def character(escape):
    return chr(int(escape[1])) if escape[1].isdigit() else escape[1]


class Data:
    """Data of a record as a pattern, of the text as it is or without the backslashes of names."""

    def __init__(self, pattern):
        self.pattern = pattern

    def agrees(self, found):
        plain = re.sub(r"\\(\d{3}|.)", character, found) if not found.startswith("\\#") else found
        return any(re.fullmatch(self.pattern, text) for text in (found, plain))

    def __repr__(self):
        return repr(self.pattern)


def name(text):
    """A name: tshark writes a label's characters as they are, and no last dot."""
    return Name("." if text == "<Root>" else text + ".")


def hexadecimal(address):
    return socket.inet_pton(socket.AF_INET6, address).hex()


def type_name(number):
    return TYPES.get(number, f"TYPE{number}")


def class_name(number):
    return CLASSES.get(number, f"CLASS{number}")


def string(text):
    return '"' + text.replace("\\", "\\\\").replace('"', '\\"') + '"'


class Records:
    """The records of a message: tshark has a list for each field, which has those that have it, in their order."""

    def __init__(self, packet):
        self.packet = packet
        self.lists = {key: list(values) for key, values in packet.fields.items() if key.startswith("dns.")}

    def next(self, key):
        return self.lists["dns." + key].pop(0)

    def next_text(self):
        """The next string of TXT; tshark may leave out one that is empty."""
        count, texts = int(self.next("txt.length")), self.lists.get("dns.txt", [])
        return texts.pop(0) if texts and (count > 0 or texts[0] == "") else ""

    def owner(self, number):
        """The name of a record. That of SRV stands in three parts, where it has them."""
        if number == 33 and self.lists.get("dns.srv.name"):
            parts = [self.next(key) for key in ("srv.service", "srv.proto", "srv.name") if self.lists.get("dns." + key)]
            return name(".".join(parts))
        return name(self.next("resp.name"))

    def type(self):
        return int(self.next("resp.type"))

    def types_of_data(self):
        """Takes off the types that a record of NSEC has in its data, so that there is one for each record that is
        left. tshark has them in the list of the types of records, and nothing of the maps or their lengths, so they
        can't be bounded by the record: this takes it that there is one NSEC in a message at the most. Of two, the first
        would take the types of both, and the message would be told as a difference."""
        types, found = self.lists["dns.resp.type"], []
        names_left = len(self.lists.get("dns.resp.name", [])) + min(types.count("33"), len(
            self.lists.get("dns.srv.name", [])))
        while len(types) > names_left:
            found.append(int(types.pop(0)))
        return found

    def data(self, number, its_class, length):
        """A pattern of a record's data."""
        forms = {1: ("a",), 28: ("aaaa",), 2: ("ns",), 5: ("cname",), 12: ("ptr.domain_name",),
                 15: ("mx.preference", "mx.mail_exchange"),
                 33: ("srv.priority", "srv.weight", "srv.port", "srv.target"),
                 6: ("soa.mname", "soa.rname", "soa.serial_number", "soa.refresh_interval", "soa.retry_interval",
                     "soa.expire_limit", "soa.minimum_ttl")}
        are_names = ("ns", "cname", "ptr.domain_name", "mx.mail_exchange", "srv.target", "soa.mname", "soa.rname")
        if length == 0 and its_class in UPDATED:
            return re.escape("\\# 0")
        if number == 16:
            words = []
            while length > 0:
                length -= 1 + int(self.lists["dns.txt.length"][0])
                words.append(string(self.next_text()))
            return re.escape(" ".join(words))
        if number in SHAPES:
            return SHAPES[number]
        if number in forms and (number not in (1, 28) or its_class == 1):
            return re.escape(" ".join(name(self.next(key)) if key in are_names else self.next(key)
                                      for key in forms[number]))
        return re.escape(f"\\# {length}") + (" [0-9a-f]{%d}" % (2 * length) if length else "")

    def options(self, length):
        """What an OPT record says."""
        bits = int(self.next("resp.z"), 0)
        told = {"udp_size": int(self.next("rr.udp_payload_size"), 0),
                "extended_rcode": int(self.next("resp.ext_rcode"), 0),
                "version": int(self.next("resp.edns0_version")), "flags": ["do"] if bits & 0x8000 else [],
                "options": []}
        while length > 0:
            code, count, data = self.next("opt.code"), int(self.next("opt.len")), self.next("opt.data")
            told["options"].append(re.compile(f"({code}|[a-z][a-z0-9-]+):{data if count else ''}"))
            length -= 4 + count
        return {**told, "reserved_flags": bits % 0x8000} if bits % 0x8000 else told

    def entry(self, section):
        """The next record."""
        number, length = self.type(), int(self.next("resp.len"))
        owner = self.owner(number)
        types = self.types_of_data() if number == NSEC else []
        front = {"section": section, "name": owner}
        if number == OPT:
            return {**front, "type": "OPT", **self.options(length)}
        is_multicast = "dns.resp.cache_flush" in self.lists
        is_flushed = is_multicast and self.next("resp.cache_flush") == "1"
        its_class, ttl = int(self.next("resp.class"), 0), int(self.next("resp.ttl"))
        if number == NSEC and length > 0:
            # In multicast DNS the next name is the record's own (RFC 6762 section 6.1).
            data = re.escape(owner) if is_multicast else A_NAME
            data += re.escape("".join(" " + type_name(its_type) for its_type in types))
        else:
            data = self.data(number, its_class, length)
        told = {**front, "ttl": ttl, "class": class_name(its_class), "type": type_name(number), "data": Data(data)}
        return {**told, "cache_flush": True} if is_flushed else told


def questions(packet):
    bits = packet.all("dns.qry.qu") or ["0"] * len(packet.all("dns.qry.name"))
    for text, number, its_class, bit in zip(packet.all("dns.qry.name"), packet.numbers("dns.qry.type"),
                                            packet.numbers("dns.qry.class"), bits):
        told = {"section": "question", "name": name(text), "class": class_name(its_class), "type": type_name(number)}
        yield {**told, "unicast_response": True} if bit == "1" else told


def header(packet, protocol, flags):
    word = packet.number(protocol + ".flags")
    return {"transaction_id": packet.number(protocol + ".id"), "flags": [text for bit, text in flags if word & bit],
            "opcode": word >> 11 & 15, "rcode": word & 15}


def total(packet, names_of):
    """The sum of the counts that tshark calls by these names."""
    return sum(number for count in names_of for number in packet.numbers("dns.count." + count))


def sections(packet):
    """The section of each record, in turn."""
    return [section for section, *names_of in SECTIONS for _ in range(total(packet, names_of))]


def broken(section):
    """Where a question or record does not begin: the last entry."""
    return {"section": section, "name": None, "octets": OCTETS, "refused": re.compile(NO_RECORD)}


def message(packet, missing):
    """The members of a message over UDP."""
    if packet.number("udp.length") - 8 - missing < 12:
        return {"refused": "fewer than 12 bytes", "octets": OCTETS}
    return members(packet, Records(packet))


def members(packet, records):
    """The members of a message. One that ends too early has a last entry that says so; behind it tshark tells
    nothing."""
    flags = LLMNR_FLAGS if "llmnr" in packet.protocols else FLAGS
    entries = list(questions(packet))
    told = {**header(packet, "dns", flags), "entries": entries}
    if len(entries) < total(packet, ("queries", "zones")):
        entries.append(broken("question"))
        return told
    for section in sections(packet):
        try:
            entries.append(records.entry(section))
        except LookupError:
            # The data of the last one may be there in part, or there is none.
            entries.append(broken(section))
            break
    return told


def messages_over_tcp(packet):
    """The members of each message of a segment of TCP. Their fields stand one behind the other in the lists."""
    records, start = Records(packet), 0
    for at in range(len(packet.all("dns.length"))):
        end = start + packet.number("dns.count.queries", at)
        its = {key: [values[at]] for key, values in packet.fields.items()
               if key in ("dns.id", "dns.flags") or key.startswith("dns.count.")}
        its.update((key, values[start:end]) for key, values in packet.fields.items() if key.startswith("dns.qry."))
        yield members(type(packet)({**packet.fields, **its}), records)
        start = end


# ---- the NetBIOS name service (RFC 1002)

NETBIOS_FLAGS = ((0x8000, "qr"), (0x0400, "aa"), (0x0200, "tc"), (0x0100, "rd"), (0x0080, "ra"), (0x0040, "z1"),
                 (0x0020, "z2"), (0x0010, "b"))
NETBIOS_TYPES = {10: "NULL", 32: "NB", 33: "NBSTAT"}
NODES = ("b-node", "p-node", "m-node", "h-node")
STATES = ((0x1000, " deregister"), (0x0800, " conflict"), (0x0400, " active"), (0x0200, " permanent"))


def netbios_name(text):
    """A name: tshark has an octet of zero as the last one, and what it is of in words behind it."""
    front, last, scope = re.fullmatch(r"(.*)<([0-9a-f]{2})>(\..*)?", text.split(" (")[0]).groups()
    return Name("%s<%s>%s" % (front.replace("<00>", "\0").rstrip(" "), last, scope or ""))


def node(word):
    return ("group " if word & 0x8000 else "unique ") + NODES[word >> 13 & 3]


def netbios(packet, missing):
    """The members of a message of the NetBIOS name service."""
    told = {**header(packet, "nbns", NETBIOS_FLAGS), "entries": []}
    names, types, classes = packet.all("nbns.name"), packet.numbers("nbns.type"), packet.numbers("nbns.class")
    ttls, words, addresses = (list(packet.all("nbns." + key)) for key in ("ttl", "nb_flags", "addr"))
    counts = [packet.number("nbns.count." + key) for key in ("queries", "answers", "auth_rr", "add_rr")]
    kinds = [section for section, count in zip(("question", "answer", "authority", "additional"), counts)
             for _ in range(count)]
    for section, name_of, number, its_class in zip(kinds, names, types, classes):
        front = {"section": section, "name": netbios_name(name_of)}
        its = {"class": class_name(its_class), "type": NETBIOS_TYPES.get(number, type_name(number))}
        if section == "question":
            told["entries"].append({**front, **its})
            continue
        record = {**front, "ttl": int(ttls.pop(0)), **its}
        if number == 32:
            record["data"] = [f"{node(int(words.pop(0), 0))} {addresses.pop(0)}"]
        elif number == 33:
            # Of these names tshark leaves out what they are of.
            record["data"] = [re.compile(re.escape(text.rstrip(" ")) + "<[0-9a-f]{2}> " + node(int(word, 0)) + "".join(
                state for bit, state in STATES if int(word, 0) & bit))
                for text, word in zip(packet.all("nbns.netbios_name"), packet.all("nbns.name_flags"))]
            record["statistics"] = re.compile(packet.text("nbns.unit_id").replace(":", "") + "([0-9a-f]{2})*")
        else:
            record["data"] = re.compile(r"\\# \d+( ([0-9a-f]{2})+)?")
        told["entries"].append(record)
    return told
