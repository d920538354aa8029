"""Names and data of records, as a zone file has them (RFC 1035 section 5.1)."""
import base64

from frames import Refused
from text import be, colons, dotted

CLASSES = {1: "IN", 3: "CH", 4: "HS", 254: "NONE", 255: "ANY"}
TYPES = {
    1: "A", 2: "NS", 3: "MD", 4: "MF", 5: "CNAME", 6: "SOA", 7: "MB", 8: "MG", 9: "MR", 12: "PTR", 13: "HINFO",
    14: "MINFO", 15: "MX", 16: "TXT", 17: "RP", 18: "AFSDB", 21: "RT", 24: "SIG", 26: "PX", 28: "AAAA", 30: "NXT",
    33: "SRV", 35: "NAPTR", 36: "KX", 39: "DNAME", 41: "OPT", 43: "DS", 44: "SSHFP", 46: "RRSIG", 47: "NSEC",
    48: "DNSKEY", 50: "NSEC3", 52: "TLSA", 64: "SVCB", 65: "HTTPS", 99: "SPF", 251: "IXFR", 252: "AXFR", 255: "ANY",
    257: "CAA",
}
A, SOA, MX, TXT, AAAA, SRV, OPT = 1, 6, 15, 16, 28, 33, 41
# The types whose data are a name: NS, MD, MF, CNAME, MB, MG, MR, PTR and DNAME.
NAMED = (2, 3, 4, 5, 7, 8, 9, 12, 39)
INTERNET = 1
# The classes of records without data in an update (RFC 2136 section 2.5).
UPDATED = (254, 255)
# The bit of a class that multicast DNS takes for itself.
TOP = 0x8000


class Part:
    """A part of a message: the reason under which a check of it that fails is counted, and the words in front of the
    phrase of that check."""

    def __init__(self, reason, words=""):
        self.reason = reason
        self.words = words

    def accept(self, is_so, phrase):
        if not is_so:
            raise Refused(self.reason, self.words + phrase)


DATA, NAME_IN_DATA = Part("malformed", "the data: "), Part("name", "a name in the data: ")
BEHIND_FIRST_NAME = Part("malformed", "the data: behind the first name: ")


# ---- names

def label_end(octets, at, end, part):
    """Where the label ends that begins there. The zero octet that ends a name counts as one, and so does a pointer."""
    part.accept(at < end, "the name is cut")
    length = octets[at]
    part.accept(length < 64 or length >= 192, "a label that begins with byte %d is not read" % length)
    behind = at + (2 if length >= 192 else 1 + length)
    part.accept(behind <= end, "the name is cut")
    return behind


def name_end(octets, at, end, part):
    """Where a name ends in its own place: behind whole labels and a zero octet or a pointer, which is not followed."""
    while True:
        behind = label_end(octets, at, end, part)
        if octets[at] == 0 or octets[at] >= 192:
            return behind
        at = behind


def labels(octets, at, end, part):
    """The labels of a name. A pointer leads to what stands before the place that the last one led to, and the first one
    anywhere in the message; what is read there ends before that place too."""
    found, size, below, pointers = [], 1, len(octets), 0
    while True:
        behind = label_end(octets, at, end, part)
        length = octets[at]
        if length == 0:
            break
        if length >= 192:
            place = be(octets[at:behind]) % 0x4000
            part.accept(place < below, "a pointer to place %d leads nowhere or round" % place)
            pointers += 1
            part.accept(pointers <= 127, "the name follows more than 127 pointers")
            at, end, below = place, below, place
            continue
        found.append(octets[at + 1:behind])
        size += 1 + length
        # The limit of RFC 1035 section 2.3.4.
        part.accept(size <= 255, "the name has more than 255 octets")
        at = behind
    return found


def character(octet):
    if chr(octet) in '"$().;@\\':
        return "\\" + chr(octet)
    return chr(octet) if 33 <= octet <= 126 else "\\%03d" % octet


def label(octets):
    return "".join(map(character, octets))


def name(octets, at, end, part, other_text=None):
    """The text of a name; `other_text` gives that of another form, or None."""
    found = labels(octets, at, end, part)
    other = other_text and other_text(found, label)
    return other or "".join(label(octets) + "." for octets in found) or "."


# ---- data of records

def class_text(number):
    return CLASSES.get(number, "CLASS%d" % number)


def type_text(number):
    return TYPES.get(number, "TYPE%d" % number)


def generic_text(data):
    return " ".join(["\\#", str(len(data))] + ([data.hex()] if data else []))


def record_data(octets, of, of_class):
    """The data of a record in a zone file (RFC 1035 section 5.1)."""
    start, end = of.start, of.end
    data = octets[start:end]
    if not data and of_class in UPDATED:
        return "\\# 0"
    if of.kind == A and of_class == INTERNET:
        DATA.accept(len(data) == 4, "the address has other than 4 bytes")
        return dotted(data)
    if of.kind == AAAA and of_class == INTERNET:
        DATA.accept(len(data) == 16, "the address has other than 16 bytes")
        return colons(data)
    if of.kind in NAMED:
        return last_name(octets, start, end)
    if of.kind in (MX, SRV):
        count = 1 if of.kind == MX else 3
        DATA.accept(len(data) >= 2 * count, "the numbers in front of the name are cut")
        numbers = [str(be(data[2 * i:2 * i + 2])) for i in range(count)]
        return " ".join(numbers + [last_name(octets, start + 2 * count, end)])
    if of.kind == SOA:
        return authority(octets, start, end)
    if of.kind == TXT:
        return " ".join(strings(data))
    if of.kind in FORMS:
        return fields(octets, start, end, *FORMS[of.kind])
    return generic_text(data)


def last_name(octets, start, end):
    """A name that fills the data."""
    DATA.accept(name_end(octets, start, end, DATA) == end, "bytes stand behind the name")
    return name(octets, start, end, NAME_IN_DATA)


def authority(octets, start, end):
    """Two names, and five numbers (RFC 1035 section 3.3.13). No pointer is followed before all three stand there."""
    second = name_end(octets, start, end, DATA)
    numbers = name_end(octets, second, end, BEHIND_FIRST_NAME)
    DATA.accept(end - numbers == 20, "the numbers behind the names have other than 20 bytes")
    both = [name(octets, start, second, NAME_IN_DATA), name(octets, second, numbers, NAME_IN_DATA)]
    return " ".join(both + [str(be(octets[numbers + at:numbers + at + 4])) for at in range(0, 20, 4)])


def strings(data):
    """Strings in quotes, one at least (RFC 1035 section 3.3.14)."""
    DATA.accept(data, "there is no string")
    found = []
    while data:
        text, data = first_string(data)
        found.append(text)
    return found


def first_string(data):
    """The string at the front of the data, in quotes, and what stands behind it."""
    DATA.accept(data and len(data) >= 1 + data[0], "a string is cut")
    return '"%s"' % "".join(map(string_character, data[1:1 + data[0]])), data[1 + data[0]:]


def string_character(octet):
    if chr(octet) in '"\\':
        return "\\" + chr(octet)
    return chr(octet) if 32 <= octet <= 126 else "\\%03d" % octet


# ---- data with fields in front of one name or two and behind them

def no_numbers(data):
    return [], data


def take_numbers(data, *sizes):
    """Numbers of so many octets each at the front of the data, and what stands behind them."""
    DATA.accept(len(data) >= sum(sizes), "the numbers in front of the name are cut")
    found = []
    for size in sizes:
        found.append(be(data[:size]))
        data = data[size:]
    return found, data


def one_number(data):
    found, data = take_numbers(data, 2)
    return [str(found[0])], data


def rule(data):
    """An order, a preference, the flags, the services and the regular expression (RFC 3403 section 4.1)."""
    found, data = take_numbers(data, 2, 2)
    words = [str(number) for number in found]
    for _ in range(3):
        text, data = first_string(data)
        words.append(text)
    return words, data


def signed(data):
    """What a signature is of (RFC 2535 section 4.1); times are seconds since 1970 (RFC 4034 section 3.2)."""
    (covered, *others), data = take_numbers(data, 2, 1, 1, 4, 4, 4, 2)
    return [type_text(covered)] + [str(number) for number in others], data


def nothing(data):
    DATA.accept(not data, "bytes stand behind the name")
    return []


def signature(data):
    return [base64.b64encode(data).decode()]


def one_map(data):
    """The types of a map of the first 128 of them. The bit of type 0 tells of another form (RFC 2535 section 5.2)."""
    DATA.accept(len(data) <= 16 and not (data and data[0] & 0x80), "the type bit maps are malformed")
    return types_of_map(0, data)


def all_maps(data):
    """The types of maps, each behind the upper octet of its types and its length (RFC 4034 section 4.1.2)."""
    found = []
    while data:
        is_whole = len(data) >= 2 and 1 <= data[1] <= 32 and len(data) >= 2 + data[1]
        DATA.accept(is_whole, "the type bit maps are malformed")
        found += types_of_map(256 * data[0], data[2:2 + data[1]])
        data = data[2 + data[1]:]
    return found


def types_of_map(first, octets):
    return [type_text(first + at) for at in range(8 * len(octets)) if octets[at // 8] & 0x80 >> at % 8]


# Of each type what stands in front of the names, how many names there are, and what stands behind them.
FORMS = {
    14: (no_numbers, 2, nothing),  # MINFO (RFC 1035 section 3.3.7)
    17: (no_numbers, 2, nothing),  # RP (RFC 1183 section 2.2)
    18: (one_number, 1, nothing),  # AFSDB (RFC 1183 section 1)
    21: (one_number, 1, nothing),  # RT (RFC 1183 section 3.3)
    24: (signed, 1, signature),  # SIG (RFC 2535 section 4.1)
    26: (one_number, 2, nothing),  # PX (RFC 2163 section 4)
    30: (no_numbers, 1, one_map),  # NXT (RFC 2535 section 5.2)
    35: (rule, 1, nothing),  # NAPTR (RFC 3403 section 4.1)
    36: (one_number, 1, nothing),  # KX (RFC 2230 section 3)
    47: (no_numbers, 1, all_maps),  # NSEC (RFC 4034 section 4.1)
}


def fields(octets, start, end, front, count, behind):
    """Data of such a form. No pointer is followed before all of it stands there."""
    words, left = front(octets[start:end])
    ends = [end - len(left)]
    for part in (DATA, BEHIND_FIRST_NAME)[:count]:
        ends.append(name_end(octets, ends[-1], end, part))
    last = behind(octets[ends[-1]:end])
    return " ".join(words + [name(octets, *place, NAME_IN_DATA) for place in zip(ends, ends[1:])] + last)
