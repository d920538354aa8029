"""How values are written: numbers, addresses, octets, fields, and the checksum that several layers verify."""
import functools


def be(octets):
    """The number of octets, the highest first."""
    return int.from_bytes(octets, "big")


def hexadecimal(octets):
    """Octets in a listing: two digits each, or `-` for none."""
    return octets.hex() or "-"


def dotted(octets):
    """An address of IPv4."""
    return ".".join(str(octet) for octet in octets)


def longest_zeros(groups):
    """Where the first longest run of zero groups stands, and how long it is; none is shorter than two."""
    best, best_len, at = 0, 1, 0
    while at < len(groups):
        end = at
        while end < len(groups) and groups[end] == 0:
            end += 1
        if end - at > best_len:
            best, best_len = at, end - at
        at = end + 1
    return best, best_len


def colons(octets):
    """An address of IPv6 (RFC 5952 section 4)."""
    groups = [be(octets[at:at + 2]) for at in range(0, 16, 2)]
    at, count = longest_zeros(groups)
    if count < 2:
        return ":".join("%x" % group for group in groups)
    front = ":".join("%x" % group for group in groups[:at])
    back = ":".join("%x" % group for group in groups[at + count:])
    return front + "::" + back


def address(octets):
    """An address of either version; one that is cut by its octets."""
    return dotted(octets) if len(octets) == 4 else colons(octets) if len(octets) == 16 else octets.hex()


def mac(octets):
    """A link-layer address."""
    return ":".join("%02x" % octet for octet in octets)


def name_text(octets):
    """A name of any octets without the zeros that pad it: a quotation mark and a backslash behind a backslash, other
    visible characters of ASCII as they are, and a space and every other octet by its digits."""
    return "".join("\\" + chr(octet) if octet in b'"\\' else chr(octet) if 32 < octet < 127 else "\\x%02x" % octet
                   for octet in octets.rstrip(b"\0"))


def endpoint(octets, port):
    """An address with its port, or alone where there is none (RFC 5952 section 6)."""
    if port is None:
        return address(octets)
    if len(octets) == 4:
        return "%s:%d" % (dotted(octets), port)
    return "[%s]:%d" % (colons(octets), port)


def truth(value):
    return "true" if value else "false"


def field(name, value):
    return "%s=%s" % (name, value)


@functools.lru_cache(maxsize=1024)
def date(days):
    """The year, the month and the day that stand so many days behind the first of January 1970."""
    year = 1970 + days // 146097 * 400
    days %= 146097
    while days >= (366 if is_leap(year) else 365):
        days -= 366 if is_leap(year) else 365
        year += 1
    months = [31, 29 if is_leap(year) else 28, 31, 30, 31, 30, 31, 31, 30, 31, 30, 31]
    month = 0
    while days >= months[month]:
        days -= months[month]
        month += 1
    return year, month + 1, days + 1


def is_leap(year):
    return year % 4 == 0 and (year % 100 != 0 or year % 400 == 0)


def time(nanoseconds):
    """A time in UTC (RFC 3339 section 5.6), with nine digits of a second."""
    seconds, part = divmod(nanoseconds, 10 ** 9)
    days, rest = divmod(seconds, 86400)
    clock = "%02d:%02d:%02d.%09dZ" % (rest // 3600, rest // 60 % 60, rest % 60, part)
    return "%04d-%02d-%02dT%s" % (date(days) + (clock,))


def word_sum(octets):
    """The sum of the words of two octets, the last of them filled up with a zero (RFC 1071)."""
    if len(octets) % 2:
        octets += b"\0"
    return sum(octets[0::2]) * 256 + sum(octets[1::2])


def is_good(octets, extra=0):
    """Whether octets have a good checksum, beside a pseudo header of this sum."""
    total = word_sum(octets) + extra
    return total != 0 and total % 65535 == 0


def pseudo_sum(source, destination, protocol, length):
    """The sum of a pseudo header (RFC 768, RFC 8200 section 8.1)."""
    if len(source) == 4:
        return word_sum(source) + word_sum(destination) + protocol + length % 65536
    return word_sum(source) + word_sum(destination) + protocol + length // 65536 + length % 65536
