"""Datagrams that come in fragments, and are put together (RFC 791 section 3.2, RFC 8200 section 4.5, RFC 5722)."""
from frames import Refused
from ip import Datagram, Fragment, pass_extensions, whole

# So many datagrams are kept at the most, and of each so many fragments.
MOST_DATAGRAMS = 64
MOST_FRAGMENTS = 256
# So many octets are put together at the most, without those of the headers in front, which are not counted.
MOST_OCTETS = 65535


def refuse(why):
    raise Refused("fragment", "a fragment: " + why)


class Part:
    """A fragment that was kept, and the number of its packet."""

    def __init__(self, number, fragment):
        self.number = number
        self.fragment = fragment
        self.start = fragment.offset
        self.end = fragment.offset + len(fragment.alone.payload)

    def is_same(self, other):
        """Whether both say the same of the datagram."""
        return self.said() == other.said()

    def said(self):
        of = self.fragment
        return of.offset, of.more, of.alone.protocol, of.alone.payload

    def overlaps(self, other):
        return self.start < other.end and other.start < self.end

    def contradicts(self, other):
        """Whether one is the last, and the other ends behind it or is another last one."""
        one, two = (self, other) if not self.fragment.more else (other, self)
        return not one.fragment.more and (two.end > one.end or not two.fragment.more)


class Kept:
    """What is kept of a datagram; None where its fragments are refused."""

    def __init__(self):
        self.parts = []

    def accept(self, part):
        """Keeps a fragment, once; or refuses all of the datagram."""
        if self.parts is None:
            refuse("a datagram that was discarded")
        if any(part.is_same(other) for other in self.parts):
            return
        why = None
        if any(part.overlaps(other) for other in self.parts):
            why = "bytes that another fragment has"
        elif any(part.contradicts(other) for other in self.parts):
            why = "bytes past the end of the datagram"
        elif len(self.parts) == MOST_FRAGMENTS:
            why = "more fragments than are kept"
        if why:
            self.parts = None
            refuse(why)
        self.parts = sorted(self.parts + [part], key=lambda kept: kept.start)

    def is_whole(self):
        end = 0
        for part in self.parts:
            if part.start != end:
                return False
            end = part.end
        return not self.parts[-1].fragment.more


class Joined:
    """A datagram that was put together, and the numbers of the packets with its fragments."""

    def __init__(self, parts):
        self.numbers = [part.number for part in parts]
        self.first = parts[0].fragment.alone
        self.payload = b"".join(part.fragment.alone.payload for part in parts)

    def datagram(self):
        of = self.first
        # The hop-by-hop options in front of the first fragment are those of the datagram.
        of = Datagram(of.source, of.destination, of.protocol, self.payload, of.hop_by_hop)
        if len(of.source) == 4:
            return of
        # Headers that extend IPv6 may stand in what was fragmented.
        of = whole(pass_extensions(of, False, False))
        if isinstance(of, Fragment):
            raise Refused("fragment", "a fragment, " + of.text())
        return of


class Fragments:
    """The fragments of a capture whose datagrams are not whole yet, those that began first in front."""

    def __init__(self):
        self.kept = {}

    def add(self, number, fragment):
        """The datagram that is whole with this fragment, or None where others are missing."""
        part, key = Part(number, fragment), fragment.key()
        check(part)
        if key not in self.kept and len(self.kept) == MOST_DATAGRAMS:
            del self.kept[next(iter(self.kept))]
        kept = self.kept.setdefault(key, Kept())
        kept.accept(part)
        if not kept.is_whole():
            return None
        del self.kept[key]
        return Joined(kept.parts)


def check(part):
    """Refuses a fragment for what it says alone."""
    length = part.end - part.start
    if length == 0:
        refuse("no payload")
    if part.fragment.more and length % 8:
        refuse("a length that is no multiple of 8, and more fragments")
    if part.end > MOST_OCTETS:
        refuse("bytes past the 65535 of a datagram")
