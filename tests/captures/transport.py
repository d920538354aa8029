"""What the headers of UDP and TCP say: ports, lengths, and the messages of DNS in a segment."""
from frames import Refused
from text import be

DOMAIN = 53
# A header of DNS.
LEAST = 12


def ports(payload):
    """The two ports at the front of a header of UDP or TCP, or None where they are not there."""
    if len(payload) < 4:
        return None
    return be(payload[0:2]), be(payload[2:4])


def udp_length(octets):
    """The length that a datagram of UDP states (RFC 768)."""
    if len(octets) < 8:
        raise Refused("short", "fewer than 8 bytes")
    length = be(octets[4:6])
    # In a jumbogram a length of 0 is that of all (RFC 2675 section 4).
    if length == 0 and len(octets) > 65535:
        return len(octets)
    if length < 8:
        raise Refused("short", "a length of %d is below 8" % length)
    return length


def segment_data(octets):
    """The data of a segment of TCP behind its header and the options of that (RFC 9293 section 3.1), or None where
    that is not whole."""
    if len(octets) < 20:
        return None
    length = octets[12] >> 4 << 2
    return octets[length:] if 20 <= length <= len(octets) else None


def dns_messages(octets, given=None):
    """The messages that a segment of TCP is full of, from or to the port of DNS or the one that is given to it, each
    behind its length in two octets (RFC 1035 section 4.2.2); none where its data are anything else."""
    data, messages = segment_data(octets), []
    if data is None or not {DOMAIN, given} & set(ports(octets)):
        return []
    while data:
        end = 2 + be(data[:2])
        if len(data) < end or end < 2 + LEAST:
            return []
        messages.append(data[2:end])
        data = data[end:]
    return messages
