"""Names and data of the NetBIOS name service (RFC 1001, RFC 1002)."""
from items import BARE, Cell
from text import be, dotted

FLAGS = {0x8000: "qr", 0x0400: "aa", 0x0200: "tc", 0x0100: "rd", 0x0080: "ra", 0x0040: "z1", 0x0020: "z2", 0x0010: "b"}
# RFC 1002 section 4.2.1.1; a refresh is 8 there and 9 in section 4.2.4.
OPCODES = {0: "QUERY", 5: "REGISTRATION", 6: "RELEASE", 7: "WACK", 8: "REFRESH", 9: "REFRESH",
           15: "MULTIHOMED_REGISTRATION"}
# RFC 1002 sections 4.2.6, 4.2.11 and 4.2.14.
RCODES = {0: "NOERROR", 1: "FMT_ERR", 2: "SRV_ERR", 3: "NAM_ERR", 4: "IMP_ERR", 5: "RFS_ERR", 6: "ACT_ERR",
          7: "CFT_ERR"}
NULL, NB, NBSTAT = 10, 32, 33
TYPES = {NULL: "NULL", NB: "NB", NBSTAT: "NBSTAT"}
WAIT = 7


# ---- names (RFC 1001 section 14.1)

def decoded(label):
    """The 16 octets of a label of 32 letters, each of which is half an octet; None of another label."""
    if len(label) != 32 or not all(65 <= letter <= 80 for letter in label):
        return None
    return bytes(16 * (high - 65) + low - 65 for high, low in zip(label[0::2], label[1::2]))


def octets_name(octets, label_text):
    """A name of 15 octets, of which the last may be spaces, and one that tells what it is of."""
    return "%s<%02x>" % (label_text(octets[:15].rstrip(b" ")), octets[15])


def name(labels, label_text):
    """A name with its scope, or None of one whose first label is none of NetBIOS."""
    octets = decoded(labels[0]) if labels else None
    if octets is None:
        return None
    return octets_name(octets, label_text) + "".join("." + label_text(label) for label in labels[1:])


# ---- data (RFC 1002 sections 4.2.1.3 and 4.2.18)

NODES = ("b-node", "p-node", "m-node", "h-node")
STATES = {0x1000: " deregister", 0x0800: " conflict", 0x0400: " active", 0x0200: " permanent"}


def node(word):
    return "%s %s" % ("group" if word & 0x8000 else "unique", NODES[word >> 13 & 3])


def address(octets):
    return "%s %s" % (node(be(octets[:2])), dotted(octets[2:]))


def owned_name(octets, label_text):
    word = be(octets[16:])
    states = "".join(text for bit, text in STATES.items() if word & bit)
    return "%s %s%s" % (octets_name(octets[:16], label_text), node(word), states)


def parts(octets, width):
    """The whole parts of so many octets."""
    return [octets[at:at + width] for at in range(0, len(octets) - width + 1, width)]


def data(kind, opcode, octets, label_text):
    """The cells of data, and why they are cut, or None; None where they are only octets."""
    if opcode == WAIT or kind not in (NB, NBSTAT):
        return None
    if kind == NB:
        texts = [address(part) for part in parts(octets, 6)]
        return [Cell("data", texts, BARE)], "an address is cut" if len(octets) % 6 else None
    end = 1 + 18 * be(octets[:1])
    texts = [owned_name(part, label_text) for part in parts(octets[1:end], 18)]
    return [Cell("data", texts, BARE), Cell("statistics", octets[end:])], (
        "the names are cut" if len(octets) < end else None)
