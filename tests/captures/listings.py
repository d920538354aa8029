"""What wiredump prints of ICMP of both families, IGMP, neighbor discovery, DHCP and hop-by-hop options. The function of
a listing gives its lines, or refuses."""
from frames import Refused
from ip import ICMP6
from text import be, dotted, field, hexadecimal, is_good, pseudo_sum, truth


def refuse(is_so):
    if is_so:
        raise Refused("malformed", "")


def number(name, octets, at, length):
    return field(name, be(octets[at:at + length]))


# ---- hop-by-hop options (RFC 8200 section 4.2)

# As many are printed, and one more is looked at.
MOST_OPTIONS = 8


def hop_by_hop(octets):
    lines, count = [], 0
    refuse(not octets)
    while octets and count <= MOST_OPTIONS:
        # Pad1 is one octet alone.
        refuse(octets[0] and len(octets) < 2)
        length = 1 if octets[0] == 0 else 2 + octets[1]
        refuse(length > len(octets) or octets[0] == 5 and length != 4)
        if count < MOST_OPTIONS:
            lines += option(octets[:length])
        octets = octets[length:]
        count += 1
    return lines


def option(octets):
    if octets[0] == 0:
        return ["Pad1"]
    if octets[0] == 1:
        return [number("PadN", octets, 1, 1)]
    if octets[0] == 5:
        return [number("RouterAlert", octets, 2, 2)]
    return unknown(octets)


def unknown(octets):
    return ["Unknown", number("type_", octets, 0, 1), number("length", octets, 1, 1),
            field("data", hexadecimal(octets[2:]))]


# ---- ICMPv4 (RFC 792)

ERRORS4 = {3: "DstUnreachable", 4: "SourceQuench", 5: "Redirect", 11: "TimeExceeded", 12: "ParamProblem"}


def icmp4(octets, error):
    """The lines of a message; those of an error are given by a function of its type and its octets."""
    refuse(len(octets) < 8 or not is_good(octets))
    kind = octets[0]
    if kind in (0, 8):
        refuse(octets[1])
        return echo("EchoRequest" if kind == 8 else "EchoReply", octets)
    refuse(kind not in ERRORS4)
    return error(kind, octets)


def echo(name, octets):
    return [name, number("ident", octets, 4, 2), number("seq_no", octets, 6, 2),
            field("data", hexadecimal(octets[8:]))]


# ---- IGMP (RFC 2236), whose checksum is not looked at

def igmp(octets):
    refuse(len(octets) < 8 or octets[0] not in (0x11, 0x12, 0x16, 0x17))
    group = octets[4:8]
    refuse(group != b"\0\0\0\0" and not 224 <= group[0] <= 239)
    address = field("group_addr", dotted(group))
    if octets[0] == 0x11:
        code = octets[1]
        return ["MembershipQuery", field("max_resp_time", response_time(code)), address,
                field("version", 1 if code == 0 else 2)]
    if octets[0] == 0x17:
        return ["LeaveGroup", address]
    return ["MembershipReport", address, field("version", 1 if octets[0] == 0x12 else 2)]


def response_time(code):
    """Milliseconds: the code counts tenths of a second, and from 128 on has an exponent (RFC 3376 section 4.1.1)."""
    if code < 128:
        return 100 * code
    return 100 * ((code % 16 + 16) << (code // 16 % 8 + 3))


# ---- ICMPv6 (RFC 4443)

ERRORS6 = {1: "DstUnreachable", 2: "PktTooBig", 3: "TimeExceeded", 4: "ParamProblem"}
HEADERS6 = {1: 8, 2: 8, 3: 8, 4: 8, 128: 8, 129: 8, 130: 28, 133: 8, 134: 16, 135: 24, 136: 24, 137: 40, 143: 8}


def icmp6(source, destination, octets, error):
    kind = octets[0] if octets else None
    refuse(kind not in HEADERS6 or len(octets) < HEADERS6[kind])
    refuse(not is_good(octets, pseudo_sum(source, destination, ICMP6, len(octets))))
    if kind in ERRORS6:
        return error(kind, octets)
    refuse(octets[1])
    if kind in (128, 129):
        return echo("EchoRequest" if kind == 128 else "EchoReply", octets)
    return LISTENERS[kind](octets) if kind in LISTENERS else neighbor(kind, octets)


# ---- multicast listener discovery (RFC 3810 section 5)

def query(octets):
    return ["Query", number("max_resp_code", octets, 4, 2), field("mcast_addr", octets[8:24].hex()),
            field("s_flag", truth(octets[24] & 8)), field("qrv", octets[24] & 7), number("qqic", octets, 25, 1),
            number("num_srcs", octets, 26, 2), field("data", hexadecimal(octets[28:]))]


def report(octets):
    return ["Report", number("nr_mcast_addr_rcrds", octets, 6, 2), field("data", hexadecimal(octets[8:]))]


LISTENERS = {130: query, 143: report}


# ---- neighbor discovery (RFC 4861 section 4)

def neighbor(kind, octets):
    found = neighbor_options(octets, HEADERS6[kind])
    source = field("lladdr", hexadecimal(found[1][2:10]) if 1 in found else "none")
    target = field("lladdr", hexadecimal(found[2][2:10]) if 2 in found else "none")
    addr = field("target_addr", octets[8:24].hex())
    if kind == 133:
        return ["RouterSolicit", source]
    if kind == 134:
        return router(octets) + [source] + router_options(found)
    if kind == 135:
        return ["NeighborSolicit", addr, source]
    if kind == 136:
        return ["NeighborAdvert", field("flags", octets[4] & 0xE0), addr, target]
    return ["Redirect", addr, field("dest_addr", octets[24:40].hex()), target] + redirected(found)


def router(octets):
    return ["RouterAdvert", number("hop_limit", octets, 4, 1), field("flags", octets[5] & 0xC0),
            field("router_lifetime", 1000 * be(octets[6:8])), number("reachable_time", octets, 8, 4),
            number("retrans_time", octets, 12, 4)]


def neighbor_options(octets, start):
    """The last option of each type that reads. A prefix or an MTU of other units, and a redirected packet that is not
    whole, are passed over; where the options don't fill the message, it does not read."""
    found, at = {}, start
    while at < len(octets):
        kind, length = octets[at], 8 * be(octets[at + 1:at + 2])
        refuse(length == 0 or at + length > len(octets))
        block, at = octets[at:at + length], at + length
        # The fixed fields of a prefix and of a redirected packet.
        refuse(length < {3: 32, 4: 48}.get(kind, 8))
        quote = block[8:]
        if kind == 3 and length != 32 or kind == 5 and length != 8:
            continue
        if kind == 4 and (quote[0] >> 4 != 6 or len(quote) < 40 + be(quote[4:6])):
            continue
        found[kind] = block
    return found


def router_options(found):
    lines = [number("mtu", found[5], 4, 4) if 5 in found else field("mtu", "none")]
    if 3 not in found:
        return lines + [field("prefix_info", "none")]
    return lines + ["prefix_info." + line for line in prefix(found[3])]


def prefix(block):
    return [number("prefix_len", block, 2, 1), field("flags", block[3] & 0xC0),
            field("valid_lifetime", 1000 * be(block[4:8])), field("preferred_lifetime", 1000 * be(block[8:12])),
            field("prefix", block[16:32].hex())]


def redirected(found):
    if 4 not in found:
        return [field("redirected_hdr", "none")]
    quote = found[4][8:]
    return ["redirected_hdr." + line for line in packet6(quote[:40 + be(quote[4:6])])]


def packet6(octets):
    """A packet of IPv6 by the header that is kept of it."""
    return [field("header.src_addr", octets[8:24].hex()), field("header.dst_addr", octets[24:40].hex()),
            number("header.next_header", octets, 6, 1), number("header.payload_len", octets, 4, 2),
            number("header.hop_limit", octets, 7, 1), field("data", hexadecimal(octets[40:]))]


# ---- DHCP (RFC 2131, RFC 2132)

# Which operation sends a type of message.
SENT_BY = {1: 1, 2: 2, 3: 1, 4: 1, 5: 2, 6: 2, 7: 1, 8: 1}


def dhcp(octets):
    refuse(len(octets) < 240 or octets[1:3] != b"\1\6" or octets[236:240] != bytes.fromhex("63825363"))
    found = dhcp_options(octets[240:])
    # A client identifier of seven octets is an address of Ethernet.
    refuse(any(code == 61 and len(data) == 7 and data[0] != 1 for code, data in found))
    kinds = [data[0] for code, data in found if code == 53 and len(data) == 1]
    kinds = [kind for kind in kinds if SENT_BY.get(kind, 0) == octets[0]]
    refuse(not kinds)

    def said(name, code, length, text):
        data = [data for its, data in found if its == code and length in (None, len(data))]
        return field(name, text(data[-1]) if data else "none")

    def addresses(data):
        return ",".join(dotted(data[at:at + 4]) for at in range(0, min(len(data), 20) // 4 * 4, 4)) or "-"

    return [
        field("message_type", kinds[-1]), number("transaction_id", octets, 4, 4), number("secs", octets, 8, 2),
        field("client_hardware_address", octets[28:34].hex()), field("client_ip", dotted(octets[12:16])),
        field("your_ip", dotted(octets[16:20])), field("server_ip", dotted(octets[20:24])),
        said("router", 3, 4, dotted), said("subnet_mask", 1, 4, dotted),
        field("relay_agent_ip", dotted(octets[24:28])), field("broadcast", truth(octets[10] & 0x80)),
        said("requested_ip", 50, 4, dotted), said("client_identifier", 61, 7, lambda data: data[1:].hex()),
        said("server_identifier", 54, 4, dotted), said("parameter_request_list", 55, None, hexadecimal),
        said("dns_servers", 6, None, addresses), said("max_size", 57, 2, be), said("lease_duration", 51, 4, be),
        said("renew_duration", 58, 4, be), said("rebind_duration", 59, 4, be),
    ]


def dhcp_options(octets):
    """Options by code and data. Padding is skipped; the end mark ends them, and so does the end of the octets, also
    where it comes within an option."""
    found, at = [], 0
    while at < len(octets) and octets[at] != 255:
        if octets[at] == 0:
            at += 1
            continue
        if at + 2 > len(octets) or at + 2 + octets[at + 1] > len(octets):
            break
        found.append((octets[at], octets[at + 2:at + 2 + octets[at + 1]]))
        at += 2 + octets[at + 1]
    return found
