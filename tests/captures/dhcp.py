"""Packets of DHCP (RFC 2131, RFC 2132), as items, however much of them is there."""
from frames import Refused
from items import BARE, HIDDEN, Cell, Entries, Entry, Field, named, seconds
from registries import DHCP_MESSAGES, HARDWARE, OPERATIONS
from text import be, dotted, mac

COOKIE = bytes.fromhex("63825363")
SNAME, FILE = slice(44, 108), slice(108, 236)
MESSAGE_TYPE, OVERLOAD = 53, 52
BROADCAST = 0x8000
# So many octets of parts are joined.
MOST = 1500


def dhcp(octets):
    """The items of a packet, and why it is refused, or None."""
    if len(octets) < 240:
        refused = Refused("short", "fewer than 240 bytes")
        front, rest = (header(octets), octets[44:]) if len(octets) >= 44 else ([], octets)
        return front + [Field("refused", refused.phrase), Field("rest", rest)], refused
    if octets[236:240] != COOKIE:
        refused = Refused("malformed", "the magic cookie is missing")
        return header(octets) + names(octets, 0) + [Field("refused", refused.phrase),
                                                    Field("rest", octets[236:])], refused
    overload = overload_of(octets[240:])
    found, refused = parts(octets, overload)
    items = header(octets) + names(octets, overload) + [Entries("options", entries(found))]
    return items + ([Field("refused", refused.phrase)] if refused else []), refused


def header(octets):
    flags = be(octets[10:12])
    return [
        named("op", octets[0], OPERATIONS), named("htype", octets[1], HARDWARE), Field("hlen", octets[2]),
        Field("hops", octets[3]), Field("transaction_id", be(octets[4:8])), Field("secs", seconds(be(octets[8:10]))),
        Field("flags", ["broadcast"] if flags & BROADCAST else []),
    ] + ([Field("reserved_flags", flags % BROADCAST)] if flags % BROADCAST else []) + [
        Field("client_ip", dotted(octets[12:16])), Field("your_ip", dotted(octets[16:20])),
        Field("server_ip", dotted(octets[20:24])), Field("relay_agent_ip", dotted(octets[24:28])),
        Field("client_hardware_address", mac(octets[28:28 + min(octets[2], 16)])),
    ]


def names(octets, overload):
    """The names in the fields that hold no options, where they have a character."""
    found = [("server_name", octets[SNAME], 2), ("boot_file", octets[FILE], 1)]
    return [Field(key, characters(field.partition(b"\0")[0])) for key, field, bit in found
            if field[0] and not overload & bit]


def characters(octets):
    return "".join(map(character, octets))


def character(octet):
    if chr(octet) in '"\\':
        return "\\" + chr(octet)
    return chr(octet) if 32 <= octet <= 126 else "\\x%02x" % octet


# ---- options

def options(octets):
    """Options by code and data, and the code of one that is cut, or None. Padding is skipped, and the end mark ends
    them."""
    found, at = [], 0
    while at < len(octets) and octets[at] != 255:
        if octets[at] == 0:
            at += 1
            continue
        end = at + 2 + be(octets[at + 1:at + 2])
        if at + 2 > len(octets) or end > len(octets):
            return found, octets[at]
        found.append((octets[at], octets[at + 2:end]))
        at = end
    return found, None


def overload_of(octets):
    """Which of the fields file (1) and sname (2) hold options, by the first that says so (RFC 2132 section 9.3)."""
    return next((data[0] for code, data in options(octets)[0]
                 if code == OVERLOAD and len(data) == 1 and 1 <= data[0] <= 3), 0)


def parts(octets, overload):
    """The options in each field that holds any (RFC 2131 section 4.1), and why the first of them is refused."""
    areas = [("options", octets[240:], 0), ("file", octets[FILE], 1), ("sname", octets[SNAME], 2)]
    found, refused = [], None
    for area, field, bit in areas:
        if overload & bit == bit:
            more, cut = options(field)
            found += more
            if cut is not None and refused is None:
                refused = Refused("malformed", "option %d is cut at the end of %s" % (cut, area))
    return found, refused


def first_parts(message):
    """The options of a message by their codes, and of one in several parts the first."""
    if len(message) < 240 or message[236:240] != COOKIE:
        return {}
    found, _ = parts(message, overload_of(message[240:]))
    return dict(reversed(found))


def entries(found):
    """An entry for each code, in the order of their first parts, which are joined (RFC 3396)."""
    return [entry(code, [data for its, data in found if its == code]) for code in dict.fromkeys(c for c, _ in found)]


def entry(code, datas):
    name, form = OPTIONS.get(code, ("option_%d" % code, octets_of))
    data = b"".join(datas)
    if len(datas) > 1 and len(data) > MOST:
        value, more = b"", [Cell("refused", "more than %d bytes in parts" % MOST)]
    else:
        value, more = form(data), []
        if code == MESSAGE_TYPE and value in DHCP_MESSAGES:
            more = [Cell("value_name", DHCP_MESSAGES[value], BARE)]
    return Entry(("option", name), ("value", value), *more, Cell("type", code, HIDDEN))


# ---- the forms of data; what has another length is octets

def octets_of(data):
    return data


def sized(length, form):
    return lambda data: form(data) if len(data) == length else data


def addresses(data):
    return data if len(data) % 4 else [dotted(data[at:at + 4]) for at in range(0, len(data), 4)]


ADDRESS, ADDRESSES, SECONDS = sized(4, dotted), addresses, sized(4, lambda data: seconds(be(data)))
NUMBER, BYTE, TEXT, NUMBERS, OCTETS = sized(2, be), sized(1, be), characters, list, octets_of

# The options by their codes: the words of the RFCs that define them, and the forms of their data.
OPTIONS = {
    # RFC 2132
    1: ("subnet_mask", ADDRESS), 2: ("time_offset", OCTETS), 3: ("router", ADDRESSES), 4: ("time_server", ADDRESSES),
    5: ("name_server", ADDRESSES), 6: ("domain_name_server", ADDRESSES), 7: ("log_server", ADDRESSES),
    8: ("cookie_server", ADDRESSES), 9: ("lpr_server", ADDRESSES), 10: ("impress_server", ADDRESSES),
    11: ("resource_location_server", ADDRESSES), 12: ("host_name", TEXT), 13: ("boot_file_size", NUMBER),
    14: ("merit_dump", TEXT), 15: ("domain_name", TEXT), 16: ("swap_server", ADDRESS), 17: ("root_path", TEXT),
    18: ("extensions_path", TEXT), 19: ("ip_forwarding", BYTE), 20: ("non_local_source_routing", BYTE),
    21: ("policy_filter", ADDRESSES), 22: ("max_datagram_reassembly", NUMBER), 23: ("default_ttl", BYTE),
    24: ("path_mtu_aging_timeout", SECONDS), 25: ("path_mtu_plateau_table", OCTETS), 26: ("interface_mtu", NUMBER),
    27: ("all_subnets_local", BYTE), 28: ("broadcast_address", ADDRESS), 29: ("perform_mask_discovery", BYTE),
    30: ("mask_supplier", BYTE), 31: ("perform_router_discovery", BYTE), 32: ("router_solicitation_address", ADDRESS),
    33: ("static_routes", ADDRESSES), 34: ("trailer_encapsulation", BYTE), 35: ("arp_cache_timeout", SECONDS),
    36: ("ethernet_encapsulation", BYTE), 37: ("tcp_default_ttl", BYTE), 38: ("tcp_keepalive_interval", SECONDS),
    39: ("tcp_keepalive_garbage", BYTE), 40: ("nis_domain", TEXT), 41: ("nis_servers", ADDRESSES),
    42: ("ntp_servers", ADDRESSES), 43: ("vendor_specific_information", OCTETS),
    44: ("netbios_name_servers", ADDRESSES), 45: ("netbios_distribution_servers", ADDRESSES),
    46: ("netbios_node_type", BYTE), 47: ("netbios_scope", TEXT), 48: ("font_servers", ADDRESSES),
    49: ("x_display_managers", ADDRESSES), 50: ("requested_address", ADDRESS), 51: ("lease_time", SECONDS),
    52: ("option_overload", BYTE), 53: ("message_type", BYTE), 54: ("server_identifier", ADDRESS),
    55: ("parameter_request_list", NUMBERS), 56: ("message", TEXT), 57: ("max_message_size", NUMBER),
    58: ("renewal_time", SECONDS), 59: ("rebinding_time", SECONDS), 60: ("vendor_class_identifier", TEXT),
    61: ("client_identifier", OCTETS), 64: ("nisplus_domain", TEXT), 65: ("nisplus_servers", ADDRESSES),
    66: ("tftp_server_name", TEXT), 67: ("bootfile_name", TEXT), 68: ("mobile_ip_home_agent", ADDRESSES),
    69: ("smtp_server", ADDRESSES), 70: ("pop_server", ADDRESSES), 71: ("nntp_server", ADDRESSES),
    72: ("www_server", ADDRESSES), 73: ("finger_server", ADDRESSES), 74: ("irc_server", ADDRESSES),
    75: ("streettalk_server", ADDRESSES), 76: ("streettalk_directory_assistance_server", ADDRESSES),
    # RFC 3004, RFC 4039, RFC 4702, RFC 3046, RFC 4578, RFC 4833, RFC 8925, RFC 8910, RFC 2563, RFC 3011, RFC 3397,
    # RFC 3361, RFC 3442, RFC 3925, RFC 5417, RFC 5859
    77: ("user_class", OCTETS), 80: ("rapid_commit", OCTETS), 81: ("client_fqdn", OCTETS),
    82: ("relay_agent_information", OCTETS), 93: ("client_system_architecture", NUMBER),
    94: ("client_network_interface", OCTETS), 97: ("client_machine_identifier", OCTETS),
    100: ("posix_timezone", TEXT), 101: ("tzdb_timezone", TEXT), 108: ("ipv6_only_preferred", SECONDS),
    114: ("captive_portal", TEXT), 116: ("auto_configure", BYTE), 118: ("subnet_selection", ADDRESS),
    119: ("domain_search", OCTETS), 120: ("sip_servers", OCTETS), 121: ("classless_static_route", OCTETS),
    124: ("vendor_class", OCTETS), 125: ("vendor_information", OCTETS), 138: ("capwap_access_controllers", ADDRESSES),
    150: ("tftp_server_addresses", ADDRESSES),
}
