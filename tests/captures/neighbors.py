"""Hop-by-hop options, neighbor discovery, multicast listeners and groups, as items, however much of them is there."""
from frames import Refused
from items import HIDDEN, Cell, Entries, Entry, Field, Named, Time, labelled, named, seconds
from registries import (ALERTS, HOP_OPTIONS, ICMP6_TYPES, IGMP_TYPES, NEIGHBOR_OPTIONS, PREFERENCES, RECORDS)
from text import address, be, colons, dotted, mac, name_text
from zones import label

CUT_OPTION = "fewer bytes than the option counts"
CUT_FIELDS = "fewer bytes than the fields take"


def entry(names, kind, number, *values):
    """An entry that is called by its number, which JSON has too."""
    return Entry((kind, labelled(names, kind, number)), *values, Cell("type", number, HIDDEN))


def octets_entry(names, kind, number, octets, why=None):
    """An entry whose octets are not told apart."""
    return entry(names, kind, number, ("data", octets), *([Cell("refused", why)] if why else []))


def in_turn(octets, length_of, entry_of):
    """An entry for each part of the octets, whose length is told by its front; the last one may be cut."""
    entries = []
    while octets:
        length = length_of(octets)
        entries.append(entry_of(octets[:length], length <= len(octets)))
        octets = octets[length:]
    return entries


# ---- hop-by-hop options (RFC 8200 section 4.2)

def hop_by_hop(octets):
    return [Entries("hop_by_hop", in_turn(octets, hop_option_length, hop_option))]


def hop_option_length(octets):
    # Pad1 is one octet alone.
    return 1 if octets[0] == 0 else 2 + be(octets[1:2])


def hop_option(octets, is_whole):
    kind, data = octets[0], octets[2:]

    def plain(why=None):
        return octets_entry(HOP_OPTIONS, "option", kind, data, why)

    if kind == 0:
        return plain()
    if len(octets) < 2:
        return plain("no length")
    if not is_whole:
        return plain(CUT_OPTION)
    if kind == 5:
        if len(data) != 2:
            return plain("not 2 bytes")
        return entry(HOP_OPTIONS, "option", 5, ("value", be(data)), Cell("value_name", ALERTS.get(be(data))))
    if kind == 0xC2:
        return entry(HOP_OPTIONS, "option", kind, ("jumbo_payload_len", be(data))) if len(data) == 4 else plain(
            "not 4 bytes")
    return plain()


# ---- neighbor discovery (RFC 4861 section 4)

# The octets in front of the options.
HEADERS = {133: 8, 134: 16, 135: 24, 136: 24, 137: 40}


def head(octets):
    return [named("type", octets[0], ICMP6_TYPES), Named("code", octets[1], None)]


def cut(octets):
    return [Field("data", octets), Field("refused", CUT_FIELDS)], Refused("short", CUT_FIELDS)


def lacking(items):
    """Why a message is read in part that ends before its fields or what it counts, as its items tell; or None."""
    return next((Refused("short", item.value) for item in items if item.key == "refused"), None)


def neighbor(octets):
    """The items of a message, and why it is refused, or None."""
    if len(octets) < 4:
        return cut(octets)
    length = HEADERS[octets[0]]
    if len(octets) < length:
        items, refused = cut(octets[4:])
        return head(octets) + items, refused
    entries = in_turn(octets[length:], neighbor_option_length, neighbor_option)
    why = discarded(octets, length)
    refused = [Field("refused", why)] if why else []
    items = head(octets) + neighbor_fields(octets) + [Entries("options", entries)] + refused
    return items, Refused("malformed", why) if why else None


# Units of 8 octets that a prefix and a redirected header take at least (RFC 4861 sections 4.6.2 and 4.6.3).
LEAST_UNITS = {3: 4, 4: 6}


def discarded(octets, place):
    """Why a message is to be discarded whose options begin at `place`, or None (RFC 4861 sections 6.1, 7.1 and 8.1)."""
    if octets[1]:
        return "code %d is not read" % octets[1]
    while place < len(octets):
        kind, units = octets[place], be(octets[place + 1:place + 2])
        option = "the option of type %d at byte %d" % (kind, place)
        if len(octets) - place < 8 * max(units, 1):
            return option + " is cut"
        if not units:
            return option + " has length 0"
        if units < LEAST_UNITS.get(kind, 1):
            return option + " has length %d, too short for its type" % units
        place += 8 * units
    return None


def neighbor_fields(octets):
    target = Field("target_addr", colons(octets[8:24]))
    if octets[0] == 134:
        return router_fields(octets)
    if octets[0] == 135:
        return [target]
    if octets[0] == 136:
        return [Field("flags", flags(octets[4], "router", "solicited", "override")), target]
    return [target, Field("dest_addr", colons(octets[24:40]))] if octets[0] == 137 else []


def router_fields(octets):
    """RFC 4861 section 4.2, RFC 6275 section 7.1, RFC 4191 section 2.2 and RFC 4389 section 4.1.3.3."""
    names = flags(octets[5], "managed", "other", "home_agent", None, None, "proxy")
    return [Field("hop_limit", octets[4]), Field("flags", names),
            named("preference", octets[5] >> 3 & 3, PREFERENCES),
            Field("router_lifetime", seconds(be(octets[6:8]))), Field("reachable_time", Time(be(octets[8:12]))),
            Field("retrans_time", Time(be(octets[12:16])))]


def flags(octet, *names):
    """The names of the bits that are set, the highest first; those of further bits are their numbers, and those of None
    are no flags."""
    every = names + tuple("0x%02x" % (0x80 >> at) for at in range(len(names), 8))
    return [name for at, name in enumerate(every) if name and octet & 0x80 >> at]


def neighbor_option_length(octets):
    # Where no units are counted, nothing tells where the next option begins.
    return 8 * be(octets[1:2]) or len(octets)


def neighbor_option(octets, is_whole):
    kind = octets[0]

    def plain(why=None):
        return octets_entry(NEIGHBOR_OPTIONS, "option", kind, octets[2:], why)

    def told(first, *others):
        return entry(NEIGHBOR_OPTIONS, "option", kind, first, *others)

    if len(octets) < 2:
        return plain("no length")
    if octets[1] == 0:
        return plain("a length of 0")
    if not is_whole:
        return plain(CUT_OPTION)
    if kind in (1, 2):
        return told(("addr", mac(octets[2:])))
    if kind == 3:
        if len(octets) != 32:
            return plain("not 32 bytes")
        return told(*prefix(octets)) if octets[2] <= 128 else plain("too many bits for the prefix")
    if kind == 4:
        if len(octets) < 48:
            return plain("fewer than 48 bytes")
        return told(*redirected(octets)) if octets[8] >> 4 == 6 else plain("not of version 6")
    if kind == 5:
        return told(("mtu", be(octets[4:8]))) if len(octets) == 8 else plain("not 8 bytes")
    if kind in OTHERS:
        values = OTHERS[kind](octets)
        return plain(values) if isinstance(values, str) else told(*values)
    return plain()


def prefix(octets):
    """RFC 4861 section 4.6.2, RFC 6275 section 7.2 and RFC 9762 section 4."""
    names = flags(octets[3], "on_link", "autonomous", "router_address", "dhcpv6_pd_preferred")
    return (("prefix", "%s/%d" % (colons(octets[16:32]), octets[2])), Cell("flags", names),
            Cell("valid_lifetime", seconds(be(octets[4:8]))), Cell("preferred_lifetime", seconds(be(octets[8:12]))))


def redirected(octets):
    """The IPv6 header that is quoted, and the octets behind it (RFC 4861 section 4.6.3)."""
    quote = octets[8:]
    return (("quoted_src_addr", colons(quote[8:24])), Cell("quoted_dst_addr", colons(quote[24:40])),
            Cell("quoted_next_header", quote[6]), Cell("quoted_hop_limit", quote[7]),
            Cell("quoted_payload_len", be(quote[4:6])), Cell("quoted_payload", quote[40:]))


# ---- options of other standards: the values of each, or why it is refused

def nonce(octets):
    """RFC 3971 section 5.3.2."""
    return (("nonce", octets[2:]),)


def route(octets):
    """RFC 4191 section 2.3."""
    length, there = octets[2], octets[8:]
    if len(there) > 16:
        return "more than 24 bytes"
    if length > 8 * len(there):
        return "too many bits for the prefix"
    return (("prefix", prefix_of(there, length)), Cell("preference", PREFERENCES[octets[3] >> 3 & 3]), lifetime(octets))


def prefix_of(front, length):
    """A prefix of so many bits: those behind them are zero."""
    bits = be(front.ljust(16, b"\0")) >> 128 - length << 128 - length
    return "%s/%d" % (colons(bits.to_bytes(16, "big")), length)


def lifetime(octets):
    return Cell("lifetime", seconds(be(octets[4:8])))


def servers(octets):
    """RFC 8106 section 5.1."""
    if len(octets) < 24:
        return "fewer than 24 bytes"
    if len(octets[8:]) % 16:
        return "no whole number of addresses"
    return (("servers", addresses(octets[8:], 16)), lifetime(octets))


def search_list(octets):
    """RFC 8106 section 5.2."""
    if len(octets) < 16:
        return "fewer than 16 bytes"
    names = names_in(octets[8:])
    return names if isinstance(names, str) else (("names", names), lifetime(octets))


# The most octets of a name (RFC 1035 section 2.3.4).
MOST_NAME = 255


def names_in(octets):
    """Names (RFC 1035 section 3.1) up to the end, or to zeros that fill the option up (RFC 8106 section 5.2); or why
    they are none. A comma of a label is told by its number, since commas stand between names."""
    names = []
    while octets and octets[0]:
        text, room = "", MOST_NAME
        while octets and octets[0]:
            if octets[0] > 63:
                return "a label of more than 63 bytes"
            room -= 1 + octets[0]
            # The zero at its end counts too.
            if room < 1:
                return "a name of more than 255 bytes"
            text += label(octets[1:1 + octets[0]]).replace(",", "\\044") + "."
            octets = octets[1 + octets[0]:]
        if not octets:
            return "the octets end before the name does"
        octets = octets[1:]
        names.append(text)
    return "other bytes than zeros behind the names" if any(octets) else names


def portal(octets):
    """RFC 8910 section 2.3. A space is no character of a URI (RFC 3986 section 2), and is told by its digits."""
    return (("uri", name_text(octets[2:])),)


# The bits of the prefix of a NAT64 by their code.
NAT64_LENGTHS = (96, 64, 56, 48, 40, 32)


def nat64(octets):
    """RFC 8781 section 4."""
    if len(octets) != 16:
        return "not 16 bytes"
    scaled, code = divmod(be(octets[2:4]), 8)
    if code >= len(NAT64_LENGTHS):
        return "no prefix length has the code %d" % code
    return (("prefix", prefix_of(octets[4:], NAT64_LENGTHS[code])), Cell("lifetime", seconds(8 * scaled)))


OTHERS = {14: nonce, 24: route, 25: servers, 31: search_list, 37: portal, 38: nat64}


# ---- multicast listeners (RFC 2710, RFC 3810)

def listener(octets):
    """The items of a message, and why it is read in part, or None."""
    if len(octets) < 4:
        return cut(octets)
    items = head(octets) + listener_items(octets)
    return items, lacking(items)


def listener_items(octets):
    kind, length = octets[0], len(octets)
    if kind == 143 and length >= 8:
        return counted_records(octets, 2, 16)
    # A query is of version 1 by its length (RFC 3810 section 8.1).
    if length == 24 and kind != 143 or kind in (131, 132) and length > 24:
        return [Field("version", 1), Field("max_resp_delay", Time(be(octets[4:6]))), listened(octets),
                *additional(octets[24:])]
    if kind != 130 or length < 28:
        return cut(octets[4:])[0]
    code = be(octets[4:6])
    return [Field("version", 2), Field("max_resp_code", code), Field("max_resp_delay", Time(floating(code, 12))),
            listened(octets)] + sources(octets[24:], 16)


def listened(octets):
    return Field("mcast_addr", colons(octets[8:24]))


# ---- groups (RFC 1112 appendix I, RFC 2236, RFC 3376)

# The types of messages of one group.
GROUPS = (0x11, 0x12, 0x16, 0x17)


def igmp(octets):
    """The items of a message, and why it is refused or read in part, or None."""
    if len(octets) < 8:
        return cut(octets)
    refused = no_group(octets) if octets[0] in GROUPS else Refused("type", None) if octets[0] != 0x22 else None
    why = [Field("group_refused", refused.phrase)] if refused and refused.phrase else []
    items = igmp_items(octets)
    return [named("type", octets[0], IGMP_TYPES)] + items + why, refused or lacking(items)


def igmp_items(octets):
    kind, group = octets[0], Field("group_addr", dotted(octets[4:8]))
    if kind == 0x22:
        return counted_records(octets, 3, 4)
    if kind == 0x11:
        return query(octets, group)
    if kind in GROUPS:
        return [Field("version", 1 if kind == 0x12 else 2), group, *additional(octets[8:])]
    return [Field("code", octets[1]), Field("data", octets[4:])]


def query(octets, group):
    """A query, whose version is told by its length and its code (RFC 3376 section 7.1)."""
    if 8 < len(octets) < 12:
        return cut(octets[4:])[0]
    code = octets[1]
    version = 3 if len(octets) > 8 else 2 if code else 1
    tenths = floating(code, 4) if version == 3 else code
    return [Field("version", version), Field("max_resp_code", code), Field("max_resp_time", Time(100 * tenths)),
            group] + (sources(octets[8:], 4) if version == 3 else [])


def no_group(octets):
    """Why the address of a group is none."""
    group = octets[4:8]
    if group == b"\0\0\0\0" or 224 <= group[0] <= 239:
        return None
    return Refused("malformed", "group %s is neither 0.0.0.0 nor multicast" % dotted(group))


# ---- what versions 3 of IGMP and 2 of MLD share

def additional(octets):
    """What stands behind all that is counted."""
    return [Field("additional_data", octets)] if octets else []


def floating(code, digits):
    """A number below 2 to the `digits` + 3, or one of so many bits of mantissa and three of exponent."""
    if code < 8 << digits:
        return code
    return (code % (1 << digits) + (1 << digits)) << (code >> digits & 7) + 3


def addresses(octets, width):
    """Addresses, all of which are whole."""
    return [address(octets[at:at + width]) for at in range(0, len(octets), width)]


def sources(octets, width):
    """What a query has behind its group, from the flags of its querier on."""
    count = be(octets[2:4])
    whole = min(count, (len(octets) - 4) // width)
    end = 4 + width * whole
    items = [Field("s_flag", octets[0] & 8 > 0), Field("qrv", octets[0] & 7), Field("qqic", octets[1]),
             Field("querier_query_interval", seconds(floating(octets[1], 4))),
             Field("sources", addresses(octets[4:end], width))]
    refused = [Field("refused", "fewer sources than the query counts")] if whole < count else []
    return items + refused + additional(octets[end:])


def counted_records(octets, version, width):
    """The records of a report, which counts them."""
    left, entries, whole, count = octets[8:], [], 0, be(octets[6:8])
    while left and len(entries) < count:
        length = record_length(left, width)
        whole += length <= len(left)
        entries.append(record(left[:length], width, length <= len(left)))
        left = left[length:]
    refused = [Field("refused", "fewer records than the report counts")] if whole < count else []
    return [Field("version", version), Entries("records", entries)] + refused + additional(left)


def record_length(octets, width):
    if len(octets) < 4:
        return 4
    return 4 + width + width * be(octets[2:4]) + 4 * octets[1]


def record(octets, width, is_whole):
    if not is_whole:
        return octets_entry(RECORDS, "record", octets[0], octets[1:], "fewer bytes than the record counts")
    end = 4 + width + width * be(octets[2:4])
    data = [Cell("aux_data", octets[end:])] if octets[end:] else []
    return entry(RECORDS, "record", octets[0], ("group_addr", address(octets[4:4 + width])),
                 Cell("sources", addresses(octets[4 + width:end], width)), *data)
