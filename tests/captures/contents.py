"""What pcapdump --json is to print of messages of ICMP, IGMP and DHCP and of hop-by-hop options, told by the fields
that tshark has of them; see expected.py."""

import re

from contents_errors import icmp4_error, icmp6_error
from contents_options import neighbor_options
from contents_queries import query
from datagrams import extension_length, payload_length
from patterns import MORE, Values, data, entry, flags, octets

ICMP4_TYPES = (0, 3, 4, 5, 8, 11, 12)
ICMP6_TYPES = (1, 2, 3, 4, *range(128, 138), 143)


def hop_by_hop(packet):
    """The options of the first header of IPv6; those of later headers stand behind them."""
    entries, lengths, room = [], packet.numbers("ipv6.opt.length"), extension_length(packet, 0) - 2
    values = {name: list(packet.all("ipv6.opt." + name)) for name in ("router_alert", "experimental", "unknown")}
    for number in packet.numbers("ipv6.opt.type"):
        if room == 0:
            break
        length = lengths.pop(0) if number != 0 else -1
        room -= 2 + length
        if number in (0, 1):
            entries.append(entry("option", number, data="00" * max(length, 0)))
        elif number == 5:
            value = int(values["router_alert"].pop(0))
            name = {0: "mld", 1: "rsvp", 2: "active_networks"}.get(value)
            entries.append(entry("option", number, value=value, value_name=name))
        else:
            told = values["experimental" if number == 0x1e else "unknown"].pop(0)
            entries.append(entry("option", number, data=told))
    return entries


def echo(packet, ident, sequence, missing):
    count = payload_length(packet) - 8 - missing
    return {"ident": ident, "seq_no": sequence, "data": octets(count, "", data(packet))}


def icmp4(packet, missing):
    if not packet.has("icmp.code"):
        return {MORE: None}
    number, code = packet.number("icmp.type"), packet.number("icmp.code")
    front_of = {"type": number, "code": code}
    if payload_length(packet) - missing < 8:
        return {**front_of, MORE: None}
    if number in (0, 8):
        return {**front_of, **echo(packet, packet.number("icmp.ident"), packet.number("icmp.seq"), missing)}
    if missing:
        return {**front_of, MORE: None}
    told = icmp4_error(packet, number, code) if number in ICMP4_TYPES else query(packet, "icmp4", number)
    return {**front_of, **told}


def igmp(packet, missing):
    number, length = packet.number("igmp.type"), payload_length(packet)
    told = {"type": number}
    if missing:
        return {**told, MORE: None}
    if number == 0x22:
        return {**told, "version": 3, **records(packet, {
            "count": "igmp.num_grp_recs", "type": "igmp.record_type", "group": "igmp.maddr", "sources": "igmp.num_src",
            "source": "igmp.saddr", "aux": "igmp.aux_data_len", "data": "igmp.aux_data"})}
    group = {"group_addr": packet.text("igmp.maddr")}
    if number != 0x11:
        return {**told, "version": 1 if number == 0x12 else 2, **group}
    tenths = packet.number("igmp.max_resp") if packet.has("igmp.max_resp") else 0
    version_of = 3 if length > 8 else 2 if tenths else 1
    code = code_of(tenths, 4) if version_of == 3 else tenths
    told = {**told, "version": version_of, "max_resp_code": code, "max_resp_time": 100 * tenths, **group}
    if version_of == 3:
        qqic = packet.number("igmp.qqic")
        told.update(s_flag=packet.text("igmp.s") == "1", qrv=packet.number("igmp.qrv"), qqic=qqic,
                    querier_query_interval=1000 * floating(qqic, 4), sources=packet.all("igmp.saddr"))
    return told


def records(packet, names_of):
    """The records of a report, whose fields tshark calls by these names, and whether it has as many as it counts."""
    values, entries = Values(packet), []
    for number, address in zip(packet.numbers(names_of["type"]), packet.all(names_of["group"])):
        sources = [values.text(names_of["source"]) for _ in range(values.number(names_of["sources"]))]
        more = {"aux_data": values.text(names_of["data"])} if values.number(names_of["aux"]) else {}
        entries.append(entry("record", number, group_addr=address, sources=sources, **more))
    is_short = len(entries) < packet.number(names_of["count"])
    return {"records": entries, **({"refused": re.compile(".+")} if is_short else {})}


# Numbers below a bound are themselves; others have so many bits of mantissa, and an exponent (RFC 3376 section 4.1.1,
# RFC 3810 section 5.1.3). For some of them tshark has the number, and for others the code.

def floating(code, digits):
    """The number of a code."""
    if code < 8 << digits:
        return code
    return (code % (1 << digits) + (1 << digits)) << (code >> digits & 7) + 3


def code_of(number, digits):
    if number < 8 << digits:
        return number
    exponent = number.bit_length() - digits - 4
    return (8 + exponent << digits) + (number >> exponent + 3) - (1 << digits)


# ---- neighbor discovery and multicast listeners

def router(packet):
    octet = packet.number("icmpv6.nd.ra.flag")
    return {"hop_limit": packet.number("icmpv6.nd.ra.cur_hop_limit"),
            "flags": flags(octet, "managed", "other", "home_agent") + flags(octet << 5 & 0x80, "proxy"),
            "preference": octet >> 3 & 3, "router_lifetime": 1000 * packet.number("icmpv6.nd.ra.router_lifetime"),
            "reachable_time": packet.number("icmpv6.nd.ra.reachable_time"),
            "retrans_time": packet.number("icmpv6.nd.ra.retrans_timer")}


def neighbor(packet, number):
    if number == 134:
        return router(packet)
    if number == 135:
        return {"target_addr": packet.text("icmpv6.nd.ns.target_address")}
    if number == 136:
        told = [name for flag, name in (("r", "router"), ("s", "solicited"), ("o", "override"))
                if packet.text("icmpv6.nd.na.flag." + flag) == "1"]
        return {"flags": told, "target_addr": packet.text("icmpv6.nd.na.target_address")}
    if number == 137:
        return {"target_addr": packet.text("icmpv6.nd.rd.target_address"),
                "dest_addr": packet.text("icmpv6.rd.na.destination_address")}
    return {}


def listener(packet, number):
    if number == 143:
        of = "icmpv6.mldr.mar."
        return {"version": 2, **records(packet, {
            "count": "icmpv6.mldr.nb_mcast_records", "type": of + "record_type", "group": of + "multicast_address",
            "sources": of + "nb_sources", "source": of + "source_address", "aux": of + "aux_data_len",
            "data": of + "auxiliary_data"})}
    group = {"mcast_addr": packet.text("icmpv6.mld.multicast_address")}
    if number != 130 or payload_length(packet) == 24:
        return {"version": 1, "max_resp_delay": packet.number("icmpv6.mld.maximum_response_delay"), **group}
    delay, interval = packet.number("icmpv6.mld.maximum_response_code"), packet.number("icmpv6.mld.qqi")
    return {"version": 2, "max_resp_code": code_of(delay, 12), "max_resp_delay": delay, **group,
            "s_flag": packet.text("icmpv6.mld.flag.s") == "1", "qrv": packet.number("icmpv6.mld.flag.qrv"),
            "qqic": code_of(interval, 4), "querier_query_interval": 1000 * interval,
            "sources": packet.all("icmpv6.mld.source_address")}


def icmp6(packet, missing):
    if not packet.has("icmpv6.code"):
        return {MORE: None}
    number = packet.number("icmpv6.type")
    told = {"type": number, "code": packet.number("icmpv6.code")}
    if payload_length(packet) - missing < 8:
        return {**told, MORE: None}
    if number in (128, 129):
        return {**told, **echo(packet, packet.number("icmpv6.echo.identifier"),
                               packet.number("icmpv6.echo.sequence_number"), missing)}
    if missing:
        return {**told, MORE: None}
    if number in (130, 131, 132, 143):
        return {**told, **listener(packet, number)}
    if 133 <= number <= 137:
        return {**told, **neighbor(packet, number), **neighbor_options(packet)}
    return {**told, **(icmp6_error(packet, number) if number in ICMP6_TYPES else query(packet, "icmp6", number))}


# ---- DHCP

# The options of which tshark has values: numbers, seconds, texts, addresses, and lists of these or of numbers.
DHCP_OPTIONS = {
    1: ("subnet_mask", "address"), 3: ("router", "addresses"), 6: ("domain_name_server", "addresses"),
    12: ("hostname", "text"), 15: ("domain_name", "text"), 26: ("interface_mtu", "number"),
    28: ("broadcast_address", "address"), 42: ("ntp_server", "addresses"), 50: ("requested_ip_address", "address"),
    51: ("ip_address_lease_time", "seconds"), 53: ("dhcp", "number"), 54: ("dhcp_server_id", "address"),
    55: ("request_list_item", "numbers"), 57: ("dhcp_max_message_size", "number"),
    58: ("renewal_time_value", "seconds"), 59: ("rebinding_time_value", "seconds"), 60: ("vendor_class_id", "text"),
}


def dhcp(packet, missing):
    hardware, bits = packet.all("dhcp.hw.mac_addr"), packet.number("dhcp.flags")
    told = {"op": packet.number("dhcp.type"), "htype": packet.number("dhcp.hw.type"),
            "hlen": packet.number("dhcp.hw.len"), "hops": packet.number("dhcp.hops"),
            "transaction_id": packet.number("dhcp.id"), "secs": 1000 * packet.number("dhcp.secs"),
            "flags": flags(bits >> 8, "broadcast")}
    if bits % 0x8000:
        told["reserved_flags"] = bits % 0x8000
    for key, name in (("client", "client"), ("your", "your"), ("server", "server"), ("relay_agent", "relay")):
        told[key + "_ip"] = packet.text("dhcp.ip." + name)
    told["client_hardware_address"] = hardware[0]
    for key, name in (("server_name", "dhcp.server"), ("boot_file", "dhcp.file")):
        if packet.has(name):
            told[key] = packet.text(name)
    if missing:
        return {**told, MORE: None}
    if not packet.has("dhcp.cookie"):
        return {**told, "refused": "the magic cookie is missing", "rest": octets(payload_length(packet) - 8 - 236)}
    kinds = [number for number in packet.numbers("dhcp.option.type") if number not in (0, 255)]
    return {**told, "options": [dhcp_option(packet, *of) for of in zip(kinds, packet.all("dhcp.option.value"))]}


def dhcp_option(packet, number, value):
    if number not in DHCP_OPTIONS:
        return entry("option", number, value=value)
    name, form = DHCP_OPTIONS[number]
    values = packet.all("dhcp.option." + name)
    if form in ("number", "numbers", "seconds"):
        values = [int(text, 0) * (1000 if form == "seconds" else 1) for text in values]
    told = {"value": values if form in ("addresses", "numbers") else values[0]}
    if number == 53:
        told["value_name"] = re.compile("[a-z]+")
    return entry("option", number, **told)
