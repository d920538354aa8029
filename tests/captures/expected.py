"""What pcapdump --json is to print of a packet, told by the fields that tshark has of it (fields.py): the members of
the object, in their order.

Some values are patterns, since tshark tells some octets by what they mean, or only how many they are. The names of
numbers are left to damage."""

import re

import contents_queries
import names
from contents import ICMP4_TYPES, ICMP6_TYPES, dhcp, hop_by_hop, icmp4, icmp6, igmp
from datagrams import destination, has_header, headers, is_cut, messages_over_tcp, payload_length, ports, version
from patterns import octets

IGMP_TYPES = (0x11, 0x12, 0x16, 0x17, 0x22)

# The fields of tshark that are in the table of a capture.
FIELDS = '''
frame.number frame.time_epoch frame.len frame.cap_len frame.protocols vlan.id ieee8021ad.id
ip.src ip.dst ip.proto ip.dsfield ip.len ip.id ip.flags.df ip.flags.mf ip.frag_offset ip.ttl ip.hdr_len
ip.checksum.status ip.fragment ip.reassembled_in ip.reassembled.length gre.proto
ipv6.src ipv6.dst ipv6.tclass ipv6.flow ipv6.plen ipv6.nxt ipv6.hlim ipv6.hopopts.nxt ipv6.hopopts.len
ipv6.dstopts.nxt ipv6.dstopts.len ipv6.routing.nxt ipv6.routing.len ipv6.routing.segleft ipv6.routing.type
ipv6.routing.srh.addr ipv6.fraghdr.nxt ipv6.fraghdr.offset ipv6.fraghdr.more ipv6.fraghdr.ident
ipv6.fragment ipv6.reassembled.in ipv6.reassembled.length
ipv6.opt.type ipv6.opt.length
ipv6.opt.router_alert ipv6.opt.padn ipv6.opt.experimental ipv6.opt.unknown
udp.srcport udp.dstport udp.length udp.checksum.status tcp.srcport tcp.dstport tcp.len tcp.checksum.status
icmp.type icmp.code icmp.checksum.status icmp.ident icmp.seq icmp.mtu icmp.redir_gw icmp.pointer icmp.length
icmp.originate_timestamp icmp.receive_timestamp icmp.transmit_timestamp icmp.address_mask icmp.num_addrs
icmp.addr_entry_size icmp.lifetime icmp.router_address icmp.pref_level
icmp.ext.version icmp.ext.checksum.status icmp.ext.length icmp.ext.class icmp.ext.ctype icmp.ext.data
icmp.mpls.label icmp.mpls.exp icmp.mpls.s icmp.mpls.ttl icmp.int_info.role icmp.int_info.ifindex icmp.int_info.ipaddr
icmp.int_info.name_present icmp.int_info.mtu_present icmp.int_info.index icmp.int_info.afi icmp.int_info.ipv4
icmp.int_info.ipv6 icmp.int_info.name icmp.int_info.mtu icmp.int_ident.name icmp.int_ident.index icmp.int_ident.afi
icmp.int_ident.addr_length icmp.int_ident.ipv4 icmp.int_ident.ipv6 icmp.ext.echo.seq icmp.ext.echo.req.local
icmp.ext.echo.rsp.state icmp.ext.echo.rsp.active icmp.ext.echo.rsp.ipv4 icmp.ext.echo.rsp.ipv6
data.data
igmp.type igmp.max_resp igmp.maddr igmp.version igmp.checksum.status igmp.s igmp.qrv igmp.qqic igmp.num_src igmp.saddr
igmp.num_grp_recs igmp.record_type igmp.aux_data_len igmp.aux_data
icmpv6.type icmpv6.code icmpv6.checksum.status icmpv6.echo.identifier icmpv6.echo.sequence_number icmpv6.mtu
icmpv6.length icmpv6.ext.echo.seq icmpv6.ext.echo.req.local icmpv6.ext.echo.rsp.state icmpv6.ext.echo.rsp.active
icmpv6.ext.echo.rsp.ipv4 icmpv6.ext.echo.rsp.ipv6 icmpv6.ni.qtype icmpv6.ni.flag icmpv6.ni.nonce
icmpv6.ni.query.subject_ipv6 icmpv6.ni.query.subject_fqdn icmpv6.ni.query.subject_ipv4 icmpv6.ni.reply.node_ttl
icmpv6.ni.reply.node_name icmpv6.ni.reply.node_address icmpv6.ni.reply.ipv4_address
icmpv6.pointer icmpv6.nd.ns.target_address icmpv6.nd.na.target_address icmpv6.nd.na.flag.r icmpv6.nd.na.flag.s
icmpv6.nd.na.flag.o icmpv6.nd.rd.target_address icmpv6.rd.na.destination_address icmpv6.opt.type icmpv6.opt.linkaddr
icmpv6.opt.length icmpv6.opt.rdnss icmpv6.opt.rdnss.lifetime icmpv6.opt.dnssl icmpv6.opt.dnssl.lifetime
icmpv6.opt.nonce icmpv6.opt.route_info.flag icmpv6.opt.route_lifetime icmpv6.opt.captive_portal
icmpv6.opt.pref64.scaled_lifetime icmpv6.opt.pref64.plc icmpv6.opt.pref64.prefix
icmpv6.opt.mtu icmpv6.opt.prefix.length
icmpv6.opt.prefix.flag icmpv6.opt.prefix.valid_lifetime
icmpv6.opt.prefix.preferred_lifetime icmpv6.opt.prefix icmpv6.nd.ra.cur_hop_limit icmpv6.nd.ra.flag
icmpv6.nd.ra.router_lifetime icmpv6.nd.ra.reachable_time icmpv6.nd.ra.retrans_timer
icmpv6.mld.maximum_response_code icmpv6.mld.maximum_response_delay icmpv6.mld.multicast_address icmpv6.mld.flag.s
icmpv6.mld.flag.qrv icmpv6.mld.qqi icmpv6.mld.nb_sources icmpv6.mld.source_address icmpv6.mldr.nb_mcast_records
icmpv6.mldr.mar.record_type
icmpv6.mldr.mar.aux_data_len icmpv6.mldr.mar.nb_sources icmpv6.mldr.mar.multicast_address
icmpv6.mldr.mar.source_address icmpv6.mldr.mar.auxiliary_data
dhcp.type dhcp.hw.type dhcp.hw.len dhcp.hops dhcp.id dhcp.secs dhcp.flags dhcp.hw.mac_addr dhcp.ip.client dhcp.ip.your
dhcp.ip.server dhcp.ip.relay dhcp.server dhcp.file dhcp.cookie dhcp.option.type dhcp.option.value dhcp.option.dhcp
dhcp.option.router dhcp.option.subnet_mask dhcp.option.requested_ip_address dhcp.option.dhcp_server_id
dhcp.option.request_list_item dhcp.option.domain_name_server dhcp.option.dhcp_max_message_size
dhcp.option.ip_address_lease_time dhcp.option.renewal_time_value dhcp.option.rebinding_time_value
dhcp.option.broadcast_address dhcp.option.ntp_server dhcp.option.hostname dhcp.option.vendor_class_id
dhcp.option.domain_name dhcp.option.interface_mtu
dns.length dns.id dns.flags dns.count.queries dns.count.answers dns.count.auth_rr dns.count.add_rr dns.count.zones
dns.count.prerequisites dns.count.updates dns.qry.name dns.qry.type dns.qry.class dns.qry.qu dns.resp.name
dns.resp.type
dns.resp.class dns.resp.cache_flush dns.resp.ttl dns.resp.len dns.a dns.aaaa dns.ns dns.cname dns.ptr.domain_name
dns.mx.preference dns.mx.mail_exchange dns.srv.priority dns.srv.weight dns.srv.port dns.srv.target dns.srv.service
dns.srv.proto dns.srv.name dns.soa.mname
dns.soa.rname dns.soa.serial_number dns.soa.refresh_interval dns.soa.retry_interval dns.soa.expire_limit
dns.soa.minimum_ttl dns.txt dns.txt.length dns.data dns.rr.udp_payload_size dns.resp.ext_rcode dns.resp.edns0_version
dns.resp.z dns.opt.code dns.opt.len dns.opt.data
nbns.id nbns.flags nbns.count.queries nbns.count.answers nbns.count.auth_rr nbns.count.add_rr nbns.name nbns.type
nbns.class nbns.ttl nbns.data_length nbns.nb_flags nbns.addr nbns.number_of_names nbns.netbios_name nbns.name_flags
nbns.unit_id
_ws.malformed
'''.split()


def front(packet, its_kind):
    """The members in front of those of the message; time and link stand in the capture alone."""
    family = "ip" if version(packet) == 4 else "ipv6"
    is_told = has_header(packet)
    both = ports(packet) if is_told else None
    return {
        "number": packet.number("frame.number"), "length": packet.number("frame.cap_len"),
        "original_length": packet.number("frame.len"),
        "vlans": packet.numbers("ieee8021ad.id") + packet.numbers("vlan.id"),
        **({"tunnels": packet.tunnels} if packet.tunnels else {}),
        "src_addr": packet.text(family + ".src") if is_told else None,
        "dst_addr": destination(packet) if is_told else None,
        "src_port": both and both[0], "dst_port": both and both[1],
        **({"frames": packet.frames} if packet.frames else {}),
        **({"transport": "tcp"} if over_tcp(packet) else {}), "kind": its_kind,
    }


def over_tcp(packet):
    return messages_over_tcp(packet) if has_header(packet) and headers(packet)[-1] == 6 else 0


# ---- refusals

def refusal(packet, its_kind):
    """The reason under which a packet is counted, or None where it is listed."""
    if is_cut(packet):
        return "cut"
    if packet.part == "refused":
        return "fragment"
    if has_wrong_header(packet) or checksum(packet, its_kind) == "bad":
        return "checksum"
    if over_tcp(packet):
        return None
    if its_kind in TYPES:
        protocol, known = TYPES[its_kind]
        number = packet.number(protocol + ".type")
        if number in contents_queries.READERS.get(its_kind, ()):
            return contents_queries.refusal(packet, its_kind, number)
        if number not in known:
            return "type"
        # A report may count more records than it has.
        counted = packet.numbers("igmp.num_grp_recs") + packet.numbers("icmpv6.mldr.nb_mcast_records")
        there = packet.all("igmp.record_type") + packet.all("icmpv6.mldr.mar.record_type")
        return "short" if counted and counted[0] > len(there) else None
    if its_kind == "dhcp":
        return None if packet.has("dhcp.cookie") else "malformed"
    if its_kind != "nbns" and packet.number("udp.length") < 8 + 12:
        return "short"
    return "malformed" if packet.has("_ws.malformed") else None


TYPES = {"icmp4": ("icmp", ICMP4_TYPES), "icmp6": ("icmpv6", ICMP6_TYPES), "igmp": ("igmp", IGMP_TYPES)}


def has_wrong_header(packet):
    """Whether the checksum of the header of IPv4 is wrong, of a datagram that came as one."""
    return version(packet) == 4 and packet.part != "joined" and packet.all("ip.checksum.status")[:1] == ["0"]


def checksum(packet, its_kind):
    """What tshark says of a checksum."""
    protocol = TYPES[its_kind][0] if its_kind in TYPES else "tcp" if over_tcp(packet) else "udp"
    status = packet.number(protocol + ".checksum.status") if packet.has(protocol + ".checksum.status") else 2
    if status == 3:
        return "none" if version(packet) == 4 else "bad"
    return {0: "bad", 1: "good", 2: "unverified"}[status]


PROTOCOLS = {0: "Hop-by-Hop", 1: "ICMP", 2: "IGMP", 6: "TCP", 17: "UDP", 43: "IPv6-Route", 44: "IPv6-Frag",
             58: "ICMPv6", 60: "IPv6-Opts"}


def head(packet):
    """What is told of a datagram that is cut or a fragment, as a pattern: of IPv6 where it is cut the fixed header
    alone, and else the header of the fragment."""
    if version(packet) == 6:
        both = f'{packet.text("ipv6.src")} > {packet.text("ipv6.dst") if is_cut(packet) else destination(packet)}'
        if is_cut(packet):
            return re.escape(f'{both} protocol={PROTOCOLS[packet.number("ipv6.nxt")]}')
        protocol, ident = packet.number("ipv6.fraghdr.nxt"), packet.number("ipv6.fraghdr.ident")
        offset, more = packet.number("ipv6.fraghdr.offset"), packet.text("ipv6.fraghdr.more")
    else:
        both = f'{packet.text("ip.src")} > {packet.text("ip.dst")}'
        protocol, ident = packet.number("ip.proto"), packet.number("ip.id")
        offset, more = packet.number("ip.frag_offset"), packet.text("ip.flags.mf")
    return re.escape(f"{both} protocol={PROTOCOLS[protocol]} ident={ident} frag_offset={8 * offset} "
                     f'more_frags={"true" if more in ("1", "True") else "false"}')


def refused(packet, reason):
    """Why nothing of a datagram is read."""
    if reason == "fragment":
        return {"refused": re.compile(".+")}
    why = "cut short, " + head(packet) if has_header(packet) else "fewer bytes than the .* has"
    return {"refused": re.compile(why)}


def objects(packet, its_kind, reason):
    """The members of each object of a packet, in their order: of a segment of TCP there are as many as messages."""
    told, missing = front(packet, its_kind), 0
    if has_wrong_header(packet):
        told["ip_checksum"] = "bad"
    if reason == "fragment" or packet.part == "cut" or reason == "cut" and its_kind == "frame":
        return [{**told, **refused(packet, reason)}]
    if version(packet) == 6 and packet.number("ipv6.nxt") == 0:
        told["hop_by_hop"] = hop_by_hop(packet)
    told["checksum"] = checksum(packet, its_kind)
    if over_tcp(packet):
        return [{**told, **message} for message in names.messages_over_tcp(packet)]
    if reason == "cut":
        missing = told["cut"] = packet.number("frame.len") - packet.number("frame.cap_len")
        told["checksum"] = "unverified"
    if its_kind not in TYPES and payload_length(packet) - missing < 8:
        return [{**told, "refused": "fewer than 8 bytes", "octets": octets(payload_length(packet) - missing)}]
    reader = {"icmp4": icmp4, "igmp": igmp, "icmp6": icmp6, "dhcp": dhcp, "nbns": names.netbios}.get(its_kind)
    return [{**told, **(reader or names.message)(packet, missing)}]
