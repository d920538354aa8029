"""Captures of messages of DNS and of multicast DNS, of raw IP."""
import struct

from building import (HOST4, HOST6, SERVER4, UDP, hexed, ip4, message, name, pcap, pointer, question, record,
                      udp, udp4, udp6, v4, v6)

QUERY, ANSWER, MULTICAST, UPDATE = 0x0100, 0x8180, 0x8400, 0x2800
A, NS, CNAME, SOA, PTR, HINFO, MX, TXT, AAAA, SRV, OPT, ANY = 1, 2, 5, 6, 12, 13, 15, 16, 28, 33, 41, 255
MB, DNAME = 7, 39
MINFO, RP, AFSDB, RT, SIG, PX, NXT, NAPTR, KX, NSEC = 14, 17, 18, 21, 24, 26, 30, 35, 36, 47
EXAMPLE, WWW = name("example.com"), name("www.example.com")
# The first name of a message.
OWNER = pointer(12)


def asks(octets):
    return pcap([udp4(octets, 40000, 53)], 101)


def answers(octets):
    return pcap([udp4(octets, 53, 40000, SERVER4, HOST4)], 101)


def unsealed(octets):
    """An answer that has no checksum (RFC 768), so that the message is looked at also where an octet is damaged."""
    return pcap([ip4(udp(octets, 53, 40000, seal=False), UDP, SERVER4, HOST4)], 101)


def multicast(octets):
    return pcap([udp4(octets, 5353, 5353, HOST4, v4("224.0.0.251"))], 101)


def answer(kind, data, owner=OWNER, asked=None, **more):
    """An answer of one record, to a question of its type for example.com."""
    return answers(message(ANSWER, [question(EXAMPLE, kind if asked is None else asked)],
                           [record(owner, kind, data, **more)]))


def address(octets):
    return record(OWNER, A, octets)


def opt(data, size=1232, ttl=0x8000, owner=b"\0"):
    return record(owner, OPT, data, ttl, size)


RECORDS = {
    "dns_query": asks(message(QUERY, [question(EXAMPLE, A)])),
    "dns_query_over_ipv6": pcap([udp6(message(QUERY, [question(EXAMPLE, AAAA)]), 40000, 53)], 101),
    "dns_header_alone": asks(message(0x2C95, ident=65535)),
    "dns_flags_all": asks(message(0xFFFF, ident=0)),
    "dns_a": answer(A, v4("192.0.2.1")),
    "dns_a_of_chaos": answer(A, hexed("c00c 0001"), of_class=3),
    "dns_a_of_three_octets": answer(A, hexed("c00002")),
    "dns_aaaa": answer(AAAA, v6("2001:db8:0:1:0:0:0:1")),
    "dns_aaaa_of_15_octets": answer(AAAA, b"\0" * 15),
    "dns_ns": answer(NS, b"\3ns1" + OWNER),
    "dns_cname_and_a": answers(message(ANSWER, [question(WWW, A)], [
        record(OWNER, CNAME, pointer(16)), record(pointer(16), A, v4("192.0.2.1"))])),
    "dns_ptr": answers(message(ANSWER, [question(name("1.2.0.192.in-addr.arpa"), PTR)],
                               [record(OWNER, PTR, EXAMPLE)])),
    "dns_mx": answer(MX, hexed("000a") + b"\4mail" + OWNER),
    "dns_mx_of_one_octet": answer(MX, b"\0"),
    "dns_srv": answer(SRV, hexed("0000 0005 13c4") + name("sip.example.com")),
    "dns_soa": answer(SOA, b"\3ns1" + OWNER + b"\x0ahostmaster" + OWNER
                      + struct.pack(">IIIII", 1, 7200, 3600, 1209600, 300)),
    "dns_soa_with_an_octet_behind": answer(SOA, OWNER + OWNER + b"\0" * 21),
    "dns_txt": answer(TXT, b"\x0bv=spf1 -all" + b"\0" + b'\x09a"b\\c\0\x7f\xff;'),
    "dns_txt_of_nothing": answer(TXT, b""),
    "dns_txt_past_the_end": answer(TXT, b"\5abcd"),
    "dns_hinfo": answer(HINFO, b"\3CPU\2OS"),
    "dns_of_type_65280": answer(65280, b""),
    "dns_of_each_type_that_is_a_name": answers(message(ANSWER, [question(EXAMPLE, MB)], [
        record(OWNER, kind, b"\1x" + OWNER) for kind in (NS, 3, 4, CNAME, MB, 8, 9, PTR, DNAME)])),
    "dns_name_with_an_octet_behind": answer(CNAME, OWNER + b"\0"),
    "dns_of_no_data": answer(NS, b""),
    "dns_sections": answers(message(
        ANSWER, [question(EXAMPLE, NS)], [record(OWNER, NS, b"\2ns" + OWNER, 2 ** 32 - 1)],
        [record(OWNER, NS, pointer(41), 0)],
        [record(pointer(41), A, v4("192.0.2.53")), record(b"\0", TXT, b"\1x", of_class=4)])),
    "dns_of_every_class": asks(message(QUERY, [question(b"\0", 0, of_class) for of_class in (3, 4, 254, 255, 0, 2)])),
    "dns_octets_behind": asks(message(QUERY, [question(EXAMPLE, ANY)]) + b"\1\2\3"),
    "dns_of_named_types": asks(message(QUERY, [question(b"\0", kind) for kind in (
        35, 39, 41, 43, 44, 46, 47, 48, 50, 52, 64, 65, 99, 251, 252, 255, 257, 3, 4, 7, 8, 9, 14, 17, 18, 21, 24, 26,
        30, 36, 11)])),
    "dns_of_eleven_octets": asks(message(QUERY)[:11]),
    "dns_question_past_the_end": asks(message(QUERY, [question(EXAMPLE, A)])[:-1]),
    "dns_record_past_the_end": answers(message(ANSWER, [question(EXAMPLE, A)], [address(v4("192.0.2.1"))])[:-1]),
    "dns_record_missing": answers(message(ANSWER, [question(EXAMPLE, A)], [address(v4("192.0.2.1")), b""])),
}

# The classes of an update (RFC 2136 section 2): records of both may have no data.
NONE, EVERY = 254, 255
UPDATES = {
    "dns_update": asks(message(UPDATE, [question(EXAMPLE, SOA)], [
        record(b"\3www" + OWNER, ANY, b"", 0, EVERY), record(b"\3new" + OWNER, MX, b"", 0, NONE)], [
        record(b"\3www" + OWNER, A, b"", 0, EVERY), record(b"\3www" + OWNER, A, v4("192.0.2.1"), 0, NONE),
        record(b"\3www" + OWNER, A, v4("192.0.2.2"))])),
    "dns_update_of_no_data": asks(message(UPDATE, [question(EXAMPLE, SOA)], (), [
        record(OWNER, kind, b"", 0, of_class) for kind in (A, NS, SOA, MX, TXT, AAAA, SRV, 65280)
        for of_class in (NONE, EVERY)] + [record(OWNER, A, b"", 0)])),
    "dns_update_of_one_octet": asks(message(UPDATE, [question(EXAMPLE, SOA)], (), [
        record(OWNER, A, b"\0", 0, EVERY), record(OWNER, MX, b"\0", 0, EVERY)])),
    "dns_update_of_a_class_with_the_top_bit": asks(message(UPDATE, (), (), [record(EXAMPLE, NS, b"", 0, 0x80FF)])),
    "mdns_of_no_data": multicast(message(MULTICAST, (), [
        record(EXAMPLE, NS, b"", 0, 0x80FF), record(EXAMPLE, TXT, b"", 0, NONE), record(EXAMPLE, TXT, b"")])),
}

EXTENSIONS = {
    "dns_opt": asks(message(QUERY, [question(EXAMPLE, A)], (), (), [
        opt(hexed("000a 0008 0123456789abcdef 0003 0000"))])),
    "dns_opt_of_no_options": answers(message(ANSWER, [question(EXAMPLE, A)], (), (), [opt(b"", 4096, 0x01000000)])),
    "dns_opt_of_every_bit": answers(message(ANSWER, (), [opt(b"", 65535, 0xFFFFFFFF)])),
    "dns_opt_with_an_option_past_the_end": asks(message(QUERY, (), (), (), [opt(hexed("000a 0008 01"))])),
    "dns_opt_of_three_octets": asks(message(QUERY, (), (), (), [opt(b"\0\x0a\0")])),
}

LONG = b"\x3f" + b"x" * 63
NAMES = {
    "name_with_special_characters": asks(message(QUERY, [question(b'\x0b"$().;@\\ \x7f\0\1A\0', A)])),
    "name_of_255_octets": asks(message(QUERY, [question(LONG * 3 + b"\x3d" + b"y" * 61 + b"\0", A)])),
    "name_of_256_octets": asks(message(QUERY, [question(LONG * 3 + b"\x3e" + b"y" * 62 + b"\0", A)])),
    "name_too_long_behind_a_pointer": answers(message(ANSWER, [question(LONG * 3 + b"\0", A)], [
        record(LONG + OWNER, A, v4("192.0.2.1"))])),
    "name_that_leads_to_itself": asks(message(QUERY, [question(pointer(12), A)])),
    "name_that_leads_round": asks(message(QUERY, [question(pointer(14), A), question(pointer(12), A)])),
    "name_that_leads_past_the_end": asks(message(QUERY, [question(pointer(18), A)])),
    "name_that_leads_forward": asks(message(QUERY, [question(pointer(18), A)]) + EXAMPLE),
    "name_that_leads_to_a_header": asks(message(QUERY, [question(b"\1a" + pointer(4), A)])),
    "name_of_an_old_label": asks(message(QUERY, [question(b"\x40a\0", A)])),
    "name_of_data_that_leads_to_itself": answer(CNAME, pointer(41)),
    "name_of_three_pointers": answers(message(ANSWER, [question(WWW, A)], [
        record(OWNER, CNAME, b"\1a" + pointer(16)), record(pointer(45), A, v4("192.0.2.1"))])),
}

LOCAL = name("printer.local")
FLUSH = 0x8001
MULTICAST_NAMES = {
    "mdns_query": multicast(message(0, [question(name("_ipp._tcp.local"), PTR), question(LOCAL, A, FLUSH)], ident=0)),
    "mdns_answer": multicast(message(MULTICAST, (), [
        record(LOCAL, A, v4("192.0.2.7"), 120, FLUSH), record(OWNER, AAAA, v6("fe80::7"), 120, FLUSH),
        record(OWNER, TXT, b"\4a=b ", 4500)], ident=0)),
    "mdns_of_every_class": multicast(message(0, [question(b"\0", A, 0xFFFF)], [record(b"\0", A, b"\1", 1, 0x80FF)])),
    "mdns_opt": multicast(message(0, (), (), (), [opt(hexed("0004 0002 0001"), 0x85A0, 0x00008000)])),
    "mdns_over_ipv6": pcap([udp6(message(0, [question(LOCAL, ANY, FLUSH)]), 5353, 5353, HOST6, v6("ff02::fb"))], 101),
    "mdns_to_the_port_of_dns": pcap([udp4(message(0, [question(LOCAL, A, FLUSH)]), 5353, 53)], 101),
    "mdns_refused": multicast(message(0, [question(LOCAL, A)], [record(OWNER, A, b"\1", 1, FLUSH)])),
}

NUMBERS = struct.pack(">IIIII", 1, 7200, 3600, 1209600, 300)
LAYOUTS = {
    "dns_ns_of_an_old_label": answer(NS, b"\3ns1\x7f"),
    "dns_ptr_that_is_cut_within_a_label": answer(PTR, b"\3ns"),
    "dns_cname_of_half_a_pointer": answer(CNAME, b"\3ns1\xc0"),
    "dns_cname_that_leads_nowhere_with_an_octet_behind": answer(CNAME, pointer(500) + b"\0"),
    "dns_mx_of_no_name": answer(MX, hexed("000a")),
    "dns_mx_of_an_old_label": answer(MX, hexed("000a bf")),
    "dns_mx_with_an_octet_behind": answer(MX, hexed("000a") + OWNER + b"\0"),
    "dns_srv_of_five_octets": answer(SRV, hexed("0000 0005 13")),
    "dns_srv_of_no_name": answer(SRV, hexed("0000 0005 13c4")),
    "dns_srv_of_an_old_label": answer(SRV, hexed("0000 0005 13c4 40")),
    "dns_srv_with_an_octet_behind": answer(SRV, hexed("0000 0005 13c4") + OWNER + b"\0"),
    "dns_soa_of_no_name": answer(SOA, b"\3ns1"),
    "dns_soa_of_an_old_label": answer(SOA, b"\3ns1\x80" + OWNER + NUMBERS),
    "dns_soa_of_one_name": answer(SOA, pointer(500) + b"\x0ahost"),
    "dns_soa_of_a_name_and_an_old_label": answer(SOA, OWNER + b"\xbe" + NUMBERS),
    "dns_soa_of_19_octets": answer(SOA, pointer(500) + OWNER + NUMBERS[:-1]),
    "dns_txt_whose_second_string_is_cut": answer(TXT, b"\1a\2b"),
    "dns_a_of_five_octets": answer(A, v4("192.0.2.1") + b"\0"),
    "dns_aaaa_of_17_octets": answer(AAAA, b"\0" * 17),
    "dns_opt_whose_second_option_is_cut": asks(message(QUERY, (), (), (), [opt(hexed("0003 0000 000a 0001"))])),
    "dns_opt_whose_second_code_is_cut": asks(message(QUERY, (), (), (), [opt(hexed("0003 0000 0a"))])),
}

# What a signature is of: of A records, made by algorithm 5, with 3 labels, an hour to live, good until 1700000000 and
# from 1600000000 on, of key 12345.
SIGNED = struct.pack(">HBBIIIH", A, 5, 3, 3600, 1700000000, 1600000000, 12345)
# An order, a preference, flags, services and an expression.
RULE = hexed("0064 000a") + b"\1u\7E2U+sip" + b"\x16!^.*$!sip:\\1@\"a\".test!"
FIELDS = {
    "dns_minfo": answer(MINFO, b"\5admin" + OWNER + b"\6errors" + OWNER),
    "dns_rp": answer(RP, b"\4root" + OWNER + b"\0"),
    "dns_afsdb": answer(AFSDB, hexed("0001") + b"\3afs" + OWNER),
    "dns_rt": answer(RT, hexed("0002") + b"\5relay" + OWNER),
    "dns_kx": answer(KX, hexed("ffff") + OWNER),
    "dns_px": answer(PX, hexed("000a") + b"\3net" + pointer(20) + b"\4x400" + OWNER),
    "dns_naptr": answer(NAPTR, RULE + b"\0"),
    "dns_naptr_of_empty_strings": answer(NAPTR, hexed("0000 ffff 000000") + b"\4_sip\4_udp" + OWNER),
    "dns_sig": answer(SIG, SIGNED + OWNER + b"abcde"),
    "dns_sig_of_each_padding": answers(message(ANSWER, [question(EXAMPLE, SIG)], [
        record(OWNER, SIG, SIGNED + OWNER + hexed("00fb f03e ffff")[:size]) for size in range(7)])),
    "dns_sig_of_a_message": answer(SIG, struct.pack(">HBBIIIH", 0, 8, 0, 0, 2 ** 32 - 1, 2 ** 31, 1) + OWNER + b"\xff"),
    "dns_nxt": answer(NXT, b"\1z" + OWNER + hexed("62010002 00000000 00000000 00000001")),
    "dns_nxt_of_no_types": answer(NXT, OWNER),
    "dns_nsec": answer(NSEC, b"\4host" + OWNER + hexed("0006 400100000003 0401 40 ff02 0001")),
    "dns_nsec_of_no_maps": answer(NSEC, OWNER),
    "dns_nsec_of_32_octets": answer(NSEC, OWNER + hexed("0020") + b"\xff" * 32),
    "mdns_nsec": multicast(message(MULTICAST, (), [
        record(LOCAL, A, v4("192.0.2.7"), 120, FLUSH),
        record(OWNER, NSEC, OWNER + hexed("0005 4000800840"), 120, FLUSH)], ident=0)),
    "dns_update_of_fields_of_no_data": asks(message(UPDATE, [question(EXAMPLE, SOA)], (), [
        record(OWNER, kind, b"", 0, EVERY) for kind in (MINFO, SIG, NAPTR, NSEC)])),
    "dns_afsdb_of_one_octet": answer(AFSDB, b"\0"),
    "dns_kx_of_no_name": answer(KX, hexed("0001")),
    "dns_rt_with_an_octet_behind": answer(RT, hexed("0001") + OWNER + b"\0"),
    "dns_minfo_of_one_name": answer(MINFO, pointer(500)),
    "dns_rp_of_a_name_and_an_old_label": answer(RP, OWNER + b"\x80"),
    "dns_px_with_an_octet_behind": answer(PX, hexed("0001") + pointer(500) + OWNER + b"\0"),
    "dns_px_of_no_name": answer(PX, hexed("0001")),
    "dns_naptr_of_three_octets": answer(NAPTR, hexed("000000")),
    "dns_naptr_of_two_strings": answer(NAPTR, hexed("00010002 00 00")),
    "dns_naptr_whose_third_string_is_cut": answer(NAPTR, hexed("00010002 00 00 0561")),
    "dns_naptr_of_no_name": answer(NAPTR, hexed("00010002 000000")),
    "dns_naptr_with_an_octet_behind": answer(NAPTR, hexed("00010002 000000") + OWNER + b"\0"),
    "dns_sig_of_17_octets": answer(SIG, SIGNED[:17]),
    "dns_sig_of_no_name": answer(SIG, SIGNED),
    "dns_nxt_of_another_form": answer(NXT, OWNER + hexed("80")),
    "dns_nxt_of_17_octets": answer(NXT, pointer(500) + b"\0" * 17),
    "dns_nsec_of_half_a_map": answer(NSEC, OWNER + hexed("0001 40 00")),
    "dns_nsec_of_an_empty_map": answer(NSEC, OWNER + hexed("0000")),
    "dns_nsec_of_33_octets": answer(NSEC, OWNER + hexed("0021") + b"\0" * 33),
    "dns_nsec_of_a_map_that_is_cut": answer(NSEC, pointer(500) + hexed("0002 40")),
}


def at_section(place, octets):
    """A message with octets where the first question or record should begin of the section with this number."""
    return asks(message(QUERY, *[[octets] if at == place else () for at in range(place + 1)]))


# What is no question and no record. The last one is a whole question, whose name does not read.
TORN = {
    "missing": b"", "of_half_a_name": b"\3www", "of_half_a_pointer": b"\1a\xc0", "of_an_old_label": b"\1a\xbf\0",
    "with_half_its_fields": OWNER + hexed("0001 00"), "of_cut_data": record(pointer(500), A, b"\0\0\0\0")[:-1],
}
ENTRIES = {"dns_%s_%s" % (section, what): at_section(place, octets) for what, octets in TORN.items()
           for place, section in enumerate(("question", "answer", "authority", "additional"))}

# A question with octets in its label, from place 13 on, that are no names: a label, at place 17 a pointer to it, and at
# place 19 the first octet of an old label.
HELD = question(b"\7\3www" + pointer(13) + b"\x80\0", A)
# Names that do not read, though each is whole in its place.
UNREAD = {
    "cut_behind_pointers": pointer(17), "of_an_old_label_behind_a_pointer": b"\1a" + pointer(19),
    "that_leads_nowhere": b"\1a" + pointer(500), "of_257_octets": LONG * 4 + b"\0",
    "of_257_octets_and_more_that_leads_nowhere": LONG * 4 + pointer(500),
}


def with_name(octets):
    """Messages that have a name in each of the places where one is read."""
    def holding(*records):
        return answers(message(ANSWER, [HELD], records))
    return {
        "question": asks(message(QUERY, [HELD, question(octets, A)])), "owner": holding(record(octets, A, b"")),
        "owner_of_opt": holding(opt(b"\0", owner=octets)), "ns": holding(record(b"\0", NS, octets)),
        "mx": holding(record(b"\0", MX, b"\0\1" + octets)), "srv": holding(record(b"\0", SRV, b"\0" * 6 + octets)),
        "first_of_soa": holding(record(b"\0", SOA, octets + pointer(19) + NUMBERS)),
        "second_of_soa": holding(record(b"\0", SOA, b"\0" + octets + NUMBERS)),
        "naptr": holding(record(b"\0", NAPTR, b"\0" * 7 + octets)),
        "nsec": holding(record(b"\0", NSEC, octets + hexed("0001 40"))),
        "first_of_px": holding(record(b"\0", PX, b"\0\1" + octets + pointer(19))),
        "second_of_px": holding(record(b"\0", PX, b"\0\1\0" + octets)),
    }


UNREAD_NAMES = {"name_%s_%s" % (what, where): capture for what, octets in UNREAD.items()
                for where, capture in with_name(octets).items()}

UNSEALED = {
    "dns_unsealed_names": unsealed(message(ANSWER, [question(WWW, A)], [
        record(OWNER, CNAME, b"\1a" + pointer(16)), record(pointer(45), A, v4("192.0.2.1"))], [
        record(pointer(16), SOA, b"\3ns1" + pointer(16) + b"\1h" + pointer(16) + NUMBERS)])),
    "dns_unsealed_records": unsealed(message(ANSWER, [question(EXAMPLE, ANY)], [
        record(OWNER, AAAA, v6("2001:db8::1")), record(OWNER, MX, hexed("000a") + OWNER),
        record(OWNER, SRV, hexed("0000 0005 13c4") + OWNER)], [record(OWNER, TXT, b"\1a\0")], [
        record(OWNER, NS, b"\2ns" + OWNER), opt(hexed("000a 0002 0123 0003 0000"))])),
    "dns_unsealed_fields": unsealed(message(ANSWER, [question(EXAMPLE, ANY)], [
        record(OWNER, RP, b"\1a" + OWNER + OWNER), record(OWNER, PX, hexed("0001") + OWNER + b"\1x" + OWNER),
        record(OWNER, NAPTR, hexed("0001 0002") + b"\1u\0\1e" + OWNER), record(OWNER, SIG, SIGNED + OWNER + b"ab")], [
        record(OWNER, NXT, OWNER + hexed("6001")), record(OWNER, NSEC, OWNER + hexed("0002 4001 0101 40"))])),
}

# ---- LLMNR (RFC 4795) and the NetBIOS name service (RFC 1002 section 4.2)

LINK_LOCAL_NAMES = {
    "llmnr_query": pcap([udp4(message(0, [question(name("host"), ANY)]), 40000, 5355, HOST4, v4("224.0.0.252"))], 101),
    "llmnr_answer": pcap([udp6(message(0x8500, [question(name("host"), AAAA)], [record(OWNER, AAAA, HOST6, 30)]), 5355,
                               40000)], 101),
    "llmnr_of_every_flag": pcap([udp4(message(0x87F0), 5355, 5355)], 101),
    "llmnr_to_the_port_of_nbns": pcap([udp4(message(0, [question(name("host"), A)]), 137, 5355)], 101),
}

NB, NBSTAT = 32, 33


def netbios(text, suffix=0x20, scope=b"\0", fill=b" "):
    """A name of 15 characters and a suffix, of which each half octet is a letter (RFC 1001 section 14.1)."""
    octets = text.encode().ljust(15, fill) + bytes([suffix])
    return b"\x20" + bytes(65 + half for octet in octets for half in (octet >> 4, octet & 15)) + scope


def names(octets, source=HOST4, destination=v4("192.0.2.255")):
    return pcap([udp4(octets, 137, 137, source, destination)], 101)


FRED = netbios("FRED")
ADDRESS = hexed("6000") + HOST4
STATUS = b"\x02" + b"FRED".ljust(15) + hexed("00 0400") + b"WORK".ljust(15) + hexed("00 8400") + b"\1" * 46
NETBIOS = {
    "nbns_query": names(message(0x0110, [question(FRED, NB)])),
    "nbns_answer": names(message(0x8580, (), [record(FRED, NB, ADDRESS, 300000)])),
    "nbns_registration": names(message(0x2910, [question(netbios("WORK", 0, b"\7example\0"), NB)], (), (), [
        record(OWNER, NB, hexed("e000") + HOST4)])),
    "nbns_refused": names(message(0xAD86, (), [record(FRED, NB, ADDRESS, 0)])),
    "nbns_of_two_addresses": names(message(0x8500, (), [record(FRED, NB, ADDRESS + hexed("0000") + SERVER4)])),
    "nbns_of_seven_octets": names(message(0x8500, (), [record(FRED, NB, ADDRESS + b"\0")])),
    "nbns_status_query": names(message(0, [question(netbios("*", 0, fill=b"\0"), NBSTAT)])),
    "nbns_status": names(message(0x8400, (), [record(FRED, NBSTAT, STATUS, 0)])),
    "nbns_status_that_is_cut": names(message(0x8400, (), [record(FRED, NBSTAT, STATUS[:30], 0)])),
    "nbns_of_every_flag": names(message(0xFFFF)),
    "nbns_of_other_names": names(message(0x0110, [question(name(text), NB) for text in (
        "short", "A" * 31, "a" * 32, "Q" * 32, "EGFCEFEECACACACACACACACACACACAAA.EGFCEFEECACACACACACACACACACACAAA")])),
    "nbns_over_ipv6": pcap([udp6(message(0x0110, [question(FRED, NB)]), 137, 137)], 101),
    "nbns_release": names(message(0x3010, [question(FRED, NB)], (), (), [record(OWNER, NB, ADDRESS, 0)])),
    "nbns_wait": names(message(0xBC00, (), [record(FRED, 10, hexed("2910"), 30)])),
    "nbns_that_leads_round": names(message(0x0110, [question(b"\x20" + b"CA" * 16 + pointer(12), NB)])),
}

DNS = {}
for _table in (RECORDS, UPDATES, EXTENSIONS, NAMES, MULTICAST_NAMES, LAYOUTS, FIELDS, ENTRIES, UNREAD_NAMES, UNSEALED,
               LINK_LOCAL_NAMES, NETBIOS):
    assert not DNS.keys() & _table.keys()
    DNS.update(_table)
