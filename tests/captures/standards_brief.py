"""Captures of messages of which brief lines tell something that no other capture here has, of raw IP."""
from building import (GROUP4, HOST4, HOST6, LINK_A, LINK_B, NOON, SERVER4, UDP, dhcp, hexed, icmp4, igmp, ip4, ip6,
                      ip6_icmp6, message, pcap, pcap_header, pcap_record, pointer, question, record, udp4, v4)
from standards_dns import (A, ANSWER, ANY, CNAME, EXAMPLE, FRED, NAPTR, NB, NBSTAT, OWNER, QUERY, SIG, SIGNED, TXT,
                           answer, answers, asks, multicast, names, opt)
from standards_messages import (ADVERT, ECHO, EVERYONE, GROUP6, MTU, PREFIX, SOURCE_LINK, TARGET, TARGET_LINK,
                                UDP_QUOTE, ZERO, listener, raw, with_field)


def string(size):
    return bytes([size]) + b"s" * size


NAMES = {
    "brief_strings_of_64_octets": answer(TXT, string(0) + string(62)),
    "brief_strings_of_65_octets": answer(TXT, string(63) + string(0)),
    "brief_strings_of_a_rule": answer(NAPTR, hexed("0001 0002") + string(65) + string(1) + string(255) + OWNER),
    "brief_data_of_32_octets": answer(65280, b"\5" * 32),
    "brief_data_of_33_octets": answer(65280, b"\5" * 33),
    "brief_data_of_another_type": answer(65280, b"\5" * 33, asked=A),
    "brief_data_of_another_class": answer(A, b"\5" * 33, of_class=3),
    "brief_signature_of_33_octets": answer(SIG, SIGNED + OWNER + b"\5" * 33),
    "brief_opt_of_a_cut_option": answers(message(ANSWER, [question(EXAMPLE, A)], [
        opt(hexed("000a 0008 0123456789abcdef 0003 0001"))])),
    "brief_answer_of_another_type_that_is_cut": answer(CNAME, b"\3www", asked=A),
    "brief_answer_behind_two_questions": answers(message(ANSWER, [question(EXAMPLE, ANY), question(OWNER, A)], [
        record(OWNER, A, HOST4), record(OWNER, A, SERVER4)])),
    "brief_answer_behind_a_torn_question": answers(message(ANSWER, [question(EXAMPLE, A), b"\1a\xbf\0"], [
        record(OWNER, A, HOST4)])),
    "brief_answer_behind_a_question_of_no_name": answers(message(ANSWER, [
        question(EXAMPLE, A), question(pointer(500), A)], [record(OWNER, A, HOST4)])),
    "brief_answer_of_no_owner": answers(message(ANSWER, [question(EXAMPLE, A)], [record(pointer(500), A, HOST4)])),
    "brief_answer_of_no_owner_and_no_question": multicast(message(0x8400, (), [record(pointer(500), A, HOST4)])),
    "brief_answer_missing": answers(message(ANSWER, [question(EXAMPLE, A)], [b"", b""])),
    "brief_answer_missing_and_no_question": multicast(message(0x8400, (), [b"", b""])),
    "brief_query_of_known_answers": multicast(message(0, [question(EXAMPLE, A)], [record(OWNER, A, HOST4)])),
    "brief_query_of_an_answer_alone": multicast(message(0, (), [record(EXAMPLE, A, HOST4)])),
    "brief_query_that_is_truncated": asks(message(QUERY | 0x2200, [question(EXAMPLE, A)])),
    "brief_of_numbers": answers(message(0x9F8C, [question(EXAMPLE, 65280)])),
    "brief_nbns_of_no_address": names(message(0x8500, (), [record(FRED, NB, b"")])),
    "brief_nbns_of_half_an_address": names(message(0x8500, (), [record(FRED, NB, hexed("6000 c0"))])),
    "brief_nbns_status_of_no_names": names(message(0x8400, (), [record(FRED, NBSTAT, b"\0" * 47, 0)])),
    "brief_nbns_status_of_no_octets": names(message(0x8400, (), [record(FRED, NBSTAT, b"", 0)])),
    "brief_nbns_status_of_a_missing_name": names(message(0x8400, (), [record(FRED, NBSTAT, b"\1", 0)])),
    "brief_nbns_status_of_half_a_name": names(message(0x8400, (), [record(FRED, NBSTAT, b"\2FRED", 0)])),
    "brief_nbns_data_of_33_octets": names(message(0x8500, (), [record(FRED, TXT, b"\5" * 33)])),
}


def leases(octets):
    return raw(udp4(octets, 68, 67, ZERO, EVERYONE))


def held(client="0.0.0.0", given="0.0.0.0"):
    """The addresses of a packet: that of the client, and the one that is given."""
    return v4(client) + v4(given) + b"\0" * 8


LEASES = {
    "brief_dhcp_of_a_client": leases(dhcp(1, hexed("350108 ff"), addresses=held("192.0.2.50"))),
    "brief_dhcp_of_an_answered_client": leases(dhcp(2, hexed("350105 3604c0000201 3304 00000e10 ff"),
                                                    addresses=held("192.0.2.50"))),
    "brief_dhcp_of_two_addresses": leases(dhcp(1, hexed("350103 3204c0000264 ff"), addresses=held("192.0.2.50"))),
    "brief_dhcp_of_three_addresses": leases(dhcp(2, hexed("350102 3204c0000264 ff"),
                                                 addresses=held("192.0.2.50", "192.0.2.51"))),
    "brief_dhcp_of_a_given_address": leases(dhcp(1, hexed("ff"), addresses=held("192.0.2.50", "192.0.2.51"))),
    "brief_dhcp_of_a_reply": leases(dhcp(2, hexed("3604c0000201 ff"), addresses=held(given="192.0.2.51"))),
    "brief_dhcp_of_no_address_asked": leases(dhcp(1, hexed("350103 3204 00000000 ff"), addresses=held("192.0.2.50"))),
    "brief_dhcp_of_an_endless_lease": leases(dhcp(2, hexed("350105 3304 ffffffff ff"),
                                                  addresses=held(given="192.0.2.51"))),
    "brief_dhcp_of_another_operation": leases(dhcp(3, hexed("ff"))),
    "brief_dhcp_of_no_hardware": leases(dhcp(1, hexed("350101 ff"), hardware=b"\1\0\0")),
    "brief_dhcp_of_no_number": leases(dhcp(1, hexed("3500 ff"))),
    "brief_dhcp_of_three_octets_asked": leases(dhcp(1, hexed("350103 3203c00002 ff"), addresses=held("192.0.2.50"))),
    "brief_dhcp_of_a_server_of_three_octets": leases(dhcp(2, hexed("350105 3603c00002 3304 00000e10 ff"),
                                                          addresses=held(given="192.0.2.51"))),
    "brief_dhcp_of_a_lease_of_three_octets": leases(dhcp(2, hexed("350105 3604c0000201 3303 000e10 ff"),
                                                         addresses=held(given="192.0.2.51"))),
    "brief_dhcp_whose_server_is_cut": leases(dhcp(2, hexed("350105 3304 00000e10 3604c00002"),
                                                  addresses=held(given="192.0.2.51"))),
    "brief_dhcp_of_no_cookie": leases(with_field(dhcp(2, b"", addresses=held(given="192.0.2.51")), 236, ZERO)),
    "brief_dhcp_of_a_server_in_a_field": leases(with_field(dhcp(2, hexed("340101 350102 ff"), addresses=held(
        given="192.0.2.51")), 108, hexed("3604c0000201 ff"))),
}

QUOTE6 = ip6(hexed("9c40 0035 05b0 0000 01"), UDP, length=1456)
ICMP = {
    "brief_icmp4_of_numbers": raw(icmp4(200, 0, ZERO), icmp4(200, 7, ZERO), icmp4(3, 77, ZERO, UDP_QUOTE),
                                  icmp4(11, 2, ZERO, ip4(b"\0" * 8, 99)), icmp4(4, 1, ZERO, UDP_QUOTE)),
    "brief_icmp4_of_another_quote": raw(icmp4(5, 1, v4("192.0.2.9"), b"\x65" + UDP_QUOTE[1:]),
                                        icmp4(3, 4, hexed("0000 0578"), UDP_QUOTE[:19]),
                                        icmp4(12, 0, hexed("14 000000"), UDP_QUOTE[:27])),
    "brief_icmp4_that_ends": raw(*(ip4(icmp4(kind, 1, ECHO)[20:20 + length], 1) for kind in (3, 8, 13)
                                   for length in (0, 3, 4, 7))),
    "brief_icmp6_of_numbers": raw(ip6_icmp6(200, 0, ZERO), ip6_icmp6(200, 7, ZERO), ip6_icmp6(1, 77, ZERO, QUOTE6),
                                  ip6_icmp6(3, 0, ZERO, ip6(b"", 99)), ip6_icmp6(138, 255, ZERO)),
    "brief_icmp6_of_another_quote": raw(ip6_icmp6(2, 0, hexed("00000500"), QUOTE6[:39]),
                                        ip6_icmp6(4, 1, hexed("00000028"), b"\x40" + QUOTE6[1:])),
    # The options of the quote end where it ends: what follows is no UDP, but an extension structure (RFC 4884).
    "brief_icmp6_of_extensions_behind_a_quote": raw(ip6_icmp6(1, 0, hexed("10000000"), ip6(
        hexed("110a0154") + b"\0" * 84, 60, LINK_A, LINK_B, 255, length=96) + hexed("20001a30 00080101 61626364"))),
    "brief_icmp6_that_ends": raw(*(ip6(ip6_icmp6(kind, 1, ECHO)[40:40 + length], 58) for kind in (1, 128, 133, 155)
                                   for length in (0, 3, 4, 7))),
}


def advertised(*options):
    return ip6_icmp6(134, 0, ADVERT[:4], ADVERT[4:] + b"".join(options))


SHORT_PREFIX, TORN = b"\3\1" + b"\0" * 6, b"\5\0" + b"\0" * 6
LINKS = (SOURCE_LINK, TARGET_LINK, SOURCE_LINK + TARGET_LINK, TARGET_LINK + TORN, TORN + TARGET_LINK, TARGET_LINK[:7],
         b"\2\2" + b"\7" * 14, MTU[:7])
NEIGHBORS = {
    "brief_router_of_three_prefixes": raw(advertised(PREFIX, MTU, PREFIX, PREFIX)),
    "brief_router_of_other_prefixes": raw(advertised(SHORT_PREFIX, PREFIX), advertised(PREFIX, SHORT_PREFIX),
                                          advertised(PREFIX, PREFIX[:31]), advertised(PREFIX, TORN),
                                          advertised(TORN, PREFIX), advertised(PREFIX, b"\3")),
    "brief_solicitation_of_other_addresses": raw(*(ip6_icmp6(135, 0, ZERO, TARGET + options) for options in LINKS)),
    "brief_advertisement_of_other_addresses": raw(*(ip6_icmp6(136, 0, ZERO, TARGET + options) for options in LINKS)),
    "brief_redirect_that_ends": raw(ip6_icmp6(137, 0, ZERO, TARGET + HOST6 + TORN),
                                    ip6_icmp6(137, 0, ZERO, TARGET + HOST6[:15])),
}

# ---- reports of each record, with no sources and with one

def records4(*kinds):
    """A report of records of these types, and of one source each where it is negative."""
    body = b"".join(bytes([abs(kind), 0, 0, kind < 0]) + GROUP4 + (HOST4 if kind < 0 else b"") for kind in kinds)
    return igmp(0x22, 0, hexed("0000") + len(kinds).to_bytes(2, "big") + body, destination=v4("224.0.0.22"))


def records6(*kinds):
    body = b"".join(bytes([abs(kind), 0, 0, kind < 0]) + GROUP6 + (HOST6 if kind < 0 else b"") for kind in kinds)
    return listener(143, hexed("0000") + len(kinds).to_bytes(2, "big"), body)


KINDS = ((1, 2, 3), (4, 5, 6), (-1, -2, -3), (-4, -5, -6), (0, 7, 255), (1, 2, 3, 4), ())
GROUPS = {
    "brief_report_of_each_record": raw(*(records4(*kinds) for kinds in KINDS)),
    "brief_mld_report_of_each_record": raw(*(records6(*kinds) for kinds in KINDS)),
    "brief_report_of_ten_records": raw(records4(*[1] * 10)),
    "brief_report_whose_fourth_record_is_cut": raw(igmp(0x22, 0, hexed("0000 0004") + (hexed("0400 0000") + GROUP4) * 3
                                                        + hexed("0400"), destination=v4("224.0.0.22"))),
    "brief_report_whose_third_record_is_cut": raw(igmp(0x22, 0, hexed("0000 0009") + (hexed("0400 0000") + GROUP4) * 2
                                                       + hexed("0400"), destination=v4("224.0.0.22"))),
    "brief_queries_that_end": raw(*(igmp(0x11, 0x64, GROUP4 + b"\0" * size) for size in range(5)),
                                  *(listener(130, ZERO, GROUP6[:size]) for size in (15, 16)),
                                  *(listener(130, ZERO, GROUP6 + b"\0" * size) for size in (1, 3, 4))),
}

TIMES = {
    "brief_times_of_a_day": pcap_header(101) + b"".join(
        pcap_record(icmp4(8, 0, ECHO), seconds, part) for seconds, part in (
            (0, 0), (86399, 999999), (NOON, 999), (NOON, 1000), (2 ** 32 - 1, 123456))),
    "brief_times_of_nanoseconds": pcap([icmp4(8, 0, ECHO)], 101, digits=9, part=999999999),
}

BRIEF = {**NAMES, **LEASES, **ICMP, **NEIGHBORS, **GROUPS, **TIMES}
