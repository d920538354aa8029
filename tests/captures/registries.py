"""The names of numbers, by IANA's registries and the RFCs that are named, in lower case with underscores; those of DNS
and of links are as their registries write them."""

# ---- links: https://www.tcpdump.org/linktypes.html, of those that are described there

LINKS = {
    0: "NULL", 1: "ETHERNET", 2: "EXP_ETHERNET", 3: "AX25", 4: "PRONET", 5: "CHAOS", 6: "IEEE802_5", 7: "ARCNET_BSD",
    8: "SLIP", 9: "PPP", 10: "FDDI", 50: "PPP_HDLC", 51: "PPP_ETHER", 99: "SYMANTEC_FIREWALL", 100: "ATM_RFC1483",
    101: "RAW", 104: "C_HDLC", 105: "IEEE802_11", 106: "ATM_CLIP", 107: "FRELAY", 108: "LOOP", 109: "ENC",
    113: "LINUX_SLL", 114: "LTALK", 117: "PFLOG", 119: "IEEE802_11_PRISM", 122: "IP_OVER_FC", 123: "SUNATM",
    127: "IEEE802_11_RADIOTAP", 129: "ARCNET_LINUX", 130: "JUNIPER_MLPPP", 131: "JUNIPER_MLFR", 132: "JUNIPER_ES",
    133: "JUNIPER_GGSN", 134: "JUNIPER_MFR", 135: "JUNIPER_ATM2", 136: "JUNIPER_SERVICES", 137: "JUNIPER_ATM1",
    138: "APPLE_IP_OVER_IEEE1394", 139: "MTP2_WITH_PHDR", 140: "MTP2", 141: "MTP3", 142: "SCCP", 143: "DOCSIS",
    144: "LINUX_IRDA", 147: "USER0", 148: "USER1", 149: "USER2", 150: "USER3", 151: "USER4", 152: "USER5", 153: "USER6",
    154: "USER7", 155: "USER8", 156: "USER9", 157: "USER10", 158: "USER11", 159: "USER12", 160: "USER13", 161: "USER14",
    162: "USER15", 163: "IEEE802_11_AVS", 164: "JUNIPER_MONITOR", 165: "BACNET_MS_TP", 166: "PPP_PPPD",
    167: "JUNIPER_PPPOE", 168: "JUNIPER_PPPOE_ATM", 169: "GPRS_LLC", 170: "GPF_T", 171: "GPF_F",
    174: "JUNIPER_PIC_PEER", 175: "ERF_ETH", 176: "ERF_POS", 177: "LINUX_LAPD", 178: "JUNIPER_ETHER",
    179: "JUNIPER_PPP", 180: "JUNIPER_FRELAY", 181: "JUNIPER_CHDLC", 182: "MFR", 183: "JUNIPER_VP", 184: "A429",
    185: "A653_ICM", 186: "USB_FREEBSD", 187: "BLUETOOTH_HCI_H4", 188: "IEEE802_16_MAC_CPS", 189: "USB_LINUX",
    190: "CAN20B", 191: "IEEE802_15_4_LINUX", 192: "PPI", 193: "IEEE802_16_MAC_CPS_RADIO", 194: "JUNIPER_ISM",
    195: "IEEE802_15_4_WITHFCS", 196: "SITA", 197: "ERF", 198: "RAIF1", 199: "IPMB_KONTRON", 200: "JUNIPER_ST",
    201: "BLUETOOTH_HCI_H4_WITH_PHDR", 202: "AX25_KISS", 203: "LAPD", 204: "PPP_WITH_DIR", 205: "C_HDLC_WITH_DIR",
    206: "FRELAY_WITH_DIR", 207: "LAPB_WITH_DIR", 209: "I2C_LINUX", 210: "FLEXRAY", 211: "MOST", 212: "LIN",
    215: "IEEE802_15_4_NONASK_PHY", 216: "LINUX_EVDEV", 217: "GSMTAP_UM", 218: "GSMTAP_ABIS", 219: "MPLS",
    220: "USB_LINUX_MMAPPED", 221: "DECT", 222: "AOS", 223: "WIHART", 224: "FC_2", 225: "FC_2_WITH_FRAME_DELIMS",
    226: "IPNET", 227: "CAN_SOCKETCAN", 228: "IPV4", 229: "IPV6", 230: "IEEE802_15_4_NOFCS", 231: "DBUS",
    232: "JUNIPER_VS", 233: "JUNIPER_SRX_E2E", 234: "JUNIPER_FIBRECHANNEL", 235: "DVB_CI", 236: "MUX27010",
    237: "STANAG_5066_D_PDU", 238: "JUNIPER_ATM_CEMIC", 239: "NFLOG", 240: "NETANALYZER",
    241: "NETANALYZER_TRANSPARENT", 242: "IPOIB", 243: "MPEG_2_TS", 244: "NG40", 245: "NFC_LLCP", 246: "PFSYNC",
    247: "INFINIBAND", 248: "SCTP", 249: "USBPCAP", 250: "RTAC_SERIAL", 251: "BLUETOOTH_LE_LL",
    252: "WIRESHARK_UPPER_PDU", 253: "NETLINK", 254: "BLUETOOTH_LINUX_MONITOR", 255: "BLUETOOTH_BREDR_BB",
    256: "BLUETOOTH_LE_LL_WITH_PHDR", 257: "PROFIBUS_DL", 258: "PKTAP", 259: "EPON", 260: "IPMI_HPM_2",
    261: "ZWAVE_R1_R2", 262: "ZWAVE_R3", 263: "WATTSTOPPER_DLM", 264: "ISO_14443", 265: "RDS", 266: "USB_DARWIN",
    267: "OPENFLOW", 268: "SDLC", 269: "TI_LLN_SNIFFER", 270: "LORATAP", 271: "VSOCK", 272: "NORDIC_BLE",
    273: "DOCSIS31_XRA31", 274: "ETHERNET_MPACKET", 275: "DISPLAYPORT_AUX", 276: "LINUX_SLL2", 277: "SERCOS_MONITOR",
    278: "OPENVIZSLA", 279: "EBHSCR", 280: "VPP_DISPATCH", 281: "DSA_TAG_BRCM", 282: "DSA_TAG_BRCM_PREPEND",
    283: "IEEE802_15_4_TAP", 284: "DSA_TAG_DSA", 285: "DSA_TAG_EDSA", 286: "ELEE", 287: "Z_WAVE_SERIAL", 288: "USB_2_0",
    289: "ATSC_ALP", 290: "ETW",
}

# ---- networks and protocols in the line that sums up, by names with hyphens: some of IANA's EtherTypes and protocols

ETHERTYPES = {
    0x0600: "xns", 0x0805: "x25", 0x0806: "arp", 0x0842: "wake-on-lan", 0x2000: "cdp", 0x22EA: "msrp", 0x22F0: "avtp",
    0x22F3: "trill", 0x22F4: "isis", 0x6001: "mop-dump", 0x6002: "mop-console", 0x6003: "decnet", 0x6004: "lat",
    0x6558: "teb", 0x8035: "rarp", 0x809B: "appletalk", 0x80F3: "aarp", 0x8100: "vlan", 0x8137: "ipx",
    0x8808: "mac-control", 0x8809: "slow-protocols", 0x880B: "ppp", 0x8819: "cobranet", 0x8847: "mpls",
    0x8848: "mpls-multicast", 0x884C: "mpoa", 0x8863: "pppoe-discovery", 0x8864: "pppoe-session", 0x8870: "jumbo-llc",
    0x887B: "homeplug", 0x888E: "eapol", 0x8892: "profinet", 0x8899: "realtek", 0x88A2: "aoe", 0x88A4: "ethercat",
    0x88A8: "service-vlan", 0x88AB: "powerlink", 0x88B7: "oui-extended", 0x88B8: "goose", 0x88B9: "gse",
    0x88BA: "sampled-values", 0x88C7: "preauthentication", 0x88CA: "tipc", 0x88CC: "lldp", 0x88CD: "sercos",
    0x88D9: "lltd", 0x88DC: "wsmp",
    0x88E1: "homeplug-av", 0x88E3: "mrp", 0x88E5: "macsec", 0x88E7: "pbb", 0x88EE: "e-lmi", 0x88F5: "mvrp",
    0x88F6: "mmrp", 0x88F7: "ptp", 0x88F8: "nc-si", 0x88FB: "prp", 0x8902: "cfm", 0x8906: "fcoe", 0x8914: "fip",
    0x8915: "roce", 0x891D: "ttethernet", 0x8926: "vn-tag", 0x892F: "hsr", 0x893A: "ieee1905", 0x893F: "e-tag",
    0x8947: "geonetworking", 0x894F: "nsh", 0x9000: "loopback", 0xA0ED: "6lowpan", 0xAEFE: "ecpri", 0xF1C1: "frer",
}
PROTOCOL_NAMES = {
    0: "hopopt", 1: "icmp", 2: "igmp", 3: "ggp", 4: "ipencap", 5: "st", 6: "tcp", 7: "cbt", 8: "egp", 9: "igp",
    10: "bbn-rcc-mon", 11: "nvp-ii", 12: "pup", 13: "argus", 14: "emcon", 15: "xnet", 16: "chaos", 17: "udp", 18: "mux",
    20: "hmp", 22: "xns-idp", 27: "rdp", 28: "irtp", 29: "iso-tp4", 30: "netblt", 33: "dccp", 34: "3pc", 35: "idpr",
    36: "xtp", 37: "ddp", 38: "idpr-cmtp", 41: "ipv6", 42: "sdrp", 43: "ipv6-route", 44: "ipv6-frag", 45: "idrp",
    46: "rsvp", 47: "gre", 48: "dsr", 49: "bna", 50: "esp", 51: "ah", 53: "swipe", 54: "narp", 57: "skip",
    58: "ipv6-icmp", 59: "ipv6-nonxt", 60: "ipv6-opts", 80: "iso-ip", 81: "vmtp", 83: "vines", 88: "eigrp", 89: "ospf",
    92: "mtp", 93: "ax.25", 94: "ipip", 97: "etherip", 98: "encap", 102: "pnni", 103: "pim", 104: "aris", 105: "scps",
    106: "qnx", 108: "ipcomp", 112: "vrrp", 113: "pgm", 115: "l2tp", 118: "stp", 119: "srp", 121: "smp", 122: "sm",
    123: "ptp", 124: "isis", 126: "crtp", 127: "crudp", 132: "sctp", 133: "fc", 134: "rsvp-e2e-ignore",
    135: "mobility-header", 136: "udplite", 137: "mpls-in-ip", 138: "manet", 139: "hip", 140: "shim6", 141: "wesp",
    142: "rohc", 143: "ethernet", 144: "aggfrag", 145: "nsh",
}

# ---- protocols over IP

PROTOCOLS = {
    0: "hopopt", 1: "icmp", 2: "igmp", 4: "ipv4", 6: "tcp", 17: "udp", 41: "ipv6", 43: "ipv6_route", 44: "ipv6_frag",
    46: "rsvp", 47: "gre", 50: "esp", 51: "ah", 58: "ipv6_icmp", 59: "ipv6_nonxt", 60: "ipv6_opts", 88: "eigrp",
    89: "ospfigp", 103: "pim", 112: "vrrp", 115: "l2tp", 132: "sctp",
}

# ---- ICMPv4

ICMP4_TYPES = {
    0: "echo_reply", 3: "destination_unreachable", 4: "source_quench", 5: "redirect", 8: "echo_request",
    9: "router_advertisement", 10: "router_solicitation", 11: "time_exceeded", 12: "parameter_problem",
    13: "timestamp", 14: "timestamp_reply", 15: "information_request", 16: "information_reply",
    17: "address_mask_request", 18: "address_mask_reply", 30: "traceroute", 40: "photuris",
    42: "extended_echo_request", 43: "extended_echo_reply",
}
# RFC 8335 sections 2 and 3, of both ICMPs.
EXTENDED_REQUESTS = {0: "no_error"}
EXTENDED_REPLIES = {0: "no_error", 1: "malformed_query", 2: "no_such_interface", 3: "no_such_table_entry",
                    4: "multiple_interfaces_satisfy_query"}
NEIGHBOR_STATES = {0: "reserved", 1: "incomplete", 2: "reachable", 3: "stale", 4: "delay", 5: "probe", 6: "failed"}
# Some of IANA's address family numbers.
ADDRESS_FAMILIES = {1: "ipv4", 2: "ipv6", 6: "802", 16389: "mac48"}
# Of each type the codes (RFC 792, RFC 1122 section 3.2.2, RFC 1812 section 5.2.7, RFC 2521 section 2,
# RFC 5944 section 2.1, RFC 8335 sections 2 and 3).
ICMP4_CODES = {
    3: {0: "net_unreachable", 1: "host_unreachable", 2: "protocol_unreachable", 3: "port_unreachable",
        4: "fragmentation_needed", 5: "source_route_failed", 6: "destination_network_unknown",
        7: "destination_host_unknown", 8: "source_host_isolated", 9: "network_administratively_prohibited",
        10: "host_administratively_prohibited", 11: "network_unreachable_for_type_of_service",
        12: "host_unreachable_for_type_of_service", 13: "communication_administratively_prohibited",
        14: "host_precedence_violation", 15: "precedence_cutoff_in_effect"},
    5: {0: "network", 1: "host", 2: "type_of_service_and_network", 3: "type_of_service_and_host"},
    9: {0: "normal", 16: "no_common_traffic"},
    11: {0: "time_to_live_exceeded_in_transit", 1: "fragment_reassembly_time_exceeded"},
    12: {0: "pointer_indicates_the_error", 1: "missing_a_required_option", 2: "bad_length"},
    40: {0: "bad_spi", 1: "authentication_failed", 2: "decompression_failed", 3: "decryption_failed",
         4: "need_authentication", 5: "need_authorization"},
    42: EXTENDED_REQUESTS, 43: EXTENDED_REPLIES,
}

# ---- ICMPv6

ICMP6_TYPES = {
    1: "destination_unreachable", 2: "packet_too_big", 3: "time_exceeded", 4: "parameter_problem",
    128: "echo_request", 129: "echo_reply", 130: "multicast_listener_query", 131: "multicast_listener_report",
    132: "multicast_listener_done", 133: "router_solicitation", 134: "router_advertisement",
    135: "neighbor_solicitation", 136: "neighbor_advertisement", 137: "redirect", 138: "router_renumbering",
    139: "node_information_query", 140: "node_information_response", 141: "inverse_neighbor_discovery_solicitation",
    142: "inverse_neighbor_discovery_advertisement", 143: "version_2_multicast_listener_report",
    144: "home_agent_address_discovery_request", 145: "home_agent_address_discovery_reply",
    146: "mobile_prefix_solicitation", 147: "mobile_prefix_advertisement", 148: "certification_path_solicitation",
    149: "certification_path_advertisement", 150: "experimental_mobility", 151: "multicast_router_advertisement",
    152: "multicast_router_solicitation", 153: "multicast_router_termination", 154: "fmipv6", 155: "rpl_control",
    156: "ilnpv6_locator_update", 157: "duplicate_address_request", 158: "duplicate_address_confirmation",
    159: "mpl_control", 160: "extended_echo_request", 161: "extended_echo_reply",
}
# RFC 4443 section 3, RFC 4620 section 4, RFC 6554 section 3, RFC 7112 section 5, RFC 8335 sections 2 and 3, RFC 8883,
# RFC 8986 section 4.1.1.
ICMP6_CODES = {
    1: {0: "no_route_to_destination", 1: "communication_administratively_prohibited",
        2: "beyond_scope_of_source_address", 3: "address_unreachable", 4: "port_unreachable",
        5: "source_address_failed_policy", 6: "reject_route_to_destination", 7: "error_in_source_routing_header",
        8: "headers_too_long"},
    3: {0: "hop_limit_exceeded_in_transit", 1: "fragment_reassembly_time_exceeded"},
    4: {0: "erroneous_header_field", 1: "unrecognized_next_header_type", 2: "unrecognized_ipv6_option",
        3: "incomplete_ipv6_header_chain", 4: "sr_upper_layer_header_error",
        5: "unrecognized_next_header_type_by_intermediate_node", 6: "extension_header_too_big",
        7: "extension_header_chain_too_long", 8: "too_many_extension_headers",
        9: "too_many_options_in_extension_header", 10: "option_too_big"},
    139: {0: "ipv6_address", 1: "name", 2: "ipv4_address"}, 140: {0: "success", 1: "refused", 2: "unknown_qtype"},
    160: EXTENDED_REQUESTS, 161: EXTENDED_REPLIES,
}
# RFC 4620 section 6: the types of queries about a node, and the flags of those about addresses.
NODE_QTYPES = {0: "noop", 2: "node_name", 3: "node_addresses", 4: "ipv4_addresses"}
NODE_FLAGS = {0x20: "global_scope", 0x10: "site_local", 8: "link_local", 4: "compatible", 2: "all", 1: "truncated"}

# ---- hop-by-hop options

HOP_OPTIONS = {
    0x00: "pad1", 0x01: "padn", 0x04: "tunnel_encapsulation_limit", 0x05: "router_alert", 0x07: "calipso",
    0x08: "smf_dpd", 0x0F: "performance_and_diagnostic_metrics", 0x11: "ioam_destination_option",
    0x12: "alternate_marking", 0x23: "rpl_option", 0x26: "quick_start", 0x30: "minimum_path_mtu", 0x31: "ioam",
    0x63: "rpl_option_old", 0x6D: "mpl_option", 0x8A: "endpoint_identification", 0x8B: "ilnp_nonce",
    0x8C: "line_identification", 0xC2: "jumbo_payload", 0xC9: "home_address", 0xEE: "ip_dff",
}
# RFC 2711 section 2.1.
ALERTS = {0: "mld", 1: "rsvp", 2: "active_networks"}

# ---- neighbor discovery

NEIGHBOR_OPTIONS = {
    1: "source_link_layer_address", 2: "target_link_layer_address", 3: "prefix_information", 4: "redirected_header",
    5: "mtu", 6: "nbma_shortcut_limit", 7: "advertisement_interval", 8: "home_agent_information",
    9: "source_address_list", 10: "target_address_list", 11: "cga", 12: "rsa_signature", 13: "timestamp", 14: "nonce",
    15: "trust_anchor", 16: "certificate", 17: "ip_address_or_prefix", 18: "new_router_prefix_information",
    19: "link_layer_address", 20: "neighbor_advertisement_acknowledgment", 21: "pvd_id_router_advertisement",
    23: "map", 24: "route_information", 25: "recursive_dns_server", 26: "ra_flags_extension",
    27: "handover_key_request", 28: "handover_key_reply", 29: "handover_assist_information",
    30: "mobile_node_identifier", 31: "dns_search_list", 32: "proxy_signature", 33: "address_registration",
    34: "6lowpan_context", 35: "authoritative_border_router", 36: "6lowpan_capability_indication",
    37: "captive_portal", 38: "pref64", 39: "crypto_id_parameters", 40: "ndp_signature",
    41: "resource_directory_address", 138: "card_request", 139: "card_reply", 144: "encrypted_dns",
    253: "experiment_1", 254: "experiment_2",
}
# RFC 4191 section 2.1.
PREFERENCES = {0: "medium", 1: "high", 2: "reserved", 3: "low"}

# ---- groups

IGMP_TYPES = {
    0x11: "membership_query", 0x12: "membership_report_v1", 0x13: "dvmrp", 0x14: "pim_v1", 0x15: "cisco_trace",
    0x16: "membership_report_v2", 0x17: "leave_group", 0x1E: "mtrace_response", 0x1F: "mtrace",
    0x22: "membership_report_v3", 0x30: "multicast_router_advertisement", 0x31: "multicast_router_solicitation",
    0x32: "multicast_router_termination",
}
# RFC 3376 section 4.2.12.
RECORDS = {
    1: "mode_is_include", 2: "mode_is_exclude", 3: "change_to_include_mode", 4: "change_to_exclude_mode",
    5: "allow_new_sources", 6: "block_old_sources",
}

# ---- DHCP

OPERATIONS = {1: "bootrequest", 2: "bootreply"}
# Some of the hardware types of ARP.
HARDWARE = {
    1: "ethernet", 6: "ieee_802", 7: "arcnet", 15: "frame_relay", 16: "atm", 17: "hdlc", 18: "fibre_channel",
    20: "serial_line", 24: "ieee_1394", 27: "eui_64", 32: "infiniband",
}
# RFC 2132 section 9.6.
DHCP_MESSAGES = {
    1: "discover", 2: "offer", 3: "request", 4: "decline", 5: "ack", 6: "nak", 7: "release", 8: "inform",
}
