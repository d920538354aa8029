// Made from crates/icmp_fields/src/icmp_names.rt by rust/erase.
//! The names of the types and codes of ICMP messages, from IANA's registries, in lower case with underscores.

/// The name of a type of ICMPv4; None where it has none here.
pub fn icmp4_type_name(number: u8) -> Option<&'static str> {
    match number {
        0 => Some("echo_reply"),
        3 => Some("destination_unreachable"),
        4 => Some("source_quench"),
        5 => Some("redirect"),
        8 => Some("echo_request"),
        9 => Some("router_advertisement"),
        10 => Some("router_solicitation"),
        11 => Some("time_exceeded"),
        12 => Some("parameter_problem"),
        13 => Some("timestamp"),
        14 => Some("timestamp_reply"),
        15 => Some("information_request"),
        16 => Some("information_reply"),
        17 => Some("address_mask_request"),
        18 => Some("address_mask_reply"),
        30 => Some("traceroute"),
        40 => Some("photuris"),
        42 => Some("extended_echo_request"),
        43 => Some("extended_echo_reply"),
        _ => None,
    }
}

/// The name of a code of this type of ICMPv4 (RFC 792, RFC 1122 section 3.2.2, RFC 1812 section 5.2.7.1,
/// RFC 2521 section 2, RFC 5944 section 2.1, RFC 8335 sections 2 and 3); None where it has none here.
pub fn icmp4_code_name(type_: u8, code: u8) -> Option<&'static str> {
    match type_ {
        3 => icmp4_unreachable(code),
        5 => icmp4_redirect(code),
        9 => icmp4_advertisement(code),
        11 => icmp4_time_exceeded(code),
        12 => icmp4_parameter_problem(code),
        40 => photuris(code),
        42 => extended_request(code),
        43 => extended_reply(code),
        _ => None,
    }
}

// Why a destination is unreachable.
fn icmp4_unreachable(code: u8) -> Option<&'static str> {
    match code {
        0 => Some("net_unreachable"),
        1 => Some("host_unreachable"),
        2 => Some("protocol_unreachable"),
        3 => Some("port_unreachable"),
        4 => Some("fragmentation_needed"),
        5 => Some("source_route_failed"),
        6 => Some("destination_network_unknown"),
        7 => Some("destination_host_unknown"),
        8 => Some("source_host_isolated"),
        9 => Some("network_administratively_prohibited"),
        10 => Some("host_administratively_prohibited"),
        11 => Some("network_unreachable_for_type_of_service"),
        12 => Some("host_unreachable_for_type_of_service"),
        13 => Some("communication_administratively_prohibited"),
        14 => Some("host_precedence_violation"),
        15 => Some("precedence_cutoff_in_effect"),
        _ => None,
    }
}

// The datagrams for which another gateway is better.
fn icmp4_redirect(code: u8) -> Option<&'static str> {
    match code {
        0 => Some("network"),
        1 => Some("host"),
        2 => Some("type_of_service_and_network"),
        3 => Some("type_of_service_and_host"),
        _ => None,
    }
}

// What a router that advertises itself does with datagrams of others than mobile nodes.
fn icmp4_advertisement(code: u8) -> Option<&'static str> {
    match code {
        0 => Some("normal"),
        16 => Some("no_common_traffic"),
        _ => None,
    }
}

// The time that was exceeded.
fn icmp4_time_exceeded(code: u8) -> Option<&'static str> {
    match code {
        0 => Some("time_to_live_exceeded_in_transit"),
        1 => Some("fragment_reassembly_time_exceeded"),
        _ => None,
    }
}

// What is wrong with a parameter.
fn icmp4_parameter_problem(code: u8) -> Option<&'static str> {
    match code {
        0 => Some("pointer_indicates_the_error"),
        1 => Some("missing_a_required_option"),
        2 => Some("bad_length"),
        _ => None,
    }
}

// Why a datagram of a security association is refused.
fn photuris(code: u8) -> Option<&'static str> {
    match code {
        0 => Some("bad_spi"),
        1 => Some("authentication_failed"),
        2 => Some("decompression_failed"),
        3 => Some("decryption_failed"),
        4 => Some("need_authentication"),
        5 => Some("need_authorization"),
        _ => None,
    }
}

/// The name of a type of ICMPv6; None where it has none here.
pub fn icmp6_type_name(number: u8) -> Option<&'static str> {
    match number {
        1 => Some("destination_unreachable"),
        2 => Some("packet_too_big"),
        3 => Some("time_exceeded"),
        4 => Some("parameter_problem"),
        128 => Some("echo_request"),
        129 => Some("echo_reply"),
        130 => Some("multicast_listener_query"),
        131 => Some("multicast_listener_report"),
        132 => Some("multicast_listener_done"),
        133 => Some("router_solicitation"),
        134 => Some("router_advertisement"),
        135 => Some("neighbor_solicitation"),
        136 => Some("neighbor_advertisement"),
        137 => Some("redirect"),
        138 => Some("router_renumbering"),
        139 => Some("node_information_query"),
        140 => Some("node_information_response"),
        141 => Some("inverse_neighbor_discovery_solicitation"),
        142 => Some("inverse_neighbor_discovery_advertisement"),
        143 => Some("version_2_multicast_listener_report"),
        144 => Some("home_agent_address_discovery_request"),
        145 => Some("home_agent_address_discovery_reply"),
        146 => Some("mobile_prefix_solicitation"),
        147 => Some("mobile_prefix_advertisement"),
        148 => Some("certification_path_solicitation"),
        149 => Some("certification_path_advertisement"),
        150 => Some("experimental_mobility"),
        151 => Some("multicast_router_advertisement"),
        152 => Some("multicast_router_solicitation"),
        153 => Some("multicast_router_termination"),
        154 => Some("fmipv6"),
        155 => Some("rpl_control"),
        156 => Some("ilnpv6_locator_update"),
        157 => Some("duplicate_address_request"),
        158 => Some("duplicate_address_confirmation"),
        159 => Some("mpl_control"),
        160 => Some("extended_echo_request"),
        161 => Some("extended_echo_reply"),
        _ => None,
    }
}

/// The name of a code of this type of ICMPv6 (RFC 4443 section 3, RFC 4620 section 4, RFC 6554 section 3,
/// RFC 7112 section 5, RFC 8335 sections 2 and 3, RFC 8883, RFC 8986 section 4.1.1); None where it has none here.
pub fn icmp6_code_name(type_: u8, code: u8) -> Option<&'static str> {
    match type_ {
        1 => icmp6_unreachable(code),
        3 => icmp6_time_exceeded(code),
        4 => icmp6_parameter_problem(code),
        139 => node_query(code),
        140 => node_response(code),
        160 => extended_request(code),
        161 => extended_reply(code),
        _ => None,
    }
}

// Why a destination is unreachable.
fn icmp6_unreachable(code: u8) -> Option<&'static str> {
    match code {
        0 => Some("no_route_to_destination"),
        1 => Some("communication_administratively_prohibited"),
        2 => Some("beyond_scope_of_source_address"),
        3 => Some("address_unreachable"),
        4 => Some("port_unreachable"),
        5 => Some("source_address_failed_policy"),
        6 => Some("reject_route_to_destination"),
        7 => Some("error_in_source_routing_header"),
        8 => Some("headers_too_long"),
        _ => None,
    }
}

// The time that was exceeded.
fn icmp6_time_exceeded(code: u8) -> Option<&'static str> {
    match code {
        0 => Some("hop_limit_exceeded_in_transit"),
        1 => Some("fragment_reassembly_time_exceeded"),
        _ => None,
    }
}

// What is wrong with a parameter.
fn icmp6_parameter_problem(code: u8) -> Option<&'static str> {
    match code {
        0 => Some("erroneous_header_field"),
        1 => Some("unrecognized_next_header_type"),
        2 => Some("unrecognized_ipv6_option"),
        3 => Some("incomplete_ipv6_header_chain"),
        4 => Some("sr_upper_layer_header_error"),
        5 => Some("unrecognized_next_header_type_by_intermediate_node"),
        6 => Some("extension_header_too_big"),
        7 => Some("extension_header_chain_too_long"),
        8 => Some("too_many_extension_headers"),
        9 => Some("too_many_options_in_extension_header"),
        10 => Some("option_too_big"),
        _ => None,
    }
}

// What the data of a query about a node is.
fn node_query(code: u8) -> Option<&'static str> {
    match code {
        0 => Some("ipv6_address"),
        1 => Some("name"),
        2 => Some("ipv4_address"),
        _ => None,
    }
}

// How a query about a node went.
fn node_response(code: u8) -> Option<&'static str> {
    match code {
        0 => Some("success"),
        1 => Some("refused"),
        2 => Some("unknown_qtype"),
        _ => None,
    }
}

// The only code that a request about an interface has.
fn extended_request(code: u8) -> Option<&'static str> {
    match code {
        0 => Some("no_error"),
        _ => None,
    }
}

// How a request about an interface went.
fn extended_reply(code: u8) -> Option<&'static str> {
    match code {
        0 => Some("no_error"),
        1 => Some("malformed_query"),
        2 => Some("no_such_interface"),
        3 => Some("no_such_table_entry"),
        4 => Some("multiple_interfaces_satisfy_query"),
        _ => None,
    }
}
