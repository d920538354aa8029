// Made from crates/dhcp_wire/src/dhcpv4/table.rt by rust/erase.
//! The names of the kinds of option, and the formats of their data.

use super::option_kinds::*;
use super::options::DhcpOption;

// The format of the data of an option.
#[derive(Clone, Copy)]
pub(super) enum Format {
    // An address of four bytes.
    Address,
    // Addresses, of four bytes each.
    Addresses,
    // A time of four bytes, in seconds.
    Seconds,
    // A number of two bytes.
    Number,
    // A number of one byte.
    Byte,
    // A type of message, of one byte.
    MessageType,
    // Text.
    Text,
    // Kinds of option, of one byte each.
    Kinds,
    // Other data, or the data of a kind that has no name here.
    Octets,
}

impl DhcpOption<'_> {
    /// The name of the kind in words of the RFC that defines it, in lower case with hyphens, as `lease-time` for the
    /// one that IANA's registry calls Address Time. None where it has no name here, and for padding and the end mark.
    pub fn name(&self) -> Option<&'static str> {
        match entry_of(self.kind) {
            Some((name, _)) => Some(name),
            None => None,
        }
    }
}

// The format of the data of a kind.
pub(super) fn format_of(kind: u8) -> Format {
    match entry_of(kind) {
        Some((_, format)) => format,
        None => Format::Octets,
    }
}

// The name and the format of a kind: those of RFC 1497, and those of the IP layer of a host.
fn entry_of(kind: u8) -> Option<(&'static str, Format)> {
    match kind {
        OPT_SUBNET_MASK => Some(("subnet-mask", Format::Address)),
        OPT_TIME_OFFSET => Some(("time-offset", Format::Octets)),
        OPT_ROUTER => Some(("router", Format::Addresses)),
        OPT_TIME_SERVER => Some(("time-server", Format::Addresses)),
        OPT_NAME_SERVER => Some(("name-server", Format::Addresses)),
        OPT_DOMAIN_NAME_SERVER => Some(("domain-name-server", Format::Addresses)),
        OPT_LOG_SERVER => Some(("log-server", Format::Addresses)),
        OPT_COOKIE_SERVER => Some(("cookie-server", Format::Addresses)),
        OPT_LPR_SERVER => Some(("lpr-server", Format::Addresses)),
        OPT_IMPRESS_SERVER => Some(("impress-server", Format::Addresses)),
        OPT_RESOURCE_LOCATION_SERVER => Some(("resource-location-server", Format::Addresses)),
        OPT_HOST_NAME => Some(("host-name", Format::Text)),
        OPT_BOOT_FILE_SIZE => Some(("boot-file-size", Format::Number)),
        OPT_MERIT_DUMP => Some(("merit-dump", Format::Text)),
        OPT_DOMAIN_NAME => Some(("domain-name", Format::Text)),
        OPT_SWAP_SERVER => Some(("swap-server", Format::Address)),
        OPT_ROOT_PATH => Some(("root-path", Format::Text)),
        OPT_EXTENSIONS_PATH => Some(("extensions-path", Format::Text)),
        OPT_IP_FORWARDING => Some(("ip-forwarding", Format::Byte)),
        OPT_NON_LOCAL_SOURCE_ROUTING => Some(("non-local-source-routing", Format::Byte)),
        OPT_POLICY_FILTER => Some(("policy-filter", Format::Addresses)),
        OPT_MAX_DATAGRAM_REASSEMBLY_SIZE => Some(("max-datagram-reassembly", Format::Number)),
        OPT_DEFAULT_TTL => Some(("default-ttl", Format::Byte)),
        OPT_PATH_MTU_AGING_TIMEOUT => Some(("path-mtu-aging-timeout", Format::Seconds)),
        OPT_PATH_MTU_PLATEAU_TABLE => Some(("path-mtu-plateau-table", Format::Octets)),
        _ => interface_entry(kind),
    }
}

// The name and the format of a kind: those of interfaces, links, TCP and services.
fn interface_entry(kind: u8) -> Option<(&'static str, Format)> {
    match kind {
        OPT_INTERFACE_MTU => Some(("interface-mtu", Format::Number)),
        OPT_ALL_SUBNETS_ARE_LOCAL => Some(("all-subnets-local", Format::Byte)),
        OPT_BROADCAST_ADDRESS => Some(("broadcast-address", Format::Address)),
        OPT_PERFORM_MASK_DISCOVERY => Some(("perform-mask-discovery", Format::Byte)),
        OPT_MASK_SUPPLIER => Some(("mask-supplier", Format::Byte)),
        OPT_PERFORM_ROUTER_DISCOVERY => Some(("perform-router-discovery", Format::Byte)),
        OPT_ROUTER_SOLICITATION_ADDRESS => Some(("router-solicitation-address", Format::Address)),
        OPT_STATIC_ROUTE => Some(("static-routes", Format::Addresses)),
        OPT_TRAILER_ENCAPSULATION => Some(("trailer-encapsulation", Format::Byte)),
        OPT_ARP_CACHE_TIMEOUT => Some(("arp-cache-timeout", Format::Seconds)),
        OPT_ETHERNET_ENCAPSULATION => Some(("ethernet-encapsulation", Format::Byte)),
        OPT_TCP_DEFAULT_TTL => Some(("tcp-default-ttl", Format::Byte)),
        OPT_TCP_KEEPALIVE_INTERVAL => Some(("tcp-keepalive-interval", Format::Seconds)),
        OPT_TCP_KEEPALIVE_GARBAGE => Some(("tcp-keepalive-garbage", Format::Byte)),
        OPT_NIS_DOMAIN => Some(("nis-domain", Format::Text)),
        OPT_NIS_SERVERS => Some(("nis-servers", Format::Addresses)),
        OPT_NTP_SERVERS => Some(("ntp-servers", Format::Addresses)),
        OPT_VENDOR_SPECIFIC_INFO => Some(("vendor-specific-information", Format::Octets)),
        OPT_NETBIOS_NAME_SERVER => Some(("netbios-name-servers", Format::Addresses)),
        OPT_NETBIOS_DISTRIBUTION_SERVER => {
            Some(("netbios-distribution-servers", Format::Addresses))
        }
        OPT_NETBIOS_NODE_TYPE => Some(("netbios-node-type", Format::Byte)),
        OPT_NETBIOS_SCOPE => Some(("netbios-scope", Format::Text)),
        OPT_X_WINDOW_FONT_SERVER => Some(("font-servers", Format::Addresses)),
        OPT_X_WINDOW_DISPLAY_MANAGER => Some(("x-display-managers", Format::Addresses)),
        _ => dhcp_entry(kind),
    }
}

// The name and the format of a kind: those of DHCP and later services.
fn dhcp_entry(kind: u8) -> Option<(&'static str, Format)> {
    match kind {
        OPT_REQUESTED_IP => Some(("requested-address", Format::Address)),
        OPT_IP_LEASE_TIME => Some(("lease-time", Format::Seconds)),
        OPT_OPTION_OVERLOAD => Some(("option-overload", Format::Byte)),
        OPT_DHCP_MESSAGE_TYPE => Some(("message-type", Format::MessageType)),
        OPT_SERVER_IDENTIFIER => Some(("server-identifier", Format::Address)),
        OPT_PARAMETER_REQUEST_LIST => Some(("parameter-request-list", Format::Kinds)),
        OPT_MESSAGE => Some(("message", Format::Text)),
        OPT_MAX_DHCP_MESSAGE_SIZE => Some(("max-message-size", Format::Number)),
        OPT_RENEWAL_TIME_VALUE => Some(("renewal-time", Format::Seconds)),
        OPT_REBINDING_TIME_VALUE => Some(("rebinding-time", Format::Seconds)),
        OPT_VENDOR_CLASS_ID => Some(("vendor-class-identifier", Format::Text)),
        OPT_CLIENT_ID => Some(("client-identifier", Format::Octets)),
        OPT_NIS_PLUS_DOMAIN => Some(("nisplus-domain", Format::Text)),
        OPT_NIS_PLUS_SERVERS => Some(("nisplus-servers", Format::Addresses)),
        OPT_TFTP_SERVER_NAME => Some(("tftp-server-name", Format::Text)),
        OPT_BOOTFILE_NAME => Some(("bootfile-name", Format::Text)),
        OPT_MOBILE_IP_HOME_AGENT => Some(("mobile-ip-home-agent", Format::Addresses)),
        OPT_SMTP_SERVER => Some(("smtp-server", Format::Addresses)),
        OPT_POP3_SERVER => Some(("pop-server", Format::Addresses)),
        OPT_NNTP_SERVER => Some(("nntp-server", Format::Addresses)),
        OPT_WWW_SERVER => Some(("www-server", Format::Addresses)),
        OPT_FINGER_SERVER => Some(("finger-server", Format::Addresses)),
        OPT_IRC_SERVER => Some(("irc-server", Format::Addresses)),
        OPT_STREETTALK_SERVER => Some(("streettalk-server", Format::Addresses)),
        OPT_STDA_SERVER => Some(("streettalk-directory-assistance-server", Format::Addresses)),
        _ => later_entry(kind),
    }
}

// The name and the format of a kind that a later document defines.
fn later_entry(kind: u8) -> Option<(&'static str, Format)> {
    match kind {
        77 => Some(("user-class", Format::Octets)),
        80 => Some(("rapid-commit", Format::Octets)),
        81 => Some(("client-fqdn", Format::Octets)),
        82 => Some(("relay-agent-information", Format::Octets)),
        93 => Some(("client-system-architecture", Format::Number)),
        94 => Some(("client-network-interface", Format::Octets)),
        97 => Some(("client-machine-identifier", Format::Octets)),
        100 => Some(("posix-timezone", Format::Text)),
        101 => Some(("tzdb-timezone", Format::Text)),
        108 => Some(("ipv6-only-preferred", Format::Seconds)),
        114 => Some(("captive-portal", Format::Text)),
        116 => Some(("auto-configure", Format::Byte)),
        118 => Some(("subnet-selection", Format::Address)),
        119 => Some(("domain-search", Format::Octets)),
        120 => Some(("sip-servers", Format::Octets)),
        121 => Some(("classless-static-route", Format::Octets)),
        124 => Some(("vendor-class", Format::Octets)),
        125 => Some(("vendor-information", Format::Octets)),
        138 => Some(("capwap-access-controllers", Format::Addresses)),
        150 => Some(("tftp-server-addresses", Format::Addresses)),
        _ => None,
    }
}
