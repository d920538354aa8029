// Made from crates/tests_dhcp_dns/src/dhcp/dhcpv4_table.rt by rust/erase.
use crate::testing::{holds_of, same_of};
use control_wire::Ipv4Address;
use control_wire::dhcpv4::{DhcpOption, MessageType, OptionValue};

// How the data of a kind is laid out, by the RFC that the registry refers to.
#[derive(Clone, Copy)]
enum Format {
    Octets,
    Text,
    Address,
    Addresses,
    Number,
    Byte,
    Seconds,
    Kinds,
    MessageType,
}

// A kind, its name in IANA's registry "BOOTP Vendor Extensions and DHCP Options", its name here, and the format of its
// data by the RFC that the registry refers to. Without a name of its own a kind has that of the registry, in lower case
// and with hyphens for spaces; the others have words of their RFC.
type Row = (u8, &'static str, &'static str, Format);

const ROWS: &[Row] = &[
    (1, "Subnet Mask", "", Format::Address),
    (2, "Time Offset", "", Format::Octets),
    (3, "Router", "", Format::Addresses),
    (4, "Time Server", "", Format::Addresses),
    (5, "Name Server", "", Format::Addresses),
    (6, "Domain Server", "domain-name-server", Format::Addresses),
    (7, "Log Server", "", Format::Addresses),
    (8, "Quotes Server", "cookie-server", Format::Addresses),
    (9, "LPR Server", "", Format::Addresses),
    (10, "Impress Server", "", Format::Addresses),
    (
        11,
        "RLP Server",
        "resource-location-server",
        Format::Addresses,
    ),
    (12, "Hostname", "host-name", Format::Text),
    (13, "Boot File Size", "", Format::Number),
    (14, "Merit Dump File", "merit-dump", Format::Text),
    (15, "Domain Name", "", Format::Text),
    (16, "Swap Server", "", Format::Address),
    (17, "Root Path", "", Format::Text),
    (18, "Extension File", "extensions-path", Format::Text),
    (19, "Forward On/Off", "ip-forwarding", Format::Byte),
    (
        20,
        "SrcRte On/Off",
        "non-local-source-routing",
        Format::Byte,
    ),
    (21, "Policy Filter", "", Format::Addresses),
    (
        22,
        "Max DG Assembly",
        "max-datagram-reassembly",
        Format::Number,
    ),
    (23, "Default IP TTL", "default-ttl", Format::Byte),
    (24, "MTU Timeout", "path-mtu-aging-timeout", Format::Seconds),
    (25, "MTU Plateau", "path-mtu-plateau-table", Format::Octets),
    (26, "MTU Interface", "interface-mtu", Format::Number),
    (27, "MTU Subnet", "all-subnets-local", Format::Byte),
    (28, "Broadcast Address", "", Format::Address),
    (29, "Mask Discovery", "perform-mask-discovery", Format::Byte),
    (30, "Mask Supplier", "", Format::Byte),
    (
        31,
        "Router Discovery",
        "perform-router-discovery",
        Format::Byte,
    ),
    (
        32,
        "Router Request",
        "router-solicitation-address",
        Format::Address,
    ),
    (33, "Static Route", "static-routes", Format::Addresses),
    (34, "Trailers", "trailer-encapsulation", Format::Byte),
    (35, "ARP Timeout", "arp-cache-timeout", Format::Seconds),
    (36, "Ethernet", "ethernet-encapsulation", Format::Byte),
    (37, "Default TCP TTL", "tcp-default-ttl", Format::Byte),
    (
        38,
        "Keepalive Time",
        "tcp-keepalive-interval",
        Format::Seconds,
    ),
    (39, "Keepalive Data", "tcp-keepalive-garbage", Format::Byte),
    (40, "NIS Domain", "", Format::Text),
    (41, "NIS Servers", "", Format::Addresses),
    (42, "NTP Servers", "", Format::Addresses),
    (
        43,
        "Vendor Specific",
        "vendor-specific-information",
        Format::Octets,
    ),
    (
        44,
        "NETBIOS Name Srv",
        "netbios-name-servers",
        Format::Addresses,
    ),
    (
        45,
        "NETBIOS Dist Srv",
        "netbios-distribution-servers",
        Format::Addresses,
    ),
    (46, "NETBIOS Node Type", "", Format::Byte),
    (47, "NETBIOS Scope", "", Format::Text),
    (48, "X Window Font", "font-servers", Format::Addresses),
    (
        49,
        "X Window Manager",
        "x-display-managers",
        Format::Addresses,
    ),
    (50, "Address Request", "requested-address", Format::Address),
    (51, "Address Time", "lease-time", Format::Seconds),
    (52, "Overload", "option-overload", Format::Byte),
    (53, "DHCP Msg Type", "message-type", Format::MessageType),
    (54, "DHCP Server Id", "server-identifier", Format::Address),
    (
        55,
        "Parameter List",
        "parameter-request-list",
        Format::Kinds,
    ),
    (56, "DHCP Message", "message", Format::Text),
    (57, "DHCP Max Msg Size", "max-message-size", Format::Number),
    (58, "Renewal Time", "", Format::Seconds),
    (59, "Rebinding Time", "", Format::Seconds),
    (60, "Class Id", "vendor-class-identifier", Format::Text),
    (61, "Client Id", "client-identifier", Format::Octets),
    (64, "NIS-Domain-Name", "nisplus-domain", Format::Text),
    (65, "NIS-Server-Addr", "nisplus-servers", Format::Addresses),
    (66, "Server-Name", "tftp-server-name", Format::Text),
    (67, "Bootfile-Name", "", Format::Text),
    (
        68,
        "Home-Agent-Addrs",
        "mobile-ip-home-agent",
        Format::Addresses,
    ),
    (69, "SMTP-Server", "", Format::Addresses),
    (70, "POP3-Server", "pop-server", Format::Addresses),
    (71, "NNTP-Server", "", Format::Addresses),
    (72, "WWW-Server", "", Format::Addresses),
    (73, "Finger-Server", "", Format::Addresses),
    (74, "IRC-Server", "", Format::Addresses),
    (75, "StreetTalk-Server", "", Format::Addresses),
    (
        76,
        "STDA-Server",
        "streettalk-directory-assistance-server",
        Format::Addresses,
    ),
    (77, "User-Class", "", Format::Octets),
    (80, "Rapid Commit", "", Format::Octets),
    (81, "Client FQDN", "", Format::Octets),
    (82, "Relay Agent Information", "", Format::Octets),
    (
        93,
        "Client System",
        "client-system-architecture",
        Format::Number,
    ),
    (94, "Client NDI", "client-network-interface", Format::Octets),
    (97, "UUID/GUID", "client-machine-identifier", Format::Octets),
    (100, "PCode", "posix-timezone", Format::Text),
    (101, "TCode", "tzdb-timezone", Format::Text),
    (108, "IPv6-Only Preferred", "", Format::Seconds),
    (114, "DHCP Captive-Portal", "captive-portal", Format::Text),
    (116, "Auto-Config", "auto-configure", Format::Byte),
    (
        118,
        "Subnet Selection Option",
        "subnet-selection",
        Format::Address,
    ),
    (119, "Domain Search", "", Format::Octets),
    (
        120,
        "SIP Servers DHCP Option",
        "sip-servers",
        Format::Octets,
    ),
    (
        121,
        "Classless Static Route Option",
        "classless-static-route",
        Format::Octets,
    ),
    (124, "V-I Vendor Class", "vendor-class", Format::Octets),
    (
        125,
        "V-I Vendor-Specific Information",
        "vendor-information",
        Format::Octets,
    ),
    (
        138,
        "OPTION_CAPWAP_AC_V4",
        "capwap-access-controllers",
        Format::Addresses,
    ),
    (
        150,
        "TFTP server address",
        "tftp-server-addresses",
        Format::Addresses,
    ),
];

// The names and the format of a kind.
fn row_of(kind: u8) -> Option<(&'static str, &'static str, Format)> {
    for &(number, registered, own, format) in ROWS {
        if number == kind {
            return Some((registered, own, format));
        }
    }
    None
}

// Whether a name is that of the registry, in lower case and with hyphens for spaces.
fn is_registered(name: &str, registered: &str) -> bool {
    if name.len() != registered.len() {
        return false;
    }
    for (byte, other) in name.as_bytes().iter().zip(registered.as_bytes()) {
        let lower = other.to_ascii_lowercase();
        let wanted = if lower == b' ' { b'-' } else { lower };
        if *byte != wanted {
            return false;
        }
    }
    true
}

// Compares the name of a kind with that of its row.
fn check_name(kind: u8, registered: &str, own: &str) {
    let option = DhcpOption { kind, data: &[] };
    let name = option.name().unwrap_or("");
    if own.is_empty() {
        holds_of((kind, name), is_registered(name, registered));
    } else {
        same_of(kind, name, own);
    }
}

const FOUR: &[u8] = &[192, 0, 2, 1];

const TWO: &[u8] = &[5, 220];

const ONE: &[u8] = &[7];

// What these four bytes are in a format.
fn of_four(format: Format) -> OptionValue<'static> {
    match format {
        Format::Address => OptionValue::Address(Ipv4Address::new(192, 0, 2, 1)),
        Format::Addresses => OptionValue::Addresses(FOUR),
        Format::Seconds => OptionValue::Seconds(0xc000_0201),
        Format::Text => OptionValue::Text(FOUR),
        Format::Kinds => OptionValue::Kinds(FOUR),
        _ => OptionValue::Octets(FOUR),
    }
}

// What the two bytes are.
fn of_two(format: Format) -> OptionValue<'static> {
    match format {
        Format::Number => OptionValue::Number(1_500),
        Format::Text => OptionValue::Text(TWO),
        Format::Kinds => OptionValue::Kinds(TWO),
        _ => OptionValue::Octets(TWO),
    }
}

// What the byte is.
fn of_one(format: Format) -> OptionValue<'static> {
    match format {
        Format::Byte => OptionValue::Byte(7),
        Format::MessageType => OptionValue::MessageType(MessageType::Release),
        Format::Text => OptionValue::Text(ONE),
        Format::Kinds => OptionValue::Kinds(ONE),
        _ => OptionValue::Octets(ONE),
    }
}

// Compares what data of four, two and one bytes of a kind are with what they are in its format.
fn check_format(kind: u8, format: Format) {
    let rows = [
        (FOUR, of_four(format)),
        (TWO, of_two(format)),
        (ONE, of_one(format)),
    ];
    for (data, wanted) in rows {
        same_of(kind, DhcpOption { kind, data }.value(), wanted);
    }
}

#[test]
fn names_and_formats_of_all_kinds() {
    for kind in 0..=255 {
        match row_of(kind) {
            Some((registered, own, format)) => {
                check_name(kind, registered, own);
                check_format(kind, format);
            }
            None => {
                same_of(kind, DhcpOption { kind, data: &[] }.name(), None);
                check_format(kind, Format::Octets);
            }
        }
    }
}
