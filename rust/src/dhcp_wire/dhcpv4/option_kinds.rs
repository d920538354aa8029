// Made from crates/dhcp_wire/src/dhcpv4/option_kinds.rt by rust/erase.
//! The kinds of option (RFC 2132), one byte each. Padding and the end mark are bytes by themselves; every other kind is
//! followed by the number of bytes of its data, and the data.

// RFC 2132 section 3: the options of RFC 1497.

/// Padding: this byte alone (RFC 2132 section 3.1).
pub const OPT_PAD: u8 = 0;

/// The mask of the client's subnet: 4 bytes (RFC 2132 section 3.3).
pub const OPT_SUBNET_MASK: u8 = 1;

/// The offset of the client's time from that of Greenwich: 4 bytes, in seconds (RFC 2132 section 3.4).
pub const OPT_TIME_OFFSET: u8 = 2;

/// Routers on the client's subnet: 4 bytes each (RFC 2132 section 3.5).
pub const OPT_ROUTER: u8 = 3;

/// Time servers: 4 bytes each (RFC 2132 section 3.6).
pub const OPT_TIME_SERVER: u8 = 4;

/// Name servers of IEN 116: 4 bytes each (RFC 2132 section 3.7).
pub const OPT_NAME_SERVER: u8 = 5;

/// DNS servers: 4 bytes each (RFC 2132 section 3.8).
pub const OPT_DOMAIN_NAME_SERVER: u8 = 6;

/// Log servers: 4 bytes each (RFC 2132 section 3.9).
pub const OPT_LOG_SERVER: u8 = 7;

/// Cookie servers: 4 bytes each (RFC 2132 section 3.10).
pub const OPT_COOKIE_SERVER: u8 = 8;

/// Line printer servers: 4 bytes each (RFC 2132 section 3.11).
pub const OPT_LPR_SERVER: u8 = 9;

/// Imagen Impress servers: 4 bytes each (RFC 2132 section 3.12).
pub const OPT_IMPRESS_SERVER: u8 = 10;

/// Resource location servers: 4 bytes each (RFC 2132 section 3.13).
pub const OPT_RESOURCE_LOCATION_SERVER: u8 = 11;

/// The client's name: 1 byte or more (RFC 2132 section 3.14).
pub const OPT_HOST_NAME: u8 = 12;

/// The length of the boot file: 2 bytes, in blocks of 512 bytes (RFC 2132 section 3.15).
pub const OPT_BOOT_FILE_SIZE: u8 = 13;

/// The path of the file for the client's core image: 1 byte or more (RFC 2132 section 3.16).
pub const OPT_MERIT_DUMP: u8 = 14;

/// The domain of the client's name: 1 byte or more (RFC 2132 section 3.17).
pub const OPT_DOMAIN_NAME: u8 = 15;

/// The swap server: 4 bytes (RFC 2132 section 3.18).
pub const OPT_SWAP_SERVER: u8 = 16;

/// The path of the client's root disk: 1 byte or more (RFC 2132 section 3.19).
pub const OPT_ROOT_PATH: u8 = 17;

/// The path of a file of further options: 1 byte or more (RFC 2132 section 3.20).
pub const OPT_EXTENSIONS_PATH: u8 = 18;

// Section 4: the IP layer of a host.

/// Whether the client forwards packets: 1 byte (RFC 2132 section 4.1).
pub const OPT_IP_FORWARDING: u8 = 19;

/// Whether the client forwards packets with routes through other networks: 1 byte (RFC 2132 section 4.2).
pub const OPT_NON_LOCAL_SOURCE_ROUTING: u8 = 20;

/// The routes that such packets may have: 8 bytes each (RFC 2132 section 4.3).
pub const OPT_POLICY_FILTER: u8 = 21;

/// The longest datagram that the client puts together: 2 bytes, in bytes (RFC 2132 section 4.4).
pub const OPT_MAX_DATAGRAM_REASSEMBLY_SIZE: u8 = 22;

/// The time to live of the client's packets: 1 byte (RFC 2132 section 4.5).
pub const OPT_DEFAULT_TTL: u8 = 23;

/// How long a path's MTU is kept: 4 bytes, in seconds (RFC 2132 section 4.6).
pub const OPT_PATH_MTU_AGING_TIMEOUT: u8 = 24;

/// The MTUs to try for a path: 2 bytes each (RFC 2132 section 4.7).
pub const OPT_PATH_MTU_PLATEAU_TABLE: u8 = 25;

// Section 5: the IP layer of an interface.

/// The MTU of the interface: 2 bytes (RFC 2132 section 5.1).
pub const OPT_INTERFACE_MTU: u8 = 26;

/// Whether all subnets have this MTU: 1 byte (RFC 2132 section 5.2).
pub const OPT_ALL_SUBNETS_ARE_LOCAL: u8 = 27;

/// The broadcast address of the client's subnet: 4 bytes (RFC 2132 section 5.3).
pub const OPT_BROADCAST_ADDRESS: u8 = 28;

/// Whether the client asks for its mask by ICMP: 1 byte (RFC 2132 section 5.4).
pub const OPT_PERFORM_MASK_DISCOVERY: u8 = 29;

/// Whether the client answers who asks for a mask: 1 byte (RFC 2132 section 5.5).
pub const OPT_MASK_SUPPLIER: u8 = 30;

/// Whether the client looks for routers by ICMP: 1 byte (RFC 2132 section 5.6).
pub const OPT_PERFORM_ROUTER_DISCOVERY: u8 = 31;

/// The address that the client asks for routers: 4 bytes (RFC 2132 section 5.7).
pub const OPT_ROUTER_SOLICITATION_ADDRESS: u8 = 32;

/// Static routes: 8 bytes each (RFC 2132 section 5.8).
pub const OPT_STATIC_ROUTE: u8 = 33;

// Section 6: the link layer of an interface.

/// Whether the client negotiates trailers: 1 byte (RFC 2132 section 6.1).
pub const OPT_TRAILER_ENCAPSULATION: u8 = 34;

/// How long an entry of ARP is kept: 4 bytes, in seconds (RFC 2132 section 6.2).
pub const OPT_ARP_CACHE_TIMEOUT: u8 = 35;

/// Whether frames are those of IEEE 802.3: 1 byte (RFC 2132 section 6.3).
pub const OPT_ETHERNET_ENCAPSULATION: u8 = 36;

// Section 7: TCP.

/// The time to live of the client's TCP segments: 1 byte (RFC 2132 section 7.1).
pub const OPT_TCP_DEFAULT_TTL: u8 = 37;

/// The time between TCP keepalives: 4 bytes, in seconds (RFC 2132 section 7.2).
pub const OPT_TCP_KEEPALIVE_INTERVAL: u8 = 38;

/// Whether TCP keepalives have a byte of garbage: 1 byte (RFC 2132 section 7.3).
pub const OPT_TCP_KEEPALIVE_GARBAGE: u8 = 39;

// Section 8: applications and services.

/// The client's NIS domain: 1 byte or more (RFC 2132 section 8.1).
pub const OPT_NIS_DOMAIN: u8 = 40;

/// NIS servers: 4 bytes each (RFC 2132 section 8.2).
pub const OPT_NIS_SERVERS: u8 = 41;

/// NTP servers: 4 bytes each (RFC 2132 section 8.3).
pub const OPT_NTP_SERVERS: u8 = 42;

/// Information that a vendor defines: 1 byte or more (RFC 2132 section 8.4).
pub const OPT_VENDOR_SPECIFIC_INFO: u8 = 43;

/// NetBIOS name servers: 4 bytes each (RFC 2132 section 8.5).
pub const OPT_NETBIOS_NAME_SERVER: u8 = 44;

/// NetBIOS datagram distribution servers: 4 bytes each (RFC 2132 section 8.6).
pub const OPT_NETBIOS_DISTRIBUTION_SERVER: u8 = 45;

/// The client's NetBIOS node type: 1 byte (RFC 2132 section 8.7).
pub const OPT_NETBIOS_NODE_TYPE: u8 = 46;

/// The client's NetBIOS scope: 1 byte or more (RFC 2132 section 8.8).
pub const OPT_NETBIOS_SCOPE: u8 = 47;

/// X Window font servers: 4 bytes each (RFC 2132 section 8.9).
pub const OPT_X_WINDOW_FONT_SERVER: u8 = 48;

/// X Window display managers: 4 bytes each (RFC 2132 section 8.10).
pub const OPT_X_WINDOW_DISPLAY_MANAGER: u8 = 49;

// Section 9: extensions of DHCP.

/// The address that the client asks for: 4 bytes (RFC 2132 section 9.1).
pub const OPT_REQUESTED_IP: u8 = 50;

/// How long an address is leased: 4 bytes, in seconds (RFC 2132 section 9.2).
pub const OPT_IP_LEASE_TIME: u8 = 51;

/// Which of the fields `file` and `sname` hold options: 1 byte. They are not read here (RFC 2132 section 9.3).
pub const OPT_OPTION_OVERLOAD: u8 = 52;

/// The type of the message, `MessageType`: 1 byte (RFC 2132 section 9.6).
pub const OPT_DHCP_MESSAGE_TYPE: u8 = 53;

/// The server that is meant: 4 bytes (RFC 2132 section 9.7).
pub const OPT_SERVER_IDENTIFIER: u8 = 54;

/// The kinds of option that the client asks for: 1 byte each, 1 or more (RFC 2132 section 9.8).
pub const OPT_PARAMETER_REQUEST_LIST: u8 = 55;

/// A text about a failure: 1 byte or more (RFC 2132 section 9.9).
pub const OPT_MESSAGE: u8 = 56;

/// The longest message that is accepted: 2 bytes, in bytes (RFC 2132 section 9.10).
pub const OPT_MAX_DHCP_MESSAGE_SIZE: u8 = 57;

/// The time from an address's lease to its renewal: 4 bytes, in seconds (RFC 2132 section 9.11).
pub const OPT_RENEWAL_TIME_VALUE: u8 = 58;

/// The time from an address's lease to its rebinding: 4 bytes, in seconds (RFC 2132 section 9.12).
pub const OPT_REBINDING_TIME_VALUE: u8 = 59;

/// The client's vendor class: 1 byte or more (RFC 2132 section 9.13).
pub const OPT_VENDOR_CLASS_ID: u8 = 60;

/// The client's identifier: the type of its hardware, 1 byte, and its address there (RFC 2132 section 9.14).
pub const OPT_CLIENT_ID: u8 = 61;

// Sections 8 and 9, the later numbers.

/// The client's NIS+ domain: 1 byte or more (RFC 2132 section 8.11).
pub const OPT_NIS_PLUS_DOMAIN: u8 = 64;

/// NIS+ servers: 4 bytes each (RFC 2132 section 8.12).
pub const OPT_NIS_PLUS_SERVERS: u8 = 65;

/// The name of the TFTP server, where `sname` holds options: 1 byte or more (RFC 2132 section 9.4).
pub const OPT_TFTP_SERVER_NAME: u8 = 66;

/// The boot file, where `file` holds options: 1 byte or more (RFC 2132 section 9.5).
pub const OPT_BOOTFILE_NAME: u8 = 67;

/// Mobile IP home agents: 4 bytes each, or none (RFC 2132 section 8.13).
pub const OPT_MOBILE_IP_HOME_AGENT: u8 = 68;

/// SMTP servers: 4 bytes each (RFC 2132 section 8.14).
pub const OPT_SMTP_SERVER: u8 = 69;

/// POP3 servers: 4 bytes each (RFC 2132 section 8.15).
pub const OPT_POP3_SERVER: u8 = 70;

/// NNTP servers: 4 bytes each (RFC 2132 section 8.16).
pub const OPT_NNTP_SERVER: u8 = 71;

/// WWW servers: 4 bytes each (RFC 2132 section 8.17).
pub const OPT_WWW_SERVER: u8 = 72;

/// Finger servers: 4 bytes each (RFC 2132 section 8.18).
pub const OPT_FINGER_SERVER: u8 = 73;

/// IRC servers: 4 bytes each (RFC 2132 section 8.19).
pub const OPT_IRC_SERVER: u8 = 74;

/// StreetTalk servers: 4 bytes each (RFC 2132 section 8.20).
pub const OPT_STREETTALK_SERVER: u8 = 75;

/// StreetTalk directory assistance servers: 4 bytes each (RFC 2132 section 8.21).
pub const OPT_STDA_SERVER: u8 = 76;

/// The end of the options: this byte alone (RFC 2132 section 3.2).
pub const OPT_END: u8 = 255;
