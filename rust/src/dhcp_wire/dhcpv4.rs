// Made from crates/dhcp_wire/src/dhcpv4.rt by rust/erase.
//! The Dynamic Host Configuration Protocol (RFC 2131) with its options (RFC 2132).
//!
//! ```
//! use control_wire::dhcpv4::{MessageType, Packet, Repr};
//! use control_wire::{EthernetAddress, Ipv4Address};
//!
//! let discover = Repr {
//!     message_type: MessageType::Discover,
//!     transaction_id: 0x1234_5678,
//!     secs: 0,
//!     client_hardware_address: EthernetAddress([0x52, 0x54, 0, 0, 0, 1]),
//!     client_ip: Ipv4Address::UNSPECIFIED,
//!     your_ip: Ipv4Address::UNSPECIFIED,
//!     server_ip: Ipv4Address::UNSPECIFIED,
//!     router: None,
//!     subnet_mask: None,
//!     relay_agent_ip: Ipv4Address::UNSPECIFIED,
//!     broadcast: false,
//!     requested_ip: None,
//!     client_identifier: None,
//!     server_identifier: None,
//!     parameter_request_list: Some(&[1, 3, 6]),
//!     dns_servers: None,
//!     max_size: None,
//!     lease_duration: None,
//!     renew_duration: None,
//!     rebind_duration: None,
//!     additional_options: &[],
//! };
//! let mut octets = [0; 576];
//! let len = discover.buffer_len();
//! discover.emit_into(&mut octets[..len])?;
//!
//! let packet = Packet::new_checked(&octets[..len])?;
//! assert_eq!(Repr::parse(&packet)?, discover);
//! # Ok::<(), control_wire::Error>(())
//! ```

mod boot_names;
mod option_data;
mod option_kinds;
mod option_printing;
mod options;
mod options_seen;
mod packet;
mod printing;
mod refusal;
mod repr;
mod table;
mod tables;
mod value;
mod writing;

pub use option_kinds::{
    OPT_ALL_SUBNETS_ARE_LOCAL, OPT_ARP_CACHE_TIMEOUT, OPT_BOOT_FILE_SIZE, OPT_BOOTFILE_NAME,
    OPT_BROADCAST_ADDRESS, OPT_CLIENT_ID, OPT_COOKIE_SERVER, OPT_DEFAULT_TTL,
    OPT_DHCP_MESSAGE_TYPE, OPT_DOMAIN_NAME, OPT_DOMAIN_NAME_SERVER, OPT_END,
    OPT_ETHERNET_ENCAPSULATION, OPT_EXTENSIONS_PATH, OPT_FINGER_SERVER, OPT_HOST_NAME,
    OPT_IMPRESS_SERVER, OPT_INTERFACE_MTU, OPT_IP_FORWARDING, OPT_IP_LEASE_TIME, OPT_IRC_SERVER,
    OPT_LOG_SERVER, OPT_LPR_SERVER, OPT_MASK_SUPPLIER, OPT_MAX_DATAGRAM_REASSEMBLY_SIZE,
    OPT_MAX_DHCP_MESSAGE_SIZE, OPT_MERIT_DUMP, OPT_MESSAGE, OPT_MOBILE_IP_HOME_AGENT,
    OPT_NAME_SERVER, OPT_NETBIOS_DISTRIBUTION_SERVER, OPT_NETBIOS_NAME_SERVER,
    OPT_NETBIOS_NODE_TYPE, OPT_NETBIOS_SCOPE, OPT_NIS_DOMAIN, OPT_NIS_PLUS_DOMAIN,
    OPT_NIS_PLUS_SERVERS, OPT_NIS_SERVERS, OPT_NNTP_SERVER, OPT_NON_LOCAL_SOURCE_ROUTING,
    OPT_NTP_SERVERS, OPT_OPTION_OVERLOAD, OPT_PAD, OPT_PARAMETER_REQUEST_LIST,
    OPT_PATH_MTU_AGING_TIMEOUT, OPT_PATH_MTU_PLATEAU_TABLE, OPT_PERFORM_MASK_DISCOVERY,
    OPT_PERFORM_ROUTER_DISCOVERY, OPT_POLICY_FILTER, OPT_POP3_SERVER, OPT_REBINDING_TIME_VALUE,
    OPT_RENEWAL_TIME_VALUE, OPT_REQUESTED_IP, OPT_RESOURCE_LOCATION_SERVER, OPT_ROOT_PATH,
    OPT_ROUTER, OPT_ROUTER_SOLICITATION_ADDRESS, OPT_SERVER_IDENTIFIER, OPT_SMTP_SERVER,
    OPT_STATIC_ROUTE, OPT_STDA_SERVER, OPT_STREETTALK_SERVER, OPT_SUBNET_MASK, OPT_SWAP_SERVER,
    OPT_TCP_DEFAULT_TTL, OPT_TCP_KEEPALIVE_GARBAGE, OPT_TCP_KEEPALIVE_INTERVAL,
    OPT_TFTP_SERVER_NAME, OPT_TIME_OFFSET, OPT_TIME_SERVER, OPT_TRAILER_ENCAPSULATION,
    OPT_VENDOR_CLASS_ID, OPT_VENDOR_SPECIFIC_INFO, OPT_WWW_SERVER, OPT_X_WINDOW_DISPLAY_MANAGER,
    OPT_X_WINDOW_FONT_SERVER,
};
pub use options::{DhcpOption, DhcpOptionWriter, OptionsIter};
pub use packet::Packet;
pub use refusal::Refusal;
pub use repr::Repr;
pub use tables::{Flags, MessageType, OpCode};
pub use value::{OptionAddresses, OptionValue};

/// The UDP port of servers (RFC 2131 section 4.1).
pub const SERVER_PORT: u16 = 67;

/// The UDP port of clients (RFC 2131 section 4.1).
pub const CLIENT_PORT: u16 = 68;

/// The greatest number of DNS servers that a value holds.
pub const MAX_DNS_SERVER_COUNT: usize = 5;
