// Made from crates/dhcp_wire/src/dhcpv4/repr.rt by rust/erase.
//! The value of a packet.

use super::MAX_DNS_SERVER_COUNT;
use super::options::DhcpOption;
use super::options_seen::OptionsSeen;
use super::packet::{Packet, field};
use super::tables::{Flags, MessageType};
use crate::wirebase::{Error, EthernetAddress, Ipv4Address, Octets, Result};
use arrayvec::ArrayVec;

/// The value of a packet (RFC 2131 section 2), with the options that a client or a server asks for (RFC 2132).
///
/// A field that comes from an option is that of the last option of its kind whose data has the length given at the
/// field; options of another length are ignored, and the field is None where there is no other. [`Packet::options`]
/// gives every option with its data, also data that a field has no room for.
#[derive(Debug, PartialEq, Eq, Clone)]
pub struct Repr<'a> {
    /// The type of the message, option 53, of 1 byte. It fits the operation of the packet: a type that belongs to the
    /// other operation is ignored.
    pub message_type: MessageType,
    /// The number that the client chose for this exchange.
    pub transaction_id: u32,
    /// The seconds since the client began.
    pub secs: u16,
    /// The client's address on its network.
    pub client_hardware_address: EthernetAddress,
    /// The address that the client has, or 0.0.0.0.
    pub client_ip: Ipv4Address,
    /// The address that the client is given, or 0.0.0.0.
    pub your_ip: Ipv4Address,
    /// The server to start from, or 0.0.0.0.
    pub server_ip: Ipv4Address,
    /// The router of the client's network, option 3, of exactly 4 bytes: None where the option has two routers or more.
    pub router: Option<Ipv4Address>,
    /// The mask of the client's network, option 1, of 4 bytes.
    pub subnet_mask: Option<Ipv4Address>,
    /// The relay that the packet came by, or 0.0.0.0.
    pub relay_agent_ip: Ipv4Address,
    /// Whether the answer is to be sent to everyone.
    pub broadcast: bool,
    /// The address that the client asks for, option 50, of 4 bytes.
    pub requested_ip: Option<Ipv4Address>,
    /// The identifier of the client, option 61: the hardware type of Ethernet, 1, and an address, in 7 bytes. An
    /// identifier of another length, such as a DUID, gives None; one of 7 bytes with another hardware type refuses the
    /// packet.
    pub client_identifier: Option<EthernetAddress>,
    /// The server that the message is from or for, option 54, of 4 bytes.
    pub server_identifier: Option<Ipv4Address>,
    /// The kinds of option that the client asks for, option 55, of any length when it is read, and of at most 255 where
    /// it is to be written.
    pub parameter_request_list: Option<&'a [u8]>,
    /// The DNS servers, option 6, of any length: the first 5 whole addresses. The sixth and later ones are dropped, and
    /// so are fewer than 4 bytes at the end. An option of fewer than 4 bytes gives an empty list.
    pub dns_servers: Option<ArrayVec<Ipv4Address, MAX_DNS_SERVER_COUNT>>,
    /// The greatest packet that the client takes, in bytes, option 57, of 2 bytes.
    pub max_size: Option<u16>,
    /// How long the address may be used, in seconds, option 51, of 4 bytes; 0xffff_ffff is without end.
    pub lease_duration: Option<u32>,
    /// When the client is to ask its server for more time, in seconds, option 58, of 4 bytes.
    pub renew_duration: Option<u32>,
    /// When it is to ask any server, in seconds, option 59, of 4 bytes.
    pub rebind_duration: Option<u32>,
    /// Options of other kinds, which are written after those above. None are read.
    pub additional_options: &'a [DhcpOption<'a>],
}

// The number of Ethernet, the bytes of its addresses, and the number before the options (RFC 2131 section 3).
pub(super) const ETHERNET: u8 = 1;

pub(super) const ETHERNET_LEN: u8 = 6;

pub(super) const MAGIC_NUMBER: u32 = 0x6382_5363;

impl<'a> Repr<'a> {
    /// The value of a packet. Refused where the octets are fewer than 240; where the hardware is not Ethernet, or the
    /// cookie not that of DHCP; where a client identifier of 7 bytes is of another hardware; and where no option gives
    /// a type of message that fits the operation of the packet. Every field that an option gives is that of the last
    /// option of its kind and length; other options are not read.
    pub fn parse<B: AsRef<[u8]> + ?Sized>(packet: &Packet<&'a B>) -> Result<Repr<'a>> {
        check_header(packet)?;
        let mut found = OptionsSeen {
            message_type: None,
            repr: Repr::of(packet),
        };
        found.add_all(packet)?;
        let Some(message_type) = found.message_type else {
            return Err(Error);
        };
        let mut repr = found.repr;
        repr.message_type = message_type;
        Ok(repr)
    }

    // The value of a packet before its options are read; its type of message is one that no packet has.
    pub(super) fn of<B: AsRef<[u8]> + ?Sized>(packet: &Packet<&'a B>) -> Repr<'a> {
        Repr {
            message_type: MessageType::Unknown(0),
            transaction_id: packet.transaction_id(),
            secs: packet.secs(),
            client_hardware_address: packet.client_hardware_address(),
            client_ip: packet.client_ip(),
            your_ip: packet.your_ip(),
            server_ip: packet.server_ip(),
            router: None,
            subnet_mask: None,
            relay_agent_ip: packet.relay_agent_ip(),
            broadcast: is_broadcast(packet),
            requested_ip: None,
            client_identifier: None,
            server_identifier: None,
            parameter_request_list: None,
            dns_servers: None,
            max_size: None,
            lease_duration: None,
            renew_duration: None,
            rebind_duration: None,
            additional_options: &[],
        }
    }
}

// Whether the answer is to be sent to everyone.
fn is_broadcast<B: AsRef<[u8]> + ?Sized>(packet: &Packet<&B>) -> bool {
    packet.flags().contains(Flags::BROADCAST)
}

// Accepts a packet that is whole, of Ethernet, and with the cookie of DHCP.
fn check_header<B: AsRef<[u8]> + ?Sized>(packet: &Packet<&B>) -> Result<()> {
    packet.check_len()?;
    if packet.buffer.u8_at(field::HTYPE) != ETHERNET || packet.hardware_len() != ETHERNET_LEN {
        return Err(Error);
    }
    if packet.magic_number() != MAGIC_NUMBER {
        return Err(Error);
    }
    Ok(())
}
