// Made from crates/dhcp_wire/src/dhcpv4/writing.rt by rust/erase.
//! Writes values.

use super::option_data::Data;
use super::option_kinds::*;
use super::options::{DhcpOption, DhcpOptionWriter};
use super::packet::{Packet, field};
use super::repr::{ETHERNET, ETHERNET_LEN, MAGIC_NUMBER, Repr};
use super::tables::Flags;
use crate::wirebase::{ByteWriter, EthernetAddress, Ipv4Address, OctetsMut, Result};

impl Repr<'_> {
    /// The bytes that the packet takes: header, options and end mark. Requires that their number fits a `usize`.
    ///
    /// # Panics
    ///
    /// May panic where what is asked for above does not hold.
    pub fn buffer_len(&self) -> usize {
        let mut len = self.fields_len();
        for option in self.additional_options {
            len += 2 + option.data.len();
        }
        len
    }

    /// Writes the packet over the front of the octets; the other octets are unchanged. Requires at least 240 bytes.
    /// Refused where the request list, or the data of an additional option, has more than 255 bytes, and where there is
    /// no room for all options and the end mark; then the header and the options before the first that is refused are
    /// written, and no end mark.
    ///
    /// # Panics
    ///
    /// May panic where what is asked for above does not hold.
    pub fn emit<T: OctetsMut>(&self, packet: &mut Packet<T>) -> Result<()> {
        self.emit_into(packet.buffer.octets_mut())
    }

    /// Like `emit`, but writes into a slice.
    ///
    /// # Panics
    ///
    /// May panic where what is asked for above does not hold.
    pub fn emit_into(&self, octets: &mut [u8]) -> Result<()> {
        let mut w = ByteWriter::new(octets);
        self.put_header(&mut w);
        let room = w.free();
        self.write_options(w.part(room))
    }

    // The bytes of all but the additional options; the end mark takes one.
    fn fields_len(&self) -> usize {
        field::OPTIONS
            + 1
            + option_len(Some(self.message_type))
            + option_len(self.client_identifier)
            + option_len(self.server_identifier)
            + option_len(self.router)
            + option_len(self.subnet_mask)
            + option_len(self.requested_ip)
            + option_len(self.max_size)
            + option_len(self.lease_duration)
            + option_len(self.renew_duration)
            + option_len(self.rebind_duration)
            + option_len(self.parameter_request_list)
            + option_len(self.dns_servers.as_ref())
    }

    // Writes each field of the fixed part.
    fn put_header(&self, w: &mut ByteWriter<'_>) {
        self.put_numbers(w);
        self.put_header_addresses(w);
    }

    // Writes the numbers before the addresses of the fixed part.
    fn put_numbers(&self, w: &mut ByteWriter<'_>) {
        let flags = if self.broadcast {
            Flags::BROADCAST.bits()
        } else {
            0
        };
        w.put_u8(self.message_type.opcode().into());
        w.put_u8(ETHERNET);
        w.put_u8(ETHERNET_LEN);
        w.put_u8(0);
        w.put_u32(self.transaction_id);
        w.put_u16(self.secs);
        w.put_u16(flags);
    }

    // Writes the addresses of the fixed part, and the fields after them.
    fn put_header_addresses(&self, w: &mut ByteWriter<'_>) {
        put_octets(w, self.client_ip);
        put_octets(w, self.your_ip);
        put_octets(w, self.server_ip);
        put_octets(w, self.relay_agent_ip);
        w.put_bytes(self.client_hardware_address.as_bytes());
        w.put_zeros(202);
        w.put_u32(MAGIC_NUMBER);
    }

    // Writes the options and the end mark over the front of the octets.
    fn write_options(&self, octets: &mut [u8]) -> Result<()> {
        let mut w = DhcpOptionWriter::new(octets);
        self.put_options(&mut w)?;
        w.end()
    }

    // Writes the options, up to the first that is refused.
    fn put_options(&self, w: &mut DhcpOptionWriter<'_>) -> Result<()> {
        self.put_fields(w)?;
        put_all(w, self.additional_options)
    }

    // Writes the options of the fields, up to the first that is refused.
    fn put_fields(&self, w: &mut DhcpOptionWriter<'_>) -> Result<()> {
        w.put(OPT_DHCP_MESSAGE_TYPE, Some(self.message_type))?;
        put_identifier(w, self.client_identifier)?;
        w.put(OPT_SERVER_IDENTIFIER, self.server_identifier)?;
        w.put(OPT_ROUTER, self.router)?;
        w.put(OPT_SUBNET_MASK, self.subnet_mask)?;
        w.put(OPT_REQUESTED_IP, self.requested_ip)?;
        w.put(OPT_MAX_DHCP_MESSAGE_SIZE, self.max_size)?;
        w.put(OPT_IP_LEASE_TIME, self.lease_duration)?;
        w.put(OPT_RENEWAL_TIME_VALUE, self.renew_duration)?;
        w.put(OPT_REBINDING_TIME_VALUE, self.rebind_duration)?;
        w.put(OPT_PARAMETER_REQUEST_LIST, self.parameter_request_list)?;
        w.put(OPT_DOMAIN_NAME_SERVER, self.dns_servers.as_ref())
    }
}

// Writes a client's identifier, where there is one.
fn put_identifier(w: &mut DhcpOptionWriter<'_>, identifier: Option<EthernetAddress>) -> Result<()> {
    w.put(OPT_CLIENT_ID, identifier)
}

// Writes these options, up to the first that is refused.
fn put_all(w: &mut DhcpOptionWriter<'_>, options: &[DhcpOption<'_>]) -> Result<()> {
    for option in options {
        w.emit(*option)?;
    }
    Ok(())
}

// Writes the octets of an address of the fixed part.
fn put_octets(w: &mut ByteWriter<'_>, address: Ipv4Address) {
    w.put_bytes(&address.octets());
}

// The bytes of an option with this data, or 0 where there is none.
fn option_len<D: Data>(field: Option<D>) -> usize {
    match field {
        Some(data) => 2 + data.len(),
        None => 0,
    }
}
