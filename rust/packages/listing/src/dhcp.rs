// Made from crates/listing/src/dhcp.rt by rust/erase.
//! DHCP packets.

use crate::printer::{Value, field, line};
use arrayvec::ArrayVec;
use control_wire::dhcpv4::{MAX_DNS_SERVER_COUNT, Packet, Repr};
use control_wire::{EthernetAddress, Ipv4Address};
use rattle_std::io;
use rattle_std::io::Write;

/// Prints the fields of a packet.
pub fn show_dhcp<W: Write>(output: &mut W, packet: &[u8]) -> io::Result<()> {
    let Ok(packet) = Repr::parse(&Packet::new_unchecked(packet)) else {
        return line(output, "refused");
    };
    show_packet(output, &packet)
}

fn show_packet<W: Write>(output: &mut W, packet: &Repr<'_>) -> io::Result<()> {
    show_sender(output, packet)?;
    show_addresses(output, packet)?;
    show_request(output, packet)?;
    show_limits(output, packet)
}

fn show_sender<W: Write>(output: &mut W, packet: &Repr<'_>) -> io::Result<()> {
    field(output, "message_type", u8::from(packet.message_type))?;
    field(output, "transaction_id", packet.transaction_id)?;
    field(output, "secs", packet.secs)?;
    field(
        output,
        "client_hardware_address",
        packet.client_hardware_address,
    )
}

fn show_addresses<W: Write>(output: &mut W, packet: &Repr<'_>) -> io::Result<()> {
    field(output, "client_ip", packet.client_ip)?;
    field(output, "your_ip", packet.your_ip)?;
    field(output, "server_ip", packet.server_ip)?;
    field(output, "router", packet.router)?;
    field(output, "subnet_mask", packet.subnet_mask)?;
    field(output, "relay_agent_ip", packet.relay_agent_ip)
}

fn show_request<W: Write>(output: &mut W, packet: &Repr<'_>) -> io::Result<()> {
    field(output, "broadcast", packet.broadcast)?;
    field(output, "requested_ip", packet.requested_ip)?;
    field(output, "client_identifier", packet.client_identifier)?;
    field(output, "server_identifier", packet.server_identifier)?;
    show_asked(output, packet.parameter_request_list)?;
    show_servers(output, &packet.dns_servers)
}

fn show_asked<W: Write>(output: &mut W, kinds: Option<&[u8]>) -> io::Result<()> {
    match kinds {
        Some(kinds) => field(output, "parameter_request_list", kinds),
        None => field(output, "parameter_request_list", "none"),
    }
}

fn show_servers<W: Write>(
    output: &mut W,
    servers: &Option<ArrayVec<Ipv4Address, MAX_DNS_SERVER_COUNT>>,
) -> io::Result<()> {
    match servers {
        Some(servers) => field(output, "dns_servers", servers.as_slice()),
        None => field(output, "dns_servers", "none"),
    }
}

fn show_limits<W: Write>(output: &mut W, packet: &Repr<'_>) -> io::Result<()> {
    field(output, "max_size", packet.max_size)?;
    field(output, "lease_duration", packet.lease_duration)?;
    field(output, "renew_duration", packet.renew_duration)?;
    field(output, "rebind_duration", packet.rebind_duration)
}

// The octets of an address.
impl Value for EthernetAddress {
    fn write_to<W: Write>(self, output: &mut W) -> io::Result<()> {
        self.as_bytes().write_to(output)
    }
}

// Addresses with commas between them, or `-` for none.
impl Value for &[Ipv4Address] {
    fn write_to<W: Write>(self, output: &mut W) -> io::Result<()> {
        let [first, rest @ ..] = self else {
            return output.write_all(b"-");
        };
        first.write_to(output)?;
        for address in rest {
            output.write_all(b",")?;
            address.write_to(output)?;
        }
        Ok(())
    }
}
