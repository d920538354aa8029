//! A client of DHCP as a firmware has it: it discovers servers, requests the address that one of them offers, and reads
//! what it is given.
#![no_std]

use control_wire::dhcpv4::{MessageType, Packet, Repr};
use control_wire::{EthernetAddress, Ipv4Address};

// What is asked for: the mask, the router, and the DNS servers.
const REQUESTED: [u8; 3] = [1, 3, 6];

// What each message of the client says.
fn message(
    message_type: MessageType,
    transaction_id: u32,
    address: EthernetAddress,
) -> Repr<'static> {
    Repr {
        message_type,
        transaction_id,
        secs: 0,
        client_hardware_address: address,
        client_ip: Ipv4Address::UNSPECIFIED,
        your_ip: Ipv4Address::UNSPECIFIED,
        server_ip: Ipv4Address::UNSPECIFIED,
        router: None,
        subnet_mask: None,
        relay_agent_ip: Ipv4Address::UNSPECIFIED,
        broadcast: true,
        requested_ip: None,
        client_identifier: Some(address),
        server_identifier: None,
        parameter_request_list: Some(&REQUESTED),
        dns_servers: None,
        max_size: Some(1_500),
        lease_duration: None,
        renew_duration: None,
        rebind_duration: None,
        additional_options: &[],
    }
}

// Writes a message over the front of `out`, and says how many bytes it takes: 0 where it has no room.
fn write(message: &Repr<'_>, out: &mut [u8]) -> usize {
    let len = message.buffer_len();
    let Some(out) = out.get_mut(..len) else {
        return 0;
    };
    match message.emit_into(out) {
        Ok(()) => len,
        Err(_) => 0,
    }
}

/// Writes the message that looks for servers, and says how many bytes it takes.
#[unsafe(no_mangle)]
pub fn discover(transaction_id: u32, address: &[u8; 6], out: &mut [u8]) -> usize {
    let address = EthernetAddress(*address);
    write(
        &message(MessageType::Discover, transaction_id, address),
        out,
    )
}

/// What a client is given.
pub struct Lease {
    /// Its address.
    pub address: Ipv4Address,
    /// The mask of its network.
    pub subnet_mask: Option<Ipv4Address>,
    /// The router of its network.
    pub router: Option<Ipv4Address>,
    /// How long it may use the address, in seconds.
    pub seconds: Option<u32>,
}

/// Reads what a server answers. An offer is requested: the bytes of the request are told. A lease is taken, and there
/// is nothing to write, as for what is no answer to this client.
#[unsafe(no_mangle)]
pub fn answered(
    transaction_id: u32,
    address: &[u8; 6],
    octets: &[u8],
    lease: &mut Option<Lease>,
    out: &mut [u8],
) -> usize {
    let address = EthernetAddress(*address);
    let Ok(answer) = Packet::new_checked(octets).and_then(|packet| Repr::parse(&packet)) else {
        return 0;
    };
    if answer.transaction_id != transaction_id || answer.client_hardware_address != address {
        return 0;
    }
    match answer.message_type {
        MessageType::Offer => {
            let mut request = message(MessageType::Request, transaction_id, address);
            request.requested_ip = Some(answer.your_ip);
            request.server_identifier = answer.server_identifier;
            write(&request, out)
        }
        MessageType::Ack => {
            *lease = Some(Lease {
                address: answer.your_ip,
                subnet_mask: answer.subnet_mask,
                router: answer.router,
                seconds: answer.lease_duration,
            });
            0
        }
        _ => 0,
    }
}

unsafe extern "C" {
    safe fn halt() -> !;
}

#[panic_handler]
fn panic(_: &core::panic::PanicInfo<'_>) -> ! {
    halt()
}
