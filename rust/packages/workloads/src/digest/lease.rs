// Made from crates/workloads/src/digest/lease.rt by rust/erase.
//! Adds what DHCP messages say.

use crate::digest::Digest;
use crate::digest::ip::add_ipv4_address;
use arrayvec::ArrayVec;
use control_wire::dhcpv4::{DhcpOption, MAX_DNS_SERVER_COUNT, MessageType, Repr};
use control_wire::{EthernetAddress, Ipv4Address};

/// Adds what a message says.
pub fn add_lease(lease: &Repr<'_>, digest: &mut Digest) {
    let Repr {
        message_type,
        transaction_id,
        secs,
        client_hardware_address,
        client_ip,
        your_ip,
        server_ip,
        router,
        subnet_mask,
        relay_agent_ip,
        broadcast,
        requested_ip,
        client_identifier,
        server_identifier,
        parameter_request_list,
        dns_servers,
        max_size,
        lease_duration,
        renew_duration,
        rebind_duration,
        additional_options,
    } = lease;
    add_type(*message_type, digest);
    digest.add(*transaction_id as u64);
    digest.add_numbered(*secs, *broadcast);
    digest.add_octets(client_hardware_address.as_bytes());
    for address in [*client_ip, *your_ip, *server_ip, *relay_agent_ip] {
        add_ipv4_address(&address, digest);
    }
    for address in [*router, *subnet_mask, *requested_ip, *server_identifier] {
        add_address(address, digest);
    }
    add_identifier(client_identifier, digest);
    add_kinds(*parameter_request_list, digest);
    add_servers(dns_servers, digest);
    add_size(*max_size, digest);
    for seconds in [*lease_duration, *renew_duration, *rebind_duration] {
        digest.add_option(seconds);
    }
    digest.add(additional_options.len() as u64);
}

// Adds the type of a message.
fn add_type(message_type: MessageType, digest: &mut Digest) {
    let is_named = !matches!(message_type, MessageType::Unknown(_));
    digest.add_numbered(u8::from(message_type) as u16, is_named);
}

// Adds an address that may be missing.
#[inline(always)]
fn add_address(address: Option<Ipv4Address>, digest: &mut Digest) {
    match address {
        Some(address) => add_ipv4_address(&address, digest),
        None => digest.add_missing(),
    }
}

// Adds the address by which a server knows a client, where there is one.
fn add_identifier(address: &Option<EthernetAddress>, digest: &mut Digest) {
    match address {
        Some(address) => digest.add_octets(address.as_bytes()),
        None => digest.add_missing(),
    }
}

// Adds the kinds of option that a client asks for, where it asks for any.
fn add_kinds(kinds: Option<&[u8]>, digest: &mut Digest) {
    match kinds {
        Some(kinds) => digest.add_octets(kinds),
        None => digest.add_missing(),
    }
}

// Adds the servers of DNS, where the packet has them.
fn add_servers(servers: &Option<ArrayVec<Ipv4Address, MAX_DNS_SERVER_COUNT>>, digest: &mut Digest) {
    let Some(servers) = servers else {
        digest.add_missing();
        return;
    };
    for server in servers.as_slice() {
        add_ipv4_address(server, digest);
    }
    digest.add(servers.len() as u64);
}

// Adds the largest packet that a client accepts, where the packet has it.
fn add_size(size: Option<u16>, digest: &mut Digest) {
    match size {
        Some(size) => digest.add(size as u64),
        None => digest.add_missing(),
    }
}

/// Adds an option of any kind.
pub fn add_option(option: &DhcpOption<'_>, digest: &mut Digest) {
    let DhcpOption { kind, data } = option;
    digest.add(*kind as u64);
    digest.add_octets(data);
}
