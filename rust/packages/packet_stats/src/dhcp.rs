// Made from crates/packet_stats/src/dhcp.rt by rust/erase.
//! Messages of DHCP (RFC 2131).

use crate::stats::Stats;
use crate::subject::{MOST_HARDWARE, Subject};
use crate::table::Fault;
use arrayvec::ArrayVec;
use control_wire::dhcp_options::Parts;
use control_wire::{Ipv4Address, Octets};
use dhcp_fields::header::hardware_address;

// The operations of messages.
const REQUEST: u8 = 1;

const REPLY: u8 = 2;

// The number before the options (RFC 2131 section 3).
const MAGIC_COOKIE: u32 = 0x6382_5363;

// The kinds of options (RFC 2132 sections 9.2 and 9.6), and the type of an ACK.
const LEASE_TIME: u8 = 51;

const MESSAGE_TYPE: u8 = 53;

const ACK: u8 = 5;

// The fields; their picture is in specs/Dhcpv4Packet.antt of dhcp_wire.
mod place {
    use control_wire::Field;

    pub const OP: usize = 0;

    pub const YIADDR: Field = 16..20;

    pub const CHADDR_END: usize = 44;

    pub const MAGIC_NUMBER: Field = 236..240;

    pub const OPTIONS: usize = 240;

    pub const SECONDS: Field = 0..4;

    pub const SECONDS_END: usize = 4;
}

impl Stats {
    // Counts what a message says.
    pub(crate) fn count_dhcp(&mut self, octets: &[u8]) -> Result<(), Fault> {
        if is_reply(octets) {
            let parts = Parts::of(octets);
            return self.count_lease(&parts, octets);
        }
        self.count_request(octets)
    }

    // Counts the client that a request comes from.
    fn count_request(&mut self, octets: &[u8]) -> Result<(), Fault> {
        if is_request(octets) {
            return self.count_subject(Subject::Client(hardware_of(octets)));
        }
        Ok(())
    }

    // Counts the lease that a reply grants.
    fn count_lease(&mut self, parts: &Parts<'_>, octets: &[u8]) -> Result<(), Fault> {
        if is_ack(parts) {
            return self.count_address(parts, octets);
        }
        Ok(())
    }

    // Counts the address that an ACK gives.
    fn count_address(&mut self, parts: &Parts<'_>, octets: &[u8]) -> Result<(), Fault> {
        if gives_address(octets) {
            let address = address_of(octets.field(place::YIADDR));
            let hardware = hardware_of(octets);
            return self.count_subject(Subject::Lease(address, hardware, time_in(parts)));
        }
        Ok(())
    }
}

fn is_request(octets: &[u8]) -> bool {
    octets.len() >= place::CHADDR_END && octets[place::OP] == REQUEST
}

fn is_reply(octets: &[u8]) -> bool {
    octets.len() >= place::OPTIONS
        && octets.u32_at(place::MAGIC_NUMBER) == MAGIC_COOKIE
        && octets[place::OP] == REPLY
}

fn gives_address(octets: &[u8]) -> bool {
    octets.u32_at(place::YIADDR) > 0
}

// Whether the first part of the option says that a message is an ACK.
fn is_ack(parts: &Parts<'_>) -> bool {
    match parts.of_kind(MESSAGE_TYPE).next() {
        Some(octets) => is_ack_type(octets),
        None => false,
    }
}

fn is_ack_type(octets: &[u8]) -> bool {
    octets.len() == 1 && octets[0] == ACK
}

// The seconds of a lease, as the first part of the option tells them.
fn time_in(parts: &Parts<'_>) -> Option<u32> {
    match parts.of_kind(LEASE_TIME).next() {
        Some(octets) => seconds_in(octets),
        None => None,
    }
}

fn seconds_in(octets: &[u8]) -> Option<u32> {
    if octets.len() == place::SECONDS_END {
        return Some(octets.u32_at(place::SECONDS));
    }
    None
}

// The client's hardware address.
fn hardware_of(octets: &[u8]) -> ArrayVec<u8, MOST_HARDWARE> {
    let mut hardware = ArrayVec::new();
    let _all = hardware.try_extend_from_slice(hardware_address(octets));
    hardware
}

// The address of 4 octets.
fn address_of(octets: &[u8]) -> Ipv4Address {
    Ipv4Address::from_octets(octets.try_into().unwrap())
}
