// Made from crates/dhcp_wire/src/dhcpv4/printing.rt by rust/erase.
//! Prints packets.

use super::repr::Repr;
use crate::wirebase::{EthernetAddress, Ipv4Address};
use core::fmt;

/// Prints the type of the message, and each field by its name, as `DHCPv4 DISCOVER xid=1 secs=0 ..`; an option that is
/// absent is left out.
impl fmt::Display for Repr<'_> {
    fn fmt(&self, f: &mut fmt::Formatter<'_>) -> fmt::Result {
        self.fmt_fixed(f)?;
        self.fmt_lists(f)?;
        self.fmt_numbers(f)
    }
}

impl Repr<'_> {
    // Prints the fixed part, and the addresses given by options.
    fn fmt_fixed(&self, f: &mut fmt::Formatter<'_>) -> fmt::Result {
        self.fmt_exchange(f)?;
        self.fmt_hosts(f)?;
        self.fmt_networks(f)
    }

    // Prints the type of the message, the numbers of the fixed part, and the client's hardware address.
    fn fmt_exchange(&self, f: &mut fmt::Formatter<'_>) -> fmt::Result {
        write!(
            f,
            "DHCPv4 {} xid={} secs={} client_hardware_address={}",
            self.message_type, self.transaction_id, self.secs, self.client_hardware_address
        )
    }

    // Prints the addresses of client and server.
    fn fmt_hosts(&self, f: &mut fmt::Formatter<'_>) -> fmt::Result {
        write!(
            f,
            " client_ip={} your_ip={} server_ip={}",
            self.client_ip, self.your_ip, self.server_ip
        )
    }

    // Prints the addresses given by options, and the rest of the fixed part.
    fn fmt_networks(&self, f: &mut fmt::Formatter<'_>) -> fmt::Result {
        write!(
            f,
            "{}{} relay_agent_ip={} broadcast={}{}{}{}",
            NamedIpv4("router", self.router),
            NamedIpv4("subnet_mask", self.subnet_mask),
            self.relay_agent_ip,
            self.broadcast,
            NamedIpv4("requested_ip", self.requested_ip),
            NamedEthernet("client_identifier", self.client_identifier),
            NamedIpv4("server_identifier", self.server_identifier)
        )
    }

    // Prints the lists.
    fn fmt_lists(&self, f: &mut fmt::Formatter<'_>) -> fmt::Result {
        self.fmt_requests(f)?;
        self.fmt_servers(f)
    }

    // Prints the list of requested options.
    fn fmt_requests(&self, f: &mut fmt::Formatter<'_>) -> fmt::Result {
        match self.parameter_request_list {
            Some(kinds) => write!(f, " parameter_request_list={}", Kinds(kinds)),
            None => Ok(()),
        }
    }

    // Prints the list of servers.
    fn fmt_servers(&self, f: &mut fmt::Formatter<'_>) -> fmt::Result {
        match &self.dns_servers {
            Some(servers) => write!(f, " dns_servers={}", Addresses(servers.as_slice())),
            None => Ok(()),
        }
    }

    // Prints the numbers given by options, and the number of additional options.
    fn fmt_numbers(&self, f: &mut fmt::Formatter<'_>) -> fmt::Result {
        self.fmt_times(f)?;
        fmt_count(f, self.additional_options.len())
    }

    // Prints the numbers given by options.
    fn fmt_times(&self, f: &mut fmt::Formatter<'_>) -> fmt::Result {
        let max_size = match self.max_size {
            Some(size) => Some(size as u32),
            None => None,
        };
        write!(
            f,
            "{}{}{}{}",
            NamedNumber("max_size", max_size),
            NamedNumber("lease_duration", self.lease_duration),
            NamedNumber("renew_duration", self.renew_duration),
            NamedNumber("rebind_duration", self.rebind_duration)
        )
    }
}

// Prints the number of additional options.
fn fmt_count(f: &mut fmt::Formatter<'_>, count: usize) -> fmt::Result {
    if count == 0 {
        return Ok(());
    }
    write!(f, " additional_options={count}")
}

// An optional field that is printed after a space, its name and `=`: an address of IPv4.
#[derive(Clone, Copy)]
struct NamedIpv4<'a>(&'a str, Option<Ipv4Address>);

impl fmt::Display for NamedIpv4<'_> {
    fn fmt(&self, f: &mut fmt::Formatter<'_>) -> fmt::Result {
        match &self.1 {
            Some(address) => write!(f, " {}={address}", self.0),
            None => Ok(()),
        }
    }
}

// An optional field that is printed after a space, its name and `=`: an address of Ethernet.
#[derive(Clone, Copy)]
struct NamedEthernet<'a>(&'a str, Option<EthernetAddress>);

impl fmt::Display for NamedEthernet<'_> {
    fn fmt(&self, f: &mut fmt::Formatter<'_>) -> fmt::Result {
        match &self.1 {
            Some(address) => write!(f, " {}={address}", self.0),
            None => Ok(()),
        }
    }
}

// An optional field that is printed after a space, its name and `=`: a number.
#[derive(Clone, Copy)]
struct NamedNumber<'a>(&'a str, Option<u32>);

impl fmt::Display for NamedNumber<'_> {
    fn fmt(&self, f: &mut fmt::Formatter<'_>) -> fmt::Result {
        match &self.1 {
            Some(number) => write!(f, " {}={number}", self.0),
            None => Ok(()),
        }
    }
}

// Kinds of option, with commas between them.
#[derive(Clone, Copy)]
pub(super) struct Kinds<'a>(pub(super) &'a [u8]);

impl fmt::Display for Kinds<'_> {
    fn fmt(&self, f: &mut fmt::Formatter<'_>) -> fmt::Result {
        let Some((first, rest)) = self.0.split_first() else {
            return Ok(());
        };
        write!(f, "{first}")?;
        fmt_more_kinds(f, rest)
    }
}

// Prints each kind after a comma.
fn fmt_more_kinds(f: &mut fmt::Formatter<'_>, kinds: &[u8]) -> fmt::Result {
    for kind in kinds {
        write!(f, ",{kind}")?;
    }
    Ok(())
}

// Addresses, with commas between them.
#[derive(Clone, Copy)]
struct Addresses<'a>(&'a [Ipv4Address]);

impl fmt::Display for Addresses<'_> {
    fn fmt(&self, f: &mut fmt::Formatter<'_>) -> fmt::Result {
        let Some((first, rest)) = self.0.split_first() else {
            return Ok(());
        };
        write!(f, "{first}")?;
        fmt_more_addresses(f, rest)
    }
}

// Prints each address after a comma.
fn fmt_more_addresses(f: &mut fmt::Formatter<'_>, addresses: &[Ipv4Address]) -> fmt::Result {
    for address in addresses {
        write!(f, ",{address}")?;
    }
    Ok(())
}
