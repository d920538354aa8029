// Made from crates/dump_captures/src/ports.rt by rust/erase.
//! The ports that are given to services beside their own.

use crate::settings::{count_in, split};
use message_fields::Service;

/// The port that is given to each service beside its own, where there is one.
#[derive(Debug, PartialEq, Eq, Clone, Copy)]
pub struct Ports {
    /// To DNS, over UDP and TCP.
    pub dns: Option<u16>,
    /// To mDNS.
    pub mdns: Option<u16>,
    /// To LLMNR.
    pub llmnr: Option<u16>,
    /// To the NetBIOS name service.
    pub nbns: Option<u16>,
    /// To DHCP, over IPv4 alone.
    pub dhcp: Option<u16>,
}

impl Ports {
    /// None.
    pub const NONE: Ports = Ports {
        dns: None,
        mdns: None,
        llmnr: None,
        nbns: None,
        dhcp: None,
    };

    /// These and the one of a text, as `dns=5300`; None where the text gives no port to a service.
    pub fn with(&self, text: &str) -> Option<Ports> {
        let (name, behind) = split(text, '=');
        let port = port_in(behind?)?;
        with_port(*self, name, port)
    }

    /// The service that one of these ports, of the source and the destination, is given to.
    pub fn service(&self, is_v4: bool, ports: (u16, u16)) -> Option<Service> {
        if has_given(ports, self.dns) {
            Some(Service::Dns)
        } else if has_given(ports, self.mdns) {
            Some(Service::Mdns)
        } else if has_given(ports, self.llmnr) {
            Some(Service::Llmnr)
        } else if has_given(ports, self.nbns) {
            Some(Service::Nbns)
        } else if is_v4 && has_given(ports, self.dhcp) {
            Some(Service::Dhcp)
        } else {
            None
        }
    }
}

// These ports with another one for the service of a name.
fn with_port(given: Ports, name: &str, port: u16) -> Option<Ports> {
    let mut given = given;
    match name {
        "dns" => given.dns = Some(port),
        "mdns" => given.mdns = Some(port),
        "llmnr" => given.llmnr = Some(port),
        "nbns" => given.nbns = Some(port),
        "dhcp" => given.dhcp = Some(port),
        _ => return None,
    }
    Some(given)
}

/// A port from 1 on in decimal digits.
pub fn port_in(text: &str) -> Option<u16> {
    let number = count_in(text)?;
    if number > u64::from(u16::MAX) {
        return None;
    }
    Some(number as u16)
}

/// Whether a port is that of the source or of the destination.
pub fn has_port(ports: (u16, u16), port: u16) -> bool {
    ports.0 == port || ports.1 == port
}

/// The same of a port that may be given.
pub fn has_given(ports: (u16, u16), given: Option<u16>) -> bool {
    match given {
        Some(port) => has_port(ports, port),
        None => false,
    }
}
