// Made from crates/quote_wire/src/icmpv4_error/display.rt by rust/erase.
//! What errors and their types print, each in one line.

use super::{Kind, Repr};
use crate::wirebase::Ipv4Address;
use core::fmt;

/// The type by its name, the code and its meaning, the next hop's MTU, the gateway or the pointer where the error has
/// one, and the number of quoted bytes, as `ICMPv4 redirect code=1 (redirect for the host) gateway=192.0.2.1
/// quoted=28`.
impl fmt::Display for Repr<'_> {
    fn fmt(&self, f: &mut fmt::Formatter<'_>) -> fmt::Result {
        let kind = self.kind;
        let code = self.code;
        let mtu = Mtu(self.next_hop_mtu());
        let gateway = Gateway(self.gateway());
        let pointer = Pointer(self.pointer());
        let len = self.quoted.len();
        match self.reason() {
            Some(reason) => write!(
                f,
                "ICMPv4 {kind} code={code} ({reason}){mtu}{gateway}{pointer} quoted={len}"
            ),
            None => write!(
                f,
                "ICMPv4 {kind} code={code}{mtu}{gateway}{pointer} quoted={len}"
            ),
        }
    }
}

/// The name of the type.
impl fmt::Display for Kind {
    fn fmt(&self, f: &mut fmt::Formatter<'_>) -> fmt::Result {
        let name = match self {
            Kind::DstUnreachable => "destination unreachable",
            Kind::SourceQuench => "source quench",
            Kind::Redirect => "redirect",
            Kind::TimeExceeded => "time exceeded",
            Kind::ParamProblem => "parameter problem",
        };
        f.write_str(name)
    }
}

// An optional field after its name; nothing where it is None.

#[derive(Clone, Copy)]
struct Mtu(Option<u16>);

impl fmt::Display for Mtu {
    fn fmt(&self, f: &mut fmt::Formatter<'_>) -> fmt::Result {
        match self.0 {
            Some(mtu) => write!(f, " mtu={mtu}"),
            None => Ok(()),
        }
    }
}

#[derive(Clone, Copy)]
struct Gateway(Option<Ipv4Address>);

impl fmt::Display for Gateway {
    fn fmt(&self, f: &mut fmt::Formatter<'_>) -> fmt::Result {
        match self.0 {
            Some(address) => write!(f, " gateway={address}"),
            None => Ok(()),
        }
    }
}

#[derive(Clone, Copy)]
struct Pointer(Option<u8>);

impl fmt::Display for Pointer {
    fn fmt(&self, f: &mut fmt::Formatter<'_>) -> fmt::Result {
        match self.0 {
            Some(place) => write!(f, " pointer={place}"),
            None => Ok(()),
        }
    }
}
