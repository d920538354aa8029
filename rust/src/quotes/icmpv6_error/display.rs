// Made from crates/quote_wire/src/icmpv6_error/display.rt by rust/erase.
//! What errors and their types print, each in one line.

use super::{Kind, Repr};
use core::fmt;

/// The type by its name, the code and its meaning, the next link's MTU or the pointer where the error has one, and the
/// number of quoted bytes, as `ICMPv6 packet too big code=0 mtu=1280 quoted=48`.
impl fmt::Display for Repr<'_> {
    fn fmt(&self, f: &mut fmt::Formatter<'_>) -> fmt::Result {
        let kind = self.kind;
        let code = self.code;
        let mtu = Mtu(self.mtu());
        let pointer = Pointer(self.pointer());
        let len = self.quoted.len();
        match self.reason() {
            Some(reason) => write!(
                f,
                "ICMPv6 {kind} code={code} ({reason}){mtu}{pointer} quoted={len}"
            ),
            None => write!(f, "ICMPv6 {kind} code={code}{mtu}{pointer} quoted={len}"),
        }
    }
}

/// The name of the type.
impl fmt::Display for Kind {
    fn fmt(&self, f: &mut fmt::Formatter<'_>) -> fmt::Result {
        let name = match self {
            Kind::DstUnreachable => "destination unreachable",
            Kind::PktTooBig => "packet too big",
            Kind::TimeExceeded => "time exceeded",
            Kind::ParamProblem => "parameter problem",
        };
        f.write_str(name)
    }
}

// An optional field after its name; nothing where it is None.

#[derive(Clone, Copy)]
struct Mtu(Option<u32>);

impl fmt::Display for Mtu {
    fn fmt(&self, f: &mut fmt::Formatter<'_>) -> fmt::Result {
        match self.0 {
            Some(mtu) => write!(f, " mtu={mtu}"),
            None => Ok(()),
        }
    }
}

#[derive(Clone, Copy)]
struct Pointer(Option<u32>);

impl fmt::Display for Pointer {
    fn fmt(&self, f: &mut fmt::Formatter<'_>) -> fmt::Result {
        match self.0 {
            Some(place) => write!(f, " pointer={place}"),
            None => Ok(()),
        }
    }
}
