// Made from crates/neighbor_wire/src/kind.rt by rust/erase.
//! The types of options that are read.

// The types of options that have a case of their own, and all others.
#[derive(Debug, PartialEq, Eq, Clone, Copy)]
pub(crate) enum Kind {
    Source,
    Target,
    Prefix,
    Mtu,
    Nonce,
    Route,
    DnsServers,
    SearchList,
    CaptivePortal,
    Nat64Prefix,
    Other,
}

impl Kind {
    // The kind of an option of this type.
    pub(crate) fn of(number: u8) -> Kind {
        match number {
            1 => Kind::Source,
            2 => Kind::Target,
            3 => Kind::Prefix,
            5 => Kind::Mtu,
            14 => Kind::Nonce,
            24 => Kind::Route,
            25 => Kind::DnsServers,
            31 => Kind::SearchList,
            37 => Kind::CaptivePortal,
            38 => Kind::Nat64Prefix,
            _ => Kind::Other,
        }
    }
}
