// Made from the sets of flags in crates/*/src by rust/erase.
//! The names and bits of the sets of flags, as the proved source has them.

use bitflags::Flags;

fn rows<F: Flags>() -> Vec<(&'static str, F::Bits)> {
    F::FLAGS
        .iter()
        .map(|flag| (flag.name(), flag.value().bits()))
        .collect()
}

#[test]
fn ndiscoption_prefixinfoflags() {
    assert_eq!(
        rows::<control_wire::ndiscoption::PrefixInfoFlags>(),
        [("ON_LINK", 0x80u8), ("ADDRCONF", 0x40u8)]
    );
}

#[test]
fn ndisc_routerflags() {
    assert_eq!(
        rows::<control_wire::ndisc::RouterFlags>(),
        [("MANAGED", 0x80u8), ("OTHER", 0x40u8)]
    );
}

#[test]
fn ndisc_neighborflags() {
    assert_eq!(
        rows::<control_wire::ndisc::NeighborFlags>(),
        [
            ("ROUTER", 0x80u8),
            ("SOLICITED", 0x40u8),
            ("OVERRIDE", 0x20u8)
        ]
    );
}

#[test]
fn dhcpv4_flags() {
    assert_eq!(
        rows::<control_wire::dhcpv4::Flags>(),
        [("BROADCAST", 0x8000u16)]
    );
}

#[test]
fn dns_flags() {
    assert_eq!(
        rows::<control_wire::dns::Flags>(),
        [
            ("RESPONSE", 0x8000u16),
            ("AUTHORITATIVE", 0x0400u16),
            ("TRUNCATED", 0x0200u16),
            ("RECURSION_DESIRED", 0x0100u16),
            ("RECURSION_AVAILABLE", 0x0080u16),
            ("AUTHENTIC_DATA", 0x0020u16),
            ("CHECK_DISABLED", 0x0010u16)
        ]
    );
}
