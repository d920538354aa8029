// Made from crates/neighbor_wire/src/preference.rt by rust/erase.
//! The preference of a router or a route (RFC 4191 section 2.1).

use core::fmt;

/// The preference of a default router or of a route, over others (RFC 4191 section 2.1): two bits, as a signed number.
#[derive(Debug, PartialEq, Eq, Clone, Copy)]
pub enum Preference {
    /// High, the bits 01.
    High,
    /// Medium, the bits 00, which a router sends that states no preference.
    Medium,
    /// Low, the bits 11.
    Low,
    /// The bits 10, which are not to be sent (RFC 4191 section 2.1). A receiver treats a default router with these bits
    /// as of medium preference (section 2.2), and ignores a route (section 2.3).
    Reserved,
}

/// The name of the preference, as `high`.
impl fmt::Display for Preference {
    fn fmt(&self, f: &mut fmt::Formatter<'_>) -> fmt::Result {
        f.write_str(match self {
            Preference::High => "high",
            Preference::Medium => "medium",
            Preference::Low => "low",
            Preference::Reserved => "reserved",
        })
    }
}

impl Preference {
    // The preference of these two bits.
    fn of(bits: u8) -> Preference {
        match bits {
            0 => Preference::Medium,
            1 => Preference::High,
            3 => Preference::Low,
            _ => Preference::Reserved,
        }
    }

    // The two bits.
    pub(crate) fn bits(self) -> u8 {
        match self {
            Preference::Medium => 0,
            Preference::High => 1,
            Preference::Reserved => 2,
            Preference::Low => 3,
        }
    }
}

/// The preference in the byte of flags of a router advertisement, that after the hop limit (RFC 4191 section 2.2), or
/// in the byte after the prefix length of a route (RFC 4191 section 2.3): bits 3 and 4 from the highest on.
pub fn router_preference(flags: u8) -> Preference {
    Preference::of(flags / 8 % 4)
}

/// The byte of flags with this preference in bits 3 and 4; the other bits are unchanged. Set it in byte 5 of a router
/// advertisement after `icmpv6::Repr::emit_into`, and then fill in the checksum again.
pub fn with_preference(flags: u8, preference: Preference) -> u8 {
    flags / 32 * 32 + preference.bits() * 8 + flags % 8
}
