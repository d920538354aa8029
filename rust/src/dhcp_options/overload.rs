// Made from crates/dhcp_options/src/overload.rt by rust/erase.
//! Which fields of a packet hold options besides the options field.

use crate::dhcp_wire::dhcpv4::{DhcpOption, OPT_OPTION_OVERLOAD, Packet};

/// Which of the fields `file` and `sname` hold options, by the number in option 52 (RFC 2132 section 9.3).
#[derive(Debug, PartialEq, Eq, Clone, Copy)]
pub enum Overload {
    /// `file`: 1.
    File,
    /// `sname`: 2.
    Sname,
    /// Both: 3.
    FileAndSname,
}

impl Overload {
    /// The overload of the packet in these octets: what the first option 52 of its options field that has one byte, of
    /// 1 to 3, says. None where there is no such option: then `file` and `sname` are names. Requires at least 240
    /// bytes.
    ///
    /// # Panics
    ///
    /// May panic where what is asked for above does not hold.
    pub fn of(octets: &[u8]) -> Option<Overload> {
        for option in Packet::new_unchecked(octets).into_options() {
            if let Some(overload) = said(option) {
                return Some(overload);
            }
        }
        None
    }
}

// What an option says, where it is an option 52 of one byte.
fn said(option: DhcpOption<'_>) -> Option<Overload> {
    if option.kind != OPT_OPTION_OVERLOAD {
        return None;
    }
    match option.data {
        [number] => overload_of(*number),
        _ => None,
    }
}

// What a number says.
fn overload_of(number: u8) -> Option<Overload> {
    match number {
        1 => Some(Overload::File),
        2 => Some(Overload::Sname),
        3 => Some(Overload::FileAndSname),
        _ => None,
    }
}
