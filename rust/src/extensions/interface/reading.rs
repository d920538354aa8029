// Made from crates/extension_wire/src/interface/reading.rt by rust/erase.
//! The parts of what an object says of an interface, read from the front of octets.

use super::{InterfaceAddress, MAX_NAME_LEN};
use crate::extensions::family::Family;
use crate::extensions::refusal::InterfaceRefusal;
use crate::wirebase::Octets;

// The bytes of a number, and those before an address.
const NUMBER_LEN: usize = 4;

const ADDRESS_AT: usize = 4;

// A number of four bytes, where it is there, and what follows it.
pub(super) fn read_number(
    there: bool,
    octets: &[u8],
) -> Result<(Option<u32>, &[u8]), InterfaceRefusal> {
    if !there {
        return Ok((None, octets));
    }
    if octets.len() < NUMBER_LEN {
        return Err(InterfaceRefusal::Cut);
    }
    let number = octets.u32_at(0..NUMBER_LEN);
    Ok((Some(number), &octets[NUMBER_LEN..]))
}

// An address, where it is there, and what follows it.
pub(super) fn read_address(
    there: bool,
    octets: &[u8],
) -> Result<(Option<InterfaceAddress<'_>>, &[u8]), InterfaceRefusal> {
    if !there {
        return Ok((None, octets));
    }
    if octets.len() < ADDRESS_AT {
        return Err(InterfaceRefusal::Cut);
    }
    let number = octets.u16_at(0..2);
    let family = match family_of(number) {
        Some(family) => family,
        None => return Err(InterfaceRefusal::AddressFamily(number)),
    };
    let end = ADDRESS_AT + family.width();
    if octets.len() < end {
        return Err(InterfaceRefusal::Cut);
    }
    let address = InterfaceAddress {
        family,
        octets: &octets[ADDRESS_AT..end],
    };
    Ok((Some(address), &octets[end..]))
}

// The family of addresses that has this number.
fn family_of(number: u16) -> Option<Family> {
    match number {
        1 => Some(Family::V4),
        2 => Some(Family::V6),
        _ => None,
    }
}

// A name, where it is there, and what follows it and its padding.
pub(super) fn read_name(
    there: bool,
    octets: &[u8],
) -> Result<(Option<&[u8]>, &[u8]), InterfaceRefusal> {
    if !there {
        return Ok((None, octets));
    }
    if octets.is_empty() {
        return Err(InterfaceRefusal::Cut);
    }
    let number = octets[0];
    let end = number as usize;
    if end < 4 || end % 4 != 0 || end > 1 + MAX_NAME_LEN {
        return Err(InterfaceRefusal::NameLength(number));
    }
    if octets.len() < end {
        return Err(InterfaceRefusal::Cut);
    }
    Ok((Some(trimmed(&octets[1..end])), &octets[end..]))
}

// The octets without the zeros at their end.
fn trimmed(octets: &[u8]) -> &[u8] {
    let mut len = octets.len();
    while len > 0 && octets[len - 1] == 0 {
        len -= 1;
    }
    &octets[..len]
}
