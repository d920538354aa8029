// Made from crates/tests_base/src/options/ndiscoption/plain_reader.rt by rust/erase.
// A second reader of what is an option, by the layouts of RFC 4861 section 4.6: a type, a length in units of 8 bytes
// that is not 0, and the bytes up to that length. The tests compare the crate with it.

use crate::options::plain_reader::{DAMAGE, LONGEST, damaged};
use crate::testing::{holds_of, same_of};
use control_wire::ndiscoption::{NdiscOption, Repr};

// The octets of the option at the front, where they are all there. A prefix has 4 units or more, a redirected header 6.
fn front(octets: &[u8]) -> Option<&[u8]> {
    let [kind, units, ..] = octets else {
        return None;
    };
    let least = match *kind {
        3 => 4,
        4 => 6,
        _ => 1,
    };
    if *units < least {
        return None;
    }
    octets.get(..8 * *units as usize)
}

// Compares the crate with the plain reader over these octets, over each shorter part of them from their start on, and
// over each copy of them in which one byte is damaged.
pub(crate) fn compare_damaged(packet: &[u8]) {
    holds_of(packet, packet.len() <= LONGEST);
    for len in 0..=packet.len() {
        compare(&packet[..len]);
    }
    for at in 0..packet.len() {
        for &value in DAMAGE {
            compare(&damaged(packet, at, value)[..packet.len()]);
        }
    }
}

// Compares what is taken for an option, and where reasons are told. What is read in it `wiredump` prints, which
// `rust/compare` compares with a plain printer on these octets.
fn compare(octets: &[u8]) {
    let checked = NdiscOption::new_checked(octets).is_ok();
    same_of(octets, checked, front(octets).is_some());
    let option = NdiscOption::new_unchecked(octets);
    let told = Repr::refusal(&option);
    let read = Repr::parse(&option);
    same_of(octets, told.is_none(), read.is_ok());
}
