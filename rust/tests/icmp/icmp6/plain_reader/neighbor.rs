// Made from crates/tests_icmp/src/icmp6/plain_reader/neighbor.rt by rust/erase.
// Messages of neighbor discovery (RFC 4861 section 4): a header, and options one after another. Of each type the last
// option that can be read counts.

use super::{split_header, split_ip_header};
use control_wire::ndisc::{NeighborFlags, Repr, RouterFlags};
use control_wire::ndiscoption::{PrefixInfoFlags, PrefixInformation, RedirectedHeader};
use control_wire::{Duration, Ipv6Address, RawHardwareAddress};

// A message of any code.
pub(crate) fn message(octets: &[u8]) -> Option<Repr<'_>> {
    let (header, options) = split_header(octets)?;
    if !are_options(options) {
        return None;
    }
    let [kind, _, _, _, flags, _, _, _, rest @ ..] = header else {
        return None;
    };
    match *kind {
        133 => Some(Repr::RouterSolicit {
            lladdr: link_address(options, 1),
        }),
        134 => router_advert(header, options),
        135 => Some(Repr::NeighborSolicit {
            target_addr: address(rest)?,
            lladdr: link_address(options, 1),
        }),
        136 => Some(Repr::NeighborAdvert {
            flags: NeighborFlags::from_bits_retain(*flags & 0xe0),
            target_addr: address(rest)?,
            lladdr: link_address(options, 2),
        }),
        137 => redirect(rest, options),
        _ => None,
    }
}

fn redirect<'a>(addresses: &[u8], options: &'a [u8]) -> Option<Repr<'a>> {
    let (target_addr, addresses) = addresses.split_first_chunk::<16>()?;
    Some(Repr::Redirect {
        target_addr: Ipv6Address::from_octets(*target_addr),
        dest_addr: address(addresses)?,
        lladdr: link_address(options, 2),
        redirected_hdr: redirected_header(options),
    })
}

fn router_advert<'a>(header: &[u8], options: &[u8]) -> Option<Repr<'a>> {
    let [_, _, _, _, hop_limit, flags, high, low, ..] = header else {
        return None;
    };
    Some(Repr::RouterAdvert {
        hop_limit: *hop_limit,
        flags: RouterFlags::from_bits_retain(*flags & 0xc0),
        router_lifetime: Duration::from_secs(u16::from_be_bytes([*high, *low]) as u64),
        reachable_time: Duration::from_millis(number_at(header, 8)? as u64),
        retrans_time: Duration::from_millis(number_at(header, 12)? as u64),
        lladdr: link_address(options, 1),
        mtu: mtu(options),
        prefix_info: prefix_information(options),
    })
}

// The number in the four bytes at this place.
fn number_at(octets: &[u8], at: usize) -> Option<u32> {
    let (bytes, _) = octets.get(at..)?.split_first_chunk::<4>()?;
    Some(u32::from_be_bytes(*bytes))
}

// The address at the front.
fn address(octets: &[u8]) -> Option<Ipv6Address> {
    let (address, _) = octets.split_first_chunk::<16>()?;
    Some(Ipv6Address::from_octets(*address))
}

// The option at the front and what follows it: one unit of 8 bytes or more, of a prefix 4, of a redirected header
// 6. Another refuses the message.
fn split_option(octets: &[u8]) -> Option<(&[u8], &[u8])> {
    let [kind, units, ..] = octets else {
        return None;
    };
    let least = match *kind {
        3 => 4,
        4 => 6,
        _ => 1,
    };
    if *units < least {
        return None;
    }
    octets.split_at_checked(8 * *units as usize)
}

fn are_options(octets: &[u8]) -> bool {
    let mut rest = octets;
    for _ in 0..octets.len() {
        if rest.is_empty() {
            break;
        }
        let Some((_, behind)) = split_option(rest) else {
            return false;
        };
        rest = behind;
    }
    true
}

// Whether an option can be read; one that can't is skipped.
fn can_be_read(option: &[u8]) -> bool {
    match option {
        [3, units, ..] => *units == 4,
        [4, _, data @ ..] => redirected_packet(data).is_some(),
        [5, units, ..] => *units == 1,
        _ => true,
    }
}

// What follows type and length of the last option of a type that can be read.
fn last_option(options: &[u8], wanted: u8) -> Option<&[u8]> {
    let mut last = None;
    let mut rest = options;
    for _ in 0..options.len() {
        let Some((option, behind)) = split_option(rest) else {
            break;
        };
        if option.first() == Some(&wanted) && can_be_read(option) {
            last = option.get(2..);
        }
        rest = behind;
    }
    last
}

// The 8 bytes of an address, or the 6 that one unit has.
fn link_address(options: &[u8], kind: u8) -> Option<RawHardwareAddress> {
    let data = last_option(options, kind)?;
    if let Some((address, _)) = data.split_first_chunk::<8>() {
        return Some(RawHardwareAddress::from_bytes(address));
    }
    let (address, _) = data.split_first_chunk::<6>()?;
    Some(RawHardwareAddress::from_bytes(address))
}

fn mtu(options: &[u8]) -> Option<u32> {
    number_at(last_option(options, 5)?, 2)
}

fn prefix_information(options: &[u8]) -> Option<PrefixInformation> {
    let data = last_option(options, 3)?;
    let [prefix_len, flags, ..] = data else {
        return None;
    };
    Some(PrefixInformation {
        prefix_len: *prefix_len,
        flags: PrefixInfoFlags::from_bits_retain(*flags & 0xc0),
        valid_lifetime: Duration::from_secs(number_at(data, 2)? as u64),
        preferred_lifetime: Duration::from_secs(number_at(data, 6)? as u64),
        prefix: address(data.get(14..)?)?,
    })
}

fn redirected_header(options: &[u8]) -> Option<RedirectedHeader<'_>> {
    redirected_packet(last_option(options, 4)?)
}

// A packet of version 6 behind 6 reserved bytes, with all its payload (RFC 8200 section 3).
fn redirected_packet(data: &[u8]) -> Option<RedirectedHeader<'_>> {
    let (_, packet) = data.split_first_chunk::<6>()?;
    let (header, behind) = split_ip_header(packet)?;
    let data = behind.get(..header.payload_len)?;
    match packet {
        [0x60..=0x6f, ..] => Some(RedirectedHeader { header, data }),
        _ => None,
    }
}
