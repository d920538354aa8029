// Made from crates/message_fields/src/icmp.rt by rust/erase.
//! Messages of ICMPv4, of ICMPv6 and of IGMP.

use crate::refusal::Refusal;
use crate::show::{show_phrase, show_refused};
use control_wire::icmpv6;
use control_wire::igmp;
use control_wire::quotes::message::{Icmpv4Message, Icmpv6Message, Icmpv6Refusal};
use control_wire::{ChecksumCapabilities, Ipv6Address};
use icmp_fields::refusal::Told;
use icmp_fields::{icmp4, icmp6};
use neighbor_fields::Lack;
use neighbor_fields::igmp::show_igmp as show_igmp_fields;
use neighbor_fields::mld::show_mld;
use neighbor_fields::ndisc::show_ndisc;
use packet_fields::Form;
use rattle_std::io;
use rattle_std::io::Write;

// The type of a membership report of version 3 (RFC 3376 section 4.2).
const MEMBERSHIP_REPORT_V3: u8 = 0x22;

/// Prints an ICMPv4 message, whole or cut, and returns why it is refused. Of a message whose reader refuses it the
/// type, the code and the octets are printed.
pub(crate) fn show_icmp4<W: Write>(
    output: &mut W,
    form: Form,
    octets: &[u8],
    is_whole: bool,
) -> io::Result<Option<Refusal>> {
    match Icmpv4Message::parse_or_refusal(octets, &ChecksumCapabilities::ignored()) {
        Ok(Icmpv4Message::Error(error)) => {
            icmp4::show_error(output, form, &error, is_whole)?;
            Ok(None)
        }
        Ok(Icmpv4Message::Message(message)) => {
            icmp4::show_message(output, form, &message, octets)?;
            Ok(None)
        }
        Err(refusal) => {
            let refusal = Refusal::Icmp4(refusal);
            icmp4::show_unread(output, form, octets, is_whole)?;
            show_mistake(output, form, &refusal)?;
            Ok(unless_told(refusal, icmp4::told(octets)))
        }
    }
}

// Prints why a message is refused; a type that is not known is no mistake of the message.
fn show_mistake<W: Write>(output: &mut W, form: Form, refusal: &Refusal) -> io::Result<()> {
    if refusal.is_unknown() {
        return Ok(());
    }
    show_refused(output, form, refusal)
}

// Why a message is refused whose reader refuses it: one of a type that the reader does not know may be told otherwise.
fn unless_told(refusal: Refusal, told: Told) -> Option<Refusal> {
    if !refusal.is_unknown() {
        return Some(refusal);
    }
    match told {
        Told::Fields => None,
        Told::Refused(why) => Some(Refusal::Query(why)),
        Told::Octets => Some(refusal),
    }
}

/// Prints an IGMP message, and returns why it is refused or read in part.
pub(crate) fn show_igmp<W: Write>(
    output: &mut W,
    form: Form,
    octets: &[u8],
) -> io::Result<Option<Refusal>> {
    let why = why_igmp(octets);
    let lack = show_igmp_fields(output, form, octets)?;
    show_group(output, form, why)?;
    Ok(why.or(refusal_of(lack)))
}

// Why a message that has less than it takes or counts is refused.
fn refusal_of(lack: Option<Lack>) -> Option<Refusal> {
    match lack {
        Some(lack) => Some(Refusal::Lack(lack)),
        None => None,
    }
}

// Why its reader refuses an IGMP message. Of version 3 each is read.
fn why_igmp(octets: &[u8]) -> Option<Refusal> {
    match igmp::Repr::refusal(&igmp::Packet::new_unchecked(octets)) {
        Some(refusal) => unless_version_3(refusal),
        None => None,
    }
}

fn unless_version_3(refusal: igmp::Refusal) -> Option<Refusal> {
    if refusal == igmp::Refusal::UnknownType(MEMBERSHIP_REPORT_V3) {
        return None;
    }
    Some(Refusal::Igmp(refusal))
}

// Prints why a group is none, where it is; the fields tell every other reason.
fn show_group<W: Write>(output: &mut W, form: Form, told: Option<Refusal>) -> io::Result<()> {
    match told {
        Some(refusal) => show_if_group(output, form, &refusal),
        None => Ok(()),
    }
}

fn show_if_group<W: Write>(output: &mut W, form: Form, refusal: &Refusal) -> io::Result<()> {
    if !refusal.is_group() {
        return Ok(());
    }
    show_phrase(output, form, "group_refused", refusal)
}

/// Prints an ICMPv6 message from one address to another, whole or cut, and returns why it is refused or read in part.
pub(crate) fn show_icmp6<W: Write>(
    output: &mut W,
    form: Form,
    src_addr: &Ipv6Address,
    dst_addr: &Ipv6Address,
    octets: &[u8],
    is_whole: bool,
) -> io::Result<Option<Refusal>> {
    if has_mld_type(octets) {
        let lack = show_mld(output, form, octets)?;
        return Ok(refusal_of(lack));
    }
    if has_ndisc_type(octets) {
        return show_neighbor(output, form, src_addr, dst_addr, octets);
    }
    show_others(output, form, src_addr, dst_addr, octets, is_whole)
}

// Whether the type is that of multicast listeners, of version 1 or 2 (RFC 2710 section 3, RFC 3810 section 5).
fn has_mld_type(octets: &[u8]) -> bool {
    matches!(octets, [130..=132 | 143, ..])
}

// Whether the type is that of neighbor discovery (RFC 4861 section 4).
fn has_ndisc_type(octets: &[u8]) -> bool {
    matches!(octets, [133..=137, ..])
}

// Prints a message of neighbor discovery, and returns why it is refused. The fields tell where it is too short.
fn show_neighbor<W: Write>(
    output: &mut W,
    form: Form,
    src_addr: &Ipv6Address,
    dst_addr: &Ipv6Address,
    octets: &[u8],
) -> io::Result<Option<Refusal>> {
    let told = why_ndisc(src_addr, dst_addr, octets);
    show_ndisc(output, form, octets)?;
    show_unless_short(output, form, told)?;
    Ok(told)
}

// Prints why a message of neighbor discovery is refused, but for one that is too short.
fn show_unless_short<W: Write>(
    output: &mut W,
    form: Form,
    told: Option<Refusal>,
) -> io::Result<()> {
    match told {
        Some(Refusal::Icmp6(Icmpv6Refusal::Message(icmpv6::Refusal::Ndisc(why)))) => {
            let refusal = Refusal::Icmp6(Icmpv6Refusal::Message(icmpv6::Refusal::Ndisc(why)));
            show_refused(output, form, &refusal)
        }
        Some(Refusal::Icmp6(Icmpv6Refusal::Message(icmpv6::Refusal::Code(code)))) => {
            let refusal = Refusal::Icmp6(Icmpv6Refusal::Message(icmpv6::Refusal::Code(code)));
            show_refused(output, form, &refusal)
        }
        _ => Ok(()),
    }
}

// Why a message of neighbor discovery is refused.
fn why_ndisc(src_addr: &Ipv6Address, dst_addr: &Ipv6Address, octets: &[u8]) -> Option<Refusal> {
    let checksums = ChecksumCapabilities::ignored();
    match Icmpv6Message::refusal(src_addr, dst_addr, octets, &checksums) {
        Some(refusal) => Some(Refusal::Icmp6(refusal)),
        None => None,
    }
}

// Prints a message of another type, and returns why it is refused.
fn show_others<W: Write>(
    output: &mut W,
    form: Form,
    src_addr: &Ipv6Address,
    dst_addr: &Ipv6Address,
    octets: &[u8],
    is_whole: bool,
) -> io::Result<Option<Refusal>> {
    let checksums = ChecksumCapabilities::ignored();
    match Icmpv6Message::parse_or_refusal(src_addr, dst_addr, octets, &checksums) {
        Ok(Icmpv6Message::Error(error)) => {
            icmp6::show_error(output, form, &error, is_whole)?;
            Ok(None)
        }
        Ok(Icmpv6Message::Message(message)) => {
            icmp6::show_message(output, form, &message, octets)?;
            Ok(None)
        }
        Err(refusal) => {
            let refusal = Refusal::Icmp6(refusal);
            icmp6::show_unread(output, form, octets, is_whole)?;
            show_mistake(output, form, &refusal)?;
            Ok(unless_told(refusal, icmp6::told(octets)))
        }
    }
}
