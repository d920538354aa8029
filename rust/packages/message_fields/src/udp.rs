// Made from crates/message_fields/src/udp.rt by rust/erase.
//! What UDP datagrams of a service hold.

use crate::message::Service;
use crate::refusal::Refusal;
use crate::show::{show_cut, show_refused};
use control_wire::frames::{CapturedUdp, Extent};
use dhcp_fields::show_dhcp;
use dns_fields::kind::Kind;
use dns_fields::message::show_message;
use dns_fields::unread::Unread;
use packet_fields::Form;
use packet_fields::field::field;
use rattle_std::io;
use rattle_std::io::Write;

/// Prints what a UDP datagram of a service holds, and returns why it is refused. Where fewer bytes are there than its
/// header says, their number is printed if `tells_cut` holds.
pub(crate) fn show_udp<W: Write>(
    output: &mut W,
    form: Form,
    service: Service,
    octets: &[u8],
    tells_cut: bool,
) -> io::Result<Option<Refusal>> {
    match CapturedUdp::parse(octets) {
        Ok(datagram) => show_datagram(output, form, service, &datagram, tells_cut),
        Err(refusal) => show_unopened(output, form, &Refusal::Udp(refusal), octets),
    }
}

// Prints why a datagram is refused, and its octets.
fn show_unopened<W: Write>(
    output: &mut W,
    form: Form,
    refusal: &Refusal,
    octets: &[u8],
) -> io::Result<Option<Refusal>> {
    show_refused(output, form, refusal)?;
    field(output, form, "octets", octets)?;
    Ok(Some(*refusal))
}

// Prints what a datagram holds, as far as it is there.
fn show_datagram<W: Write>(
    output: &mut W,
    form: Form,
    service: Service,
    datagram: &CapturedUdp<'_>,
    tells_cut: bool,
) -> io::Result<Option<Refusal>> {
    show_extent(output, form, datagram.extent, tells_cut)?;
    let told = show_service(output, form, service, datagram.payload)?;
    Ok(told_by(datagram.extent, told))
}

// Prints how many bytes are missing, where that is to be told.
fn show_extent<W: Write>(
    output: &mut W,
    form: Form,
    extent: Extent,
    tells_cut: bool,
) -> io::Result<()> {
    match extent {
        Extent::Cut { missing } if tells_cut => show_cut(output, form, missing as u64),
        _ => Ok(()),
    }
}

// Why a datagram of this extent is refused: the first of two reasons.
fn told_by(extent: Extent, told: Option<Refusal>) -> Option<Refusal> {
    match extent {
        Extent::Cut { .. } => Some(Refusal::Cut),
        _ => told,
    }
}

// Prints a message of a service, and returns why it is refused or read in part.
fn show_service<W: Write>(
    output: &mut W,
    form: Form,
    service: Service,
    octets: &[u8],
) -> io::Result<Option<Refusal>> {
    match service {
        Service::Dns => show_dns(output, form, Kind::Dns, octets),
        Service::Mdns => show_dns(output, form, Kind::Mdns, octets),
        Service::Llmnr => show_dns(output, form, Kind::Llmnr, octets),
        Service::Nbns => show_dns(output, form, Kind::Nbns, octets),
        Service::Dhcp => show_dhcp_packet(output, form, octets),
    }
}

/// Prints a message of a kind of DNS, and returns why it is read in part.
pub(crate) fn show_dns<W: Write>(
    output: &mut W,
    form: Form,
    kind: Kind,
    octets: &[u8],
) -> io::Result<Option<Refusal>> {
    let unread = show_message(output, form, kind, octets)?;
    Ok(of_dns(unread))
}

fn of_dns(unread: Option<Unread>) -> Option<Refusal> {
    match unread {
        Some(unread) => Some(Refusal::Dns(unread)),
        None => None,
    }
}

fn show_dhcp_packet<W: Write>(
    output: &mut W,
    form: Form,
    octets: &[u8],
) -> io::Result<Option<Refusal>> {
    let why = show_dhcp(output, form, octets)?;
    Ok(of_dhcp(why))
}

fn of_dhcp(why: Option<dhcp_fields::Refusal>) -> Option<Refusal> {
    match why {
        Some(refusal) => Some(Refusal::Dhcp(refusal)),
        None => None,
    }
}
