// Made from crates/listing/src/igmp.rt by rust/erase.
//! IGMP messages.

use crate::printer::{Value, field, line};
use control_wire::igmp::{IgmpVersion, Packet, Repr};
use control_wire::{Duration, Ipv4Address};
use rattle_std::io;
use rattle_std::io::Write;

/// Prints a message.
pub fn show_igmp<W: Write>(output: &mut W, packet: &[u8]) -> io::Result<()> {
    let Ok(message) = Repr::parse(&Packet::new_unchecked(packet)) else {
        return line(output, "refused");
    };
    show_message(output, message)
}

fn show_message<W: Write>(output: &mut W, message: Repr) -> io::Result<()> {
    match message {
        Repr::MembershipQuery {
            max_resp_time,
            group_addr,
            version,
        } => show_query(output, max_resp_time, group_addr, version),
        Repr::MembershipReport {
            group_addr,
            version,
        } => show_report(output, group_addr, version),
        Repr::LeaveGroup { group_addr } => {
            line(output, "LeaveGroup")?;
            field(output, "group_addr", group_addr)
        }
    }
}

fn show_query<W: Write>(
    output: &mut W,
    max_resp_time: Duration,
    group_addr: Ipv4Address,
    version: IgmpVersion,
) -> io::Result<()> {
    line(output, "MembershipQuery")?;
    field(output, "max_resp_time", max_resp_time)?;
    field(output, "group_addr", group_addr)?;
    field(output, "version", version)
}

fn show_report<W: Write>(
    output: &mut W,
    group_addr: Ipv4Address,
    version: IgmpVersion,
) -> io::Result<()> {
    line(output, "MembershipReport")?;
    field(output, "group_addr", group_addr)?;
    field(output, "version", version)
}

// The version's number.
impl Value for IgmpVersion {
    fn write_to<W: Write>(self, output: &mut W) -> io::Result<()> {
        output.write_all(match self {
            IgmpVersion::Version1 => b"1",
            IgmpVersion::Version2 => b"2",
        })
    }
}
