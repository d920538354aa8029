// Made from crates/listing/src/hbh.rt by rust/erase.
//! The options of an IPv6 hop-by-hop header.

use crate::ndopt::show_unknown;
use crate::printer::{field, line};
use control_wire::ipv6hbh::{Header, Repr};
use control_wire::ipv6option;
use rattle_std::io;
use rattle_std::io::Write;

/// Prints the options of a hop-by-hop header in turn.
pub fn show_hbh<W: Write>(output: &mut W, packet: &[u8]) -> io::Result<()> {
    let Ok(header) = Repr::parse(&Header::new_unchecked(packet)) else {
        return line(output, "refused");
    };
    for option in header.options.as_slice() {
        show_option(output, option)?;
    }
    Ok(())
}

fn show_option<W: Write>(output: &mut W, option: &ipv6option::Repr<'_>) -> io::Result<()> {
    match *option {
        ipv6option::Repr::Pad1 => line(output, "Pad1"),
        ipv6option::Repr::PadN(length) => field(output, "PadN", length),
        ipv6option::Repr::RouterAlert(alert) => field(output, "RouterAlert", u16::from(alert)),
        ipv6option::Repr::Unknown {
            type_,
            length,
            data,
        } => show_unknown(output, type_.into(), length, data),
        _ => unreachable!(),
    }
}
