// Made from crates/listing/src/ndopt.rt by rust/erase.
//! Options of neighbor discovery.

use crate::ipv6::show_header;
use crate::printer::{field, line, part_field};
use control_wire::Result;
use control_wire::ndiscoption::{NdiscOption, PrefixInformation, RedirectedHeader, Repr};
use rattle_std::io;
use rattle_std::io::Write;

/// Prints the option at the start of the octets.
pub fn show_ndopt<W: Write>(output: &mut W, packet: &[u8]) -> io::Result<()> {
    let Ok(option) = read(packet) else {
        return line(output, "refused");
    };
    show_option(output, &option)
}

// The option at the start of the octets.
fn read(packet: &[u8]) -> Result<Repr<'_>> {
    Repr::parse(&NdiscOption::new_checked(packet)?)
}

fn show_option<W: Write>(output: &mut W, option: &Repr<'_>) -> io::Result<()> {
    match option {
        Repr::SourceLinkLayerAddr(address) => {
            field(output, "SourceLinkLayerAddr", address.as_bytes())
        }
        Repr::TargetLinkLayerAddr(address) => {
            field(output, "TargetLinkLayerAddr", address.as_bytes())
        }
        Repr::PrefixInformation(prefix) => show_prefix_information(output, prefix),
        Repr::RedirectedHeader(redirected) => show_redirected_header(output, redirected),
        Repr::Mtu(mtu) => field(output, "Mtu", *mtu),
        Repr::Unknown {
            type_,
            length,
            data,
        } => show_unknown(output, *type_, *length, data),
    }
}

fn show_prefix_information<W: Write>(output: &mut W, prefix: &PrefixInformation) -> io::Result<()> {
    line(output, "PrefixInformation")?;
    show_prefix(output, "", prefix)
}

fn show_redirected_header<W: Write>(
    output: &mut W,
    packet: &RedirectedHeader<'_>,
) -> io::Result<()> {
    line(output, "RedirectedHeader")?;
    show_redirected(output, "header.", "", packet)
}

/// Prints an unknown option of either kind.
pub fn show_unknown<W: Write>(
    output: &mut W,
    type_: u8,
    length: u8,
    data: &[u8],
) -> io::Result<()> {
    line(output, "Unknown")?;
    field(output, "type_", type_)?;
    field(output, "length", length)?;
    field(output, "data", data)
}

/// Prints a prefix, as a part whose name and a dot are `part`.
pub fn show_prefix<W: Write>(
    output: &mut W,
    part: &str,
    prefix: &PrefixInformation,
) -> io::Result<()> {
    part_field(output, part, "prefix_len", prefix.prefix_len)?;
    part_field(output, part, "flags", prefix.flags.bits())?;
    part_field(output, part, "valid_lifetime", prefix.valid_lifetime)?;
    part_field(
        output,
        part,
        "preferred_lifetime",
        prefix.preferred_lifetime,
    )?;
    part_field(output, part, "prefix", prefix.prefix)
}

/// Prints a redirected packet and its header, as a part whose name and a dot are `part`.
pub fn show_redirected<W: Write>(
    output: &mut W,
    header_part: &str,
    part: &str,
    redirected: &RedirectedHeader<'_>,
) -> io::Result<()> {
    show_header(output, header_part, &redirected.header)?;
    part_field(output, part, "data", redirected.data)
}
