// Made from crates/dhcp_fields/src/refusal.rt by rust/erase.
//! Why packets can't be read whole.

use control_wire::dhcp_options::{Area, Parts};
use control_wire::inside::text::{Sink, ToFormatter, put_number};
use packet_fields::Form;
use packet_fields::field::field;
use packet_fields::value::{Text, Value, put_text};
use rattle_std::io::Write;
use rattle_std::{fmt, io};

/// Why a packet can't be read whole: the first reason.
#[derive(Debug, PartialEq, Eq, Clone, Copy)]
pub enum Refusal {
    /// Fewer than 240 bytes.
    Short,
    /// The number before the options is not the magic cookie of DHCP (RFC 2131 section 3).
    MagicCookie,
    /// An option is cut.
    OptionCut(control_wire::dhcp_options::Refusal),
}

/// What is wrong with the packet, in the words of the crates that read it.
impl fmt::Display for Refusal {
    fn fmt(&self, f: &mut fmt::Formatter<'_>) -> fmt::Result {
        self.put_into::<_, ToFormatter>(f)
    }
}

impl Value for Refusal {
    fn put<W: Write>(self, output: &mut W, form: Form) -> io::Result<()> {
        put_text(output, form, self)
    }
}

impl Text for Refusal {
    fn put_into<O, S: Sink<O>>(self, output: &mut O) -> Result<(), S::Error> {
        match self {
            Refusal::Short => S::put_str(output, "fewer than 240 bytes"),
            Refusal::MagicCookie => S::put_str(output, "the magic cookie is missing"),
            Refusal::OptionCut(cut) => put_cut::<O, S>(output, cut),
        }
    }
}

fn put_cut<O, S: Sink<O>>(
    output: &mut O,
    cut: control_wire::dhcp_options::Refusal,
) -> Result<(), S::Error> {
    S::put_str(output, "option ")?;
    put_number::<O, S>(output, cut.kind as u64)?;
    S::put_str(output, " is cut at the end of ")?;
    S::put_str(output, area_name(cut.area))
}

fn area_name(area: Area) -> &'static str {
    match area {
        Area::Options => "options",
        Area::File => "file",
        Area::Sname => "sname",
    }
}

/// The refusal of the first option that is cut.
pub fn first_cut(parts: Parts<'_>) -> Option<Refusal> {
    let mut left = parts;
    while let Some(answer) = left.next() {
        if let Err(cut) = answer {
            return Some(Refusal::OptionCut(cut));
        }
    }
    None
}

/// Prints why a packet can't be read whole, where it can't.
pub(crate) fn show_refused<W: Write>(
    output: &mut W,
    form: Form,
    refused: Option<Refusal>,
) -> io::Result<()> {
    match refused {
        Some(why) => field(output, form, "refused", why),
        None => Ok(()),
    }
}
