// Made from crates/listing/src/question.rt by rust/erase.
//! Questions of DNS.

use crate::printer::{field, line};
use control_wire::dns::Question;
use rattle_std::io;
use rattle_std::io::Write;

/// Prints the question at the start of the octets, and returns the number of octets after it.
pub fn show_question<W: Write>(output: &mut W, packet: &[u8]) -> io::Result<()> {
    let Ok((rest, question)) = Question::parse(packet) else {
        return line(output, "refused");
    };
    show_fields(output, &question, rest)
}

fn show_fields<W: Write>(output: &mut W, question: &Question<'_>, rest: &[u8]) -> io::Result<()> {
    field(output, "name", question.name)?;
    field(output, "type_", u16::from(question.type_))?;
    field(output, "rest", rest.len())
}
