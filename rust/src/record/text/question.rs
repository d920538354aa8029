// Made from crates/record_wire/src/text/question.rt by rust/erase.
//! Questions with their names read, a line each.

use crate::dns_wire::dns::{Packet, Type};
use crate::record::line::put_asked;
use crate::record::name::Name;
use crate::record::name::name_text::NameText;
use crate::record::name::refusal::NameRefusal;
use crate::record::record::Question;
use crate::wirebase::text::ToFormatter;
use core::{fmt, result};

/// A question whose name is read, which prints as a record of a zone file without its time to live and its data.
///
/// ```
/// use control_wire::record::{Name, QuestionText, types};
///
/// let question = QuestionText { name: Name::from_text(b"example.com")?, class: 1, type_: types::MX };
/// assert_eq!(question.to_string(), "example.com. IN MX");
/// # Ok::<(), control_wire::Error>(())
/// ```
#[derive(PartialEq, Eq, Clone)]
pub struct QuestionText {
    /// The name.
    pub name: Name,
    /// The class of the records: 1 is the internet, 255 any.
    pub class: u16,
    /// The type of the records.
    pub type_: Type,
}

impl<'a> Question<'a> {
    /// The question with its name read. Refused where the name can't be read.
    pub fn text<B: AsRef<[u8]> + ?Sized>(
        &self,
        packet: &Packet<&'a B>,
    ) -> result::Result<QuestionText, NameRefusal> {
        self.text_of_class(packet, self.class)
    }

    /// The text of a question of multicast DNS: its class is without the top bit, which is a flag there (RFC 6762
    /// section 5.4). [`crate::record::Entry::text`] reads the entries of either kind of message.
    pub fn multicast_text<B: AsRef<[u8]> + ?Sized>(
        &self,
        packet: &Packet<&'a B>,
    ) -> result::Result<QuestionText, NameRefusal> {
        self.text_of_class(packet, self.multicast_class())
    }

    // The text of a question whose class is taken as this one.
    pub(crate) fn text_of_class<B: AsRef<[u8]> + ?Sized>(
        &self,
        packet: &Packet<&'a B>,
        class: u16,
    ) -> result::Result<QuestionText, NameRefusal> {
        match Name::read_or_refusal(packet, self.name) {
            Ok(name) => Ok(QuestionText {
                name,
                class,
                type_: self.type_,
            }),
            Err(refusal) => Err(refusal),
        }
    }
}

/// The name with its last dot, the class and the type by their mnemonics.
impl fmt::Display for QuestionText {
    fn fmt(&self, f: &mut fmt::Formatter<'_>) -> fmt::Result {
        let name = NameText::of(&self.name);
        put_asked::<_, ToFormatter>(f, &name, self.class, self.type_)
    }
}
