// Made from crates/record_wire/src/name.rt by rust/erase.
//! Whole names: read from a message or from text, and written as text (RFC 1035 sections 2.3.4, 3.1 and 5.1).

pub mod dotted;
mod label;
pub(crate) mod name_text;
mod part;
pub mod refusal;
pub(crate) mod text;
pub mod text_refusal;

use crate::dns_wire::dns::Packet;
use crate::dns_wire::octets::{NamePart, follow, octets_of};
pub use crate::record::name::label::Labels;
use crate::record::name::label::{push_end, push_labels};
use crate::record::name::name_text::put_name as put_name_text;
use crate::record::name::part::read_labels;
use crate::record::name::refusal::NameRefusal;
use crate::record::name::text::{is_root, put_labels};
use crate::record::name::text_refusal::{NameTextRefusal, why_no_text};
use crate::record::refusal::why_torn;
use crate::wirebase::text::ToFormatter;
use crate::wirebase::{Error, Result};
use arrayvec::ArrayVec;
use core::{fmt, result};

/// The most octets that a name has (RFC 1035 section 2.3.4).
pub const MAX_NAME_LEN: usize = 255;

/// The most pointers that are followed in a name. A name of 255 octets has 127 labels at most, so with more pointers
/// one leads to no label of its own: no encoder writes such a chain, and each step costs time.
pub const MAX_POINTERS: usize = 127;

/// A whole name, by its octets: each label of 1 to 63 bytes after its length, and then byte 0; 255 octets at most.
///
/// ```
/// use control_wire::record::Name;
///
/// let name = Name::from_text(b"www.example.com")?;
/// assert_eq!(name.octets(), b"\x03www\x07example\x03com\0");
/// assert_eq!(name.to_string(), "www.example.com");
/// # Ok::<(), control_wire::Error>(())
/// ```
#[derive(Clone)]
pub struct Name {
    octets: ArrayVec<u8, MAX_NAME_LEN>,
}

impl Name {
    /// The name that begins in `bytes`, a part of the message or not, and continues where its pointers lead in the
    /// message. Refused where it is malformed, where it has more than 255 octets, and where it has more than
    /// [`MAX_POINTERS`] pointers.
    pub fn read<'a, B: AsRef<[u8]> + ?Sized>(
        packet: &Packet<&'a B>,
        bytes: &'a [u8],
    ) -> Result<Name> {
        let mut octets = ArrayVec::new();
        match put_name(&mut octets, octets_of(packet), bytes) {
            Ok(()) => Ok(Name { octets }),
            Err(_) => Err(Error),
        }
    }

    /// Why [`Name::read`] refuses this, by the check that fails first; None where it reads a name.
    pub fn read_refusal<'a, B: AsRef<[u8]> + ?Sized>(
        packet: &Packet<&'a B>,
        bytes: &'a [u8],
    ) -> Option<NameRefusal> {
        let mut octets = ArrayVec::new();
        match put_name(&mut octets, octets_of(packet), bytes) {
            Ok(()) => None,
            Err(refusal) => Some(refusal),
        }
    }

    /// The name of this text: labels with dots between them, a last dot allowed, and a dot alone for the root. A
    /// visible character is written as itself, but `"`, `$`, `(`, `)`, `.`, `;`, `@` and `\` follow a backslash; three
    /// digits after a backslash are the number of a byte. Refused where the text is malformed, where a label is empty
    /// or has more than 63 bytes, and where the name has more than 255 octets: [`Name::from_text_refusal`] says why.
    pub fn from_text(text: &[u8]) -> Result<Name> {
        if is_root(text) {
            return Ok(Name::root());
        }
        let mut octets = ArrayVec::new();
        put_labels(&mut octets, text)?;
        push_end(&mut octets)?;
        Ok(Name { octets })
    }

    /// Why [`Name::from_text`] refuses this text, which it reads from its start on, by the check that fails first; None
    /// where it is that of a name.
    ///
    /// ```
    /// use control_wire::record::{Name, NameTextRefusal};
    ///
    /// assert_eq!(Name::from_text_refusal(b"www..com"), Some(NameTextRefusal::EmptyLabel));
    /// assert_eq!(Name::from_text_refusal(b"www.example.com"), None);
    /// ```
    pub fn from_text_refusal(text: &[u8]) -> Option<NameTextRefusal> {
        match Name::from_text(text) {
            Ok(_) => None,
            Err(_) => Some(why_no_text(text)),
        }
    }

    /// The octets: each label after its length, and then byte 0.
    pub fn octets(&self) -> &[u8] {
        self.octets.as_slice()
    }

    /// The labels in turn, each without its length; the root has none.
    pub fn labels(&self) -> Labels<'_> {
        Labels::new(self.octets.as_slice())
    }

    /// Whether the names have the same labels, without regard to the case of ASCII letters (RFC 4343 section 3). So do
    /// `==` and `!=`; the octets, compared by [`Name::octets`], differ where a case does.
    pub fn eq_ignore_case(&self, other: &Name) -> bool {
        let left = self.octets.as_slice();
        left.eq_ignore_ascii_case(other.octets.as_slice())
    }

    // The root, which has no labels.
    fn root() -> Name {
        let mut octets = ArrayVec::new();
        octets.push(0);
        Name { octets }
    }
}

// Writes the octets of the name that begins in `bytes` and goes on in a message to `octets`, which is empty. A name is
// large, so it is written in its place, and labels that lie together are copied at once. A pointer leads to one of the
// bytes that are open, and leaves only those below that place open, so this ends. Refused by the check that fails
// first.
fn put_name<'a>(
    octets: &mut ArrayVec<u8, MAX_NAME_LEN>,
    message: &'a [u8],
    bytes: &'a [u8],
) -> result::Result<(), NameRefusal> {
    let mut left = bytes;
    // The bytes of the message that are open.
    let mut reach = message;
    let mut pointers = 0;
    loop {
        let (len, front) = read_labels(left);
        let Ok(()) = push_labels(octets, &left[..len]) else {
            return Err(NameRefusal::TooLong);
        };
        match front {
            NamePart::End => {
                octets.push(0);
                return Ok(());
            }
            NamePart::Pointer(target) => {
                let Some((next, open)) = follow(reach, target) else {
                    return Err(NameRefusal::Pointer(target));
                };
                if pointers == MAX_POINTERS {
                    return Err(NameRefusal::TooManyPointers);
                }
                pointers += 1;
                left = next;
                reach = open;
            }
            NamePart::Label(..) => return Err(NameRefusal::TooLong),
            NamePart::Torn => return Err(NameRefusal::Part(why_torn(&left[len..]))),
        }
    }
}

/// Names are equal where they have the same labels, without regard to the case of ASCII letters (RFC 1035 section
/// 2.3.3, RFC 4343 section 3).
impl PartialEq for Name {
    fn eq(&self, other: &Name) -> bool {
        self.eq_ignore_case(other)
    }
}

impl Eq for Name {}

/// Labels with dots between them, and a dot alone for the root.
impl fmt::Display for Name {
    fn fmt(&self, f: &mut fmt::Formatter<'_>) -> fmt::Result {
        put_name_text::<_, ToFormatter>(f, self)
    }
}
