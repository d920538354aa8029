// Made from crates/record_wire/src/name/text_refusal.rt by rust/erase.
//! Why texts of names are refused: the check that fails first.

use crate::record::name::MAX_NAME_LEN;
use crate::record::name::label::push_label;
use crate::record::name::text::{Behind, read_behind, read_byte, read_label};
use arrayvec::ArrayVec;
use core::fmt;

/// Why [`crate::record::Name::from_text`] refuses a text, which is read from its start: the check that fails first.
#[derive(Debug, PartialEq, Eq, Clone, Copy)]
#[non_exhaustive]
pub enum NameTextRefusal {
    /// A label has no bytes: the text is empty or begins with a dot, or two dots are adjacent.
    EmptyLabel,
    /// A label has more than 63 bytes (RFC 1035 section 2.3.4).
    LongLabel,
    /// The name has more than 255 octets (RFC 1035 section 2.3.4).
    TooLong,
    /// A backslash that is followed neither by a visible character other than a digit nor by three digits of a number
    /// up to 255 (RFC 1035 section 5.1).
    Escape,
    /// This byte, which needs a backslash before it or can't be written as itself: it has a meaning of its own, or is
    /// not visible.
    Byte(u8),
}

/// What is wrong with the text.
impl fmt::Display for NameTextRefusal {
    fn fmt(&self, f: &mut fmt::Formatter<'_>) -> fmt::Result {
        match self {
            NameTextRefusal::EmptyLabel => write!(f, "a label is empty"),
            NameTextRefusal::LongLabel => write!(f, "a label has more than 63 bytes"),
            NameTextRefusal::TooLong => write!(f, "the name has more than 255 octets"),
            NameTextRefusal::Escape => {
                write!(f, "a backslash stands before no character that it quotes")
            }
            NameTextRefusal::Byte(byte) => write!(f, "byte {byte} does not stand for itself"),
        }
    }
}

/// Why a text is no name.
///
/// # Panics
///
/// May panic where what is asked for above does not hold.
pub(super) fn why_no_text(text: &[u8]) -> NameTextRefusal {
    let mut octets: ArrayVec<u8, MAX_NAME_LEN> = ArrayVec::new();
    let mut left = text;
    loop {
        let Ok((label, rest)) = read_label(left) else {
            return why_no_label(left);
        };
        let Ok(()) = push_label(&mut octets, label.as_slice()) else {
            return NameTextRefusal::TooLong;
        };
        match read_behind(rest) {
            Behind::End => return NameTextRefusal::TooLong,
            Behind::Label(next) => left = next,
            Behind::Other => return why_no_character(rest),
        }
    }
}

// Why a text does not begin with a label of 1 to 63 bytes.
fn why_no_label(text: &[u8]) -> NameTextRefusal {
    match read_byte(text) {
        Some(_) => NameTextRefusal::LongLabel,
        None => why_no_character(text),
    }
}

// Why a text does not begin with a character.
fn why_no_character(text: &[u8]) -> NameTextRefusal {
    match text {
        [] => NameTextRefusal::EmptyLabel,
        [b'.', ..] => NameTextRefusal::EmptyLabel,
        [b'\\', ..] => NameTextRefusal::Escape,
        [byte, ..] => NameTextRefusal::Byte(*byte),
    }
}
