// Made from crates/record_wire/src/entries.rt by rust/erase.
//! The questions and records after a message's header, in order (RFC 1035 section 4.1).

use crate::dns_wire::dns::Packet;
use crate::record::record::{Question, Record};
use crate::record::refusal::Refusal;
use crate::wirebase::Result;
use core::fmt;

/// A section of a message.
#[derive(Debug, PartialEq, Eq, Hash, Clone, Copy)]
pub enum Section {
    /// The questions.
    Question,
    /// The records that answer.
    Answer,
    /// The records that name an authority.
    Authority,
    /// The records that add to the others, and OPT.
    Additional,
}

/// The section's name.
impl fmt::Display for Section {
    fn fmt(&self, f: &mut fmt::Formatter<'_>) -> fmt::Result {
        f.write_str(match self {
            Section::Question => "question",
            Section::Answer => "answer",
            Section::Authority => "authority",
            Section::Additional => "additional",
        })
    }
}

/// A question or a record of a message.
#[derive(Debug, PartialEq, Eq, Clone, Copy)]
pub enum Entry<'a> {
    /// A question.
    Question(Question<'a>),
    /// A record, and the section that it is in.
    Record(Section, Record<'a>),
}

/// The question, or the section and the record.
impl fmt::Display for Entry<'_> {
    fn fmt(&self, f: &mut fmt::Formatter<'_>) -> fmt::Result {
        match self {
            Entry::Question(question) => write!(f, "{question}"),
            Entry::Record(section, record) => write!(f, "{section} {record}"),
        }
    }
}

/// The questions and the records of a message in turn, as many as its header counts. At octets that do not begin with
/// the next entry it returns one refusal, and then always None. After a refusal, [`Entries::refusal`] gives the reason,
/// and [`Entries::rest`] the bytes that were refused.
///
/// ```
/// use control_wire::record::{Entries, Entry};
/// use control_wire::dns::Packet;
///
/// // A buffer of the caller's own: a view of a slice of it is what is read.
/// let message: Vec<u8> = b"\0\x01\0\0\0\x01\0\0\0\0\0\0\x03www\0\0\x01\0\x01".to_vec();
/// let packet = Packet::new_checked(&message[..])?;
/// let mut entries = Entries::new(&packet);
/// assert!(matches!(entries.next(), Some(Ok(Entry::Question(_)))));
/// assert!(entries.next().is_none());
/// # Ok::<(), control_wire::Error>(())
/// ```
#[derive(Debug, Clone)]
pub struct Entries<'a> {
    // The number of entries up to the end of each section.
    questions: u32,
    answers: u32,
    authorities: u32,
    all: u32,
    // The number of entries that were returned.
    taken: u32,
    // Whether the next one was refused.
    is_refused: bool,
    // The bytes after the entries that were returned.
    bytes: &'a [u8],
}

impl<'a> Entries<'a> {
    /// The questions and the records of this message. Requires at least 12 bytes, which `Packet::new_checked` verifies.
    /// The entries borrow the octets, so the view must be of a slice: for a `Vec<u8>` or an array,
    /// `Packet::new_checked(&buffer[..])`.
    ///
    /// # Panics
    ///
    /// May panic where what is asked for above does not hold.
    pub fn new<B: AsRef<[u8]> + ?Sized>(packet: &Packet<&'a B>) -> Entries<'a> {
        let questions = packet.question_count() as u32;
        let answers = questions + packet.answer_record_count() as u32;
        let authorities = answers + packet.authority_record_count() as u32;
        Entries {
            questions,
            answers,
            authorities,
            all: authorities + packet.additional_record_count() as u32,
            taken: 0,
            is_refused: false,
            bytes: packet.payload(),
        }
    }

    /// The refused entry: its section, and why none begins there, by the check that fails first. None before a refusal.
    pub fn refusal(&self) -> Option<(Section, Refusal)> {
        if !self.is_refused {
            return None;
        }
        let section = self.section();
        let refusal = why_no_entry(section, self.bytes)?;
        Some((section, refusal))
    }

    /// The bytes after the entries that were returned: where the next one begins, or the one that was refused. After
    /// the last entry, the bytes after the message's records.
    pub fn rest(&self) -> &'a [u8] {
        self.bytes
    }

    // Whether an entry is left.
    fn is_left(&self) -> bool {
        !self.is_refused && self.taken < self.all
    }

    // The section of the next entry.
    fn section(&self) -> Section {
        if self.taken < self.questions {
            return Section::Question;
        }
        if self.taken < self.answers {
            return Section::Answer;
        }
        if self.taken < self.authorities {
            return Section::Authority;
        }
        Section::Additional
    }
}

impl<'a> Iterator for Entries<'a> {
    type Item = Result<Entry<'a>>;

    fn next(&mut self) -> Option<Result<Entry<'a>>> {
        if !self.is_left() {
            return None;
        }
        match read_entry(self.section(), self.bytes) {
            Ok((rest, entry)) => {
                self.taken += 1;
                self.bytes = rest;
                Some(Ok(entry))
            }
            Err(error) => {
                self.is_refused = true;
                Some(Err(error))
            }
        }
    }
}

// Parses the entry of a section; returns the rest and the entry.
fn read_entry(section: Section, bytes: &[u8]) -> Result<(&[u8], Entry<'_>)> {
    if section == Section::Question {
        let (rest, question) = Question::parse(bytes)?;
        return Ok((rest, Entry::Question(question)));
    }
    let (rest, record) = Record::parse(bytes)?;
    Ok((rest, Entry::Record(section, record)))
}

// Why octets begin with no entry of a section; None where one begins there.
fn why_no_entry(section: Section, bytes: &[u8]) -> Option<Refusal> {
    if section == Section::Question {
        return Question::refusal(bytes);
    }
    Record::refusal(bytes)
}
