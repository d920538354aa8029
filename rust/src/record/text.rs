// Made from crates/record_wire/src/text.rt by rust/erase.
//! Records as a zone file writes them, a line each (RFC 1035 section 5.1, RFC 3597 section 5).
//!
//! ```
//! use control_wire::record::{Entries, Entry};
//! use control_wire::dns::Packet;
//!
//! // A response with one record: the mail server of example.com.
//! let octets = b"\x12\x34\x81\x80\0\x01\0\x01\0\0\0\0\x07example\x03com\0\0\x0f\0\x01\
//!     \xc0\x0c\0\x0f\0\x01\0\0\x0e\x10\0\x09\0\x0a\x04mail\xc0\x0c";
//! let packet = Packet::new_checked(&octets[..])?;
//! for entry in Entries::new(&packet) {
//!     let Entry::Record(_, record) = entry? else { continue };
//!     let line = record.text(&packet).unwrap().to_string();
//!     assert_eq!(line, "example.com. 3600 IN MX 10 mail.example.com.");
//! }
//! # Ok::<(), control_wire::Error>(())
//! ```

mod entry;
pub(crate) mod fields;
mod opt;
mod question;
pub mod refusal;
pub(crate) mod words;

use crate::dns_wire::dns::{Packet, Type};
use crate::record::edns::Edns;
use crate::record::line::{Line, put_authority, put_data};
use crate::record::multicast;
use crate::record::name::Name;
use crate::record::name::name_text::NameText;
use crate::record::name::refusal::NameRefusal;
use crate::record::rdata::{Authority, RData};
use crate::record::record::Record;
use crate::record::text::opt::Comment;
use crate::record::text::refusal::TextRefusal;
use crate::wirebase::text::{Sink, ToFormatter};
use crate::wirebase::{Ipv4Address, Ipv6Address};
use core::{fmt, result};
pub use entry::EntryText;
pub use fields::FieldsText;
pub use question::QuestionText;

/// A record whose names are read, which prints its line of a zone file: the name with its last dot, the time to live,
/// the class, the type, and the data; an OPT record prints a comment. In records that are equal names are compared
/// without regard to the case of ASCII letters.
///
/// ```
/// use control_wire::record::{Name, types};
/// use control_wire::record::text::{DataText, RecordText};
///
/// let record = RecordText {
///     name: Name::from_text(b"www.example.com")?,
///     ttl: 300,
///     class: 1,
///     type_: types::TXT,
///     data: DataText::Txt(b"\x05hello\x03a\"b"),
/// };
/// assert_eq!(record.to_string(), r#"www.example.com. 300 IN TXT "hello" "a\"b""#);
/// # Ok::<(), control_wire::Error>(())
/// ```
#[derive(PartialEq, Eq, Clone)]
pub struct RecordText<'a> {
    /// The record's name.
    pub name: Name,
    /// The time for which the record may be kept, in seconds.
    pub ttl: u32,
    /// The class: 1 is the internet.
    pub class: u16,
    /// The type of the data.
    pub type_: Type,
    /// The data.
    pub data: DataText<'a>,
}

/// The data of a record, with each name read.
#[derive(PartialEq, Eq, Clone)]
pub enum DataText<'a> {
    /// An IPv4 address (RFC 1035 section 3.4.1).
    A(Ipv4Address),
    /// An IPv6 address (RFC 3596 section 2.2).
    Aaaa(Ipv6Address),
    /// A name, of type CNAME, NS or PTR (RFC 1035 sections 3.3.1, 3.3.11 and 3.3.12), MB, MD, MF, MG or MR (sections
    /// 3.3.3 to 3.3.6 and 3.3.8), or DNAME (RFC 6672 section 2.1).
    Name(Name),
    /// A host that takes mail (RFC 1035 section 3.3.9).
    Mx {
        /// The lower, the better.
        preference: u16,
        /// The host's name.
        exchange: Name,
    },
    /// A host that has a service (RFC 2782).
    Srv {
        /// The lower, the earlier it is tried.
        priority: u16,
        /// The greater, the more often it is tried among hosts of its priority.
        weight: u16,
        /// The port of the service.
        port: u16,
        /// The host's name.
        target: Name,
    },
    /// Who is responsible for a zone (RFC 1035 section 3.3.13).
    Soa(AuthorityText),
    /// Strings of up to 255 bytes, each after its length (RFC 1035 section 3.3.14): `TxtStrings` gives them in turn.
    Txt(&'a [u8]),
    /// Fields and one name or two, of type MINFO, RP, AFSDB, RT, SIG, PX, NXT, NAPTR, KX or NSEC.
    Fields(FieldsText<'a>),
    /// Data of any other type or class, and that of an update's record without data.
    Other(&'a [u8]),
}

/// Who is responsible for a zone, and how copies of it are kept (RFC 1035 section 3.3.13). Times are in seconds.
#[derive(PartialEq, Eq, Clone)]
pub struct AuthorityText {
    /// The name of the server that the zone comes from.
    pub primary: Name,
    /// The mailbox of who is responsible, with a dot for its at sign.
    pub mailbox: Name,
    /// The zone's version.
    pub serial: u32,
    /// The time after which a copy is refreshed.
    pub refresh: u32,
    /// The time after which a failed refresh is tried again.
    pub retry: u32,
    /// The time for which a copy is valid at most.
    pub expire: u32,
    /// The least time to live of the zone's records; for negative answers (RFC 2308 section 4).
    pub minimum: u32,
}

/// The line of a zone file, without its end: names with their last dot, times in seconds, the class and the type by
/// their mnemonics, or as `CLASS` and `TYPE` with the number, and the data. An OPT record belongs to a message and to
/// no zone (RFC 6891 section 6.1.1), so that it is a comment, in the manner of dig, without its name: the version, the
/// flags, the size of UDP payloads, the upper bits of the response code, and each option, as
/// `; EDNS: version: 0, flags: do; udp: 1232; extended_rcode: 0; cookie=0123456789abcdef`. Where an option is cut, it
/// says so in its place.
impl fmt::Display for RecordText<'_> {
    fn fmt(&self, f: &mut fmt::Formatter<'_>) -> fmt::Result {
        if let Some(edns) = self.edns() {
            return write!(f, "{}", Comment(edns));
        }
        let owner = NameText::of(&self.name);
        let line = Line {
            owner: &owner,
            ttl: self.ttl,
            class: self.class,
            type_: self.type_,
        };
        put_own::<_, ToFormatter>(f, Some(&line), &self.data)
    }
}

impl RecordText<'_> {
    // What the record says where it is an OPT record.
    fn edns(&self) -> Option<Edns<'_>> {
        if !multicast::is_opt(self.type_) {
            return None;
        }
        match self.data {
            DataText::Other(octets) => Some(Edns::of(self.class, self.ttl, octets)),
            _ => None,
        }
    }
}

/// Addresses as addresses, names with their last dot, strings in quotes, types by their mnemonics, a signature in
/// base64, and data of other types as `\#`, the number of bytes, and these in hexadecimal.
impl fmt::Display for DataText<'_> {
    fn fmt(&self, f: &mut fmt::Formatter<'_>) -> fmt::Result {
        put_own::<_, ToFormatter>(f, None, self)
    }
}

// Puts the line of a record up to its data, where there is one, and the data.
fn put_own<O, S: Sink<O>>(
    output: &mut O,
    line: Option<&Line<'_>>,
    data: &DataText<'_>,
) -> result::Result<(), S::Error> {
    // Whole names have no pointers, so that they read in any message.
    put_data::<O, S>(output, &[], line, &data.octets())?;
    Ok(())
}

impl DataText<'_> {
    /// Puts the data as a zone file has it.
    pub fn put<O, S: Sink<O>>(&self, output: &mut O) -> result::Result<(), S::Error> {
        put_own::<O, S>(output, None, self)
    }

    // The data with the octets of its names, which are whole.
    fn octets(&self) -> RData<'_> {
        match self {
            DataText::A(address) => RData::A(*address),
            DataText::Aaaa(address) => RData::Aaaa(*address),
            DataText::Name(name) => RData::Name(name.octets()),
            DataText::Mx {
                preference,
                exchange,
            } => RData::Mx {
                preference: *preference,
                exchange: exchange.octets(),
            },
            DataText::Srv {
                priority,
                weight,
                port,
                target,
            } => RData::Srv {
                priority: *priority,
                weight: *weight,
                port: *port,
                target: target.octets(),
            },
            DataText::Soa(authority) => RData::Soa(authority.octets()),
            DataText::Txt(octets) => RData::Txt(octets),
            DataText::Fields(fields) => RData::Fields(fields.octets()),
            DataText::Other(octets) => RData::Other(octets),
        }
    }
}

/// The names with their last dot, and the numbers.
impl fmt::Display for AuthorityText {
    fn fmt(&self, f: &mut fmt::Formatter<'_>) -> fmt::Result {
        put_authority::<_, ToFormatter>(f, &[], None, &self.octets())?;
        Ok(())
    }
}

impl AuthorityText {
    // The same with the octets of the names, which are whole.
    fn octets(&self) -> Authority<'_> {
        Authority {
            primary: self.primary.octets(),
            mailbox: self.mailbox.octets(),
            serial: self.serial,
            refresh: self.refresh,
            retry: self.retry,
            expire: self.expire,
            minimum: self.minimum,
        }
    }
}

impl<'a> Record<'a> {
    /// The record with its name and those in its data read, which prints its line of a zone file, or a comment where it
    /// is an OPT record. Data of a type that [`RData`] does not read print as octets: neither RFC 3597 section 4 nor
    /// RFC 6762 section 18.14 has a receiver expect compressed names in them, so they mean the same in each message. An
    /// update's record of class NONE or ANY may have no data. Refused where a name can't be read, and where the data is
    /// not laid out as its type has it.
    ///
    /// ```
    /// use control_wire::record::{NameRefusal, PartRefusal, Record};
    /// use control_wire::record::text::refusal::TextRefusal;
    /// use control_wire::dns::Packet;
    ///
    /// let octets = b"\0\0\x84\0\0\0\0\x01\0\0\0\0\x02ns\0\0\x01\0\x01\0\0\0\x3c\0\x04\xc0\0\x02\x01";
    /// let packet = Packet::new_checked(&octets[..])?;
    /// let (_, record) = Record::parse(&octets[12..])?;
    /// assert_eq!(record.text(&packet).unwrap().to_string(), "ns. 60 IN A 192.0.2.1");
    /// let cut = Record { name: b"\x02n", ..record };
    /// assert_eq!(cut.text(&packet).err(), Some(TextRefusal::Owner(NameRefusal::Part(PartRefusal::Cut))));
    /// # Ok::<(), control_wire::Error>(())
    /// ```
    pub fn text<B: AsRef<[u8]> + ?Sized>(
        &self,
        packet: &Packet<&'a B>,
    ) -> result::Result<RecordText<'a>, TextRefusal> {
        self.text_of_class(packet, self.class)
    }

    /// The text of a record of multicast DNS: its class is without the top bit, which is a flag there (RFC 6762 section
    /// 10.2); the payload size of an OPT record is left as it is. [`crate::record::Entry::text`] reads the entries of either
    /// kind of message.
    pub fn multicast_text<B: AsRef<[u8]> + ?Sized>(
        &self,
        packet: &Packet<&'a B>,
    ) -> result::Result<RecordText<'a>, TextRefusal> {
        self.text_of_class(packet, self.multicast_class())
    }

    // The text of a record whose class is taken as this one.
    fn text_of_class<B: AsRef<[u8]> + ?Sized>(
        &self,
        packet: &Packet<&'a B>,
        class: u16,
    ) -> result::Result<RecordText<'a>, TextRefusal> {
        let name = match Name::read_or_refusal(packet, self.name) {
            Ok(name) => name,
            Err(refusal) => return Err(TextRefusal::Owner(refusal)),
        };
        let data = match RData::parse_update_or_refusal(self.type_, class, self.data) {
            Ok(data) => data,
            Err(refusal) => return Err(TextRefusal::Data(refusal)),
        };
        match data.text(packet) {
            Ok(data) => Ok(RecordText {
                name,
                ttl: self.ttl,
                class,
                type_: self.type_,
                data,
            }),
            Err(refusal) => Err(TextRefusal::DataName(refusal)),
        }
    }
}

impl<'a> RData<'a> {
    /// The data with each name read. Refused where one can't be read.
    pub fn text<B: AsRef<[u8]> + ?Sized>(
        &self,
        packet: &Packet<&'a B>,
    ) -> result::Result<DataText<'a>, NameRefusal> {
        match *self {
            RData::A(address) => Ok(DataText::A(address)),
            RData::Aaaa(address) => Ok(DataText::Aaaa(address)),
            RData::Name(octets) => Ok(DataText::Name(Name::read_or_refusal(packet, octets)?)),
            RData::Mx {
                preference,
                exchange,
            } => Ok(DataText::Mx {
                preference,
                exchange: Name::read_or_refusal(packet, exchange)?,
            }),
            RData::Srv {
                priority,
                weight,
                port,
                target,
            } => Ok(DataText::Srv {
                priority,
                weight,
                port,
                target: Name::read_or_refusal(packet, target)?,
            }),
            RData::Soa(soa) => Ok(DataText::Soa(read_authority(packet, &soa)?)),
            RData::Txt(octets) => Ok(DataText::Txt(octets)),
            RData::Fields(fields) => Ok(DataText::Fields(fields.text(packet)?)),
            RData::Other(octets) => Ok(DataText::Other(octets)),
        }
    }
}

// Who is responsible, with the names read.
fn read_authority<'a, B: AsRef<[u8]> + ?Sized>(
    packet: &Packet<&'a B>,
    soa: &Authority<'a>,
) -> result::Result<AuthorityText, NameRefusal> {
    let primary = Name::read_or_refusal(packet, soa.primary)?;
    let mailbox = Name::read_or_refusal(packet, soa.mailbox)?;
    Ok(AuthorityText {
        primary,
        mailbox,
        serial: soa.serial,
        refresh: soa.refresh,
        retry: soa.retry,
        expire: soa.expire,
        minimum: soa.minimum,
    })
}
