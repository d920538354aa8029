// Made from crates/record_wire/src/rdata/refusal.rt by rust/erase.
//! Why data is refused: the check that fails first.

use crate::dns_wire::dns::{Type, split_name};
use crate::record::multicast;
use crate::record::rdata::fields::{self, Form, FrontForm, RestForm, split_front, split_second};
use crate::record::rdata::{Layout, RData, field, find_layout};
use crate::record::record::Record;
use crate::record::refusal::{PartRefusal, why_no_part};
use crate::record::update::is_without_data;
use crate::wirebase::text::{Sink, ToFormatter, put_number};
use core::{fmt, result};

/// Why [`RData::parse`] refuses data: the check that fails first.
///
/// ```
/// use control_wire::record::rdata::RData;
/// use control_wire::record::{DataRefusal, types};
///
/// // A name, and a byte behind it.
/// let refusal = RData::refusal(types::PTR, 1, b"\x02pc\x05local\0!");
/// assert_eq!(refusal, Some(DataRefusal::BehindName));
/// ```
#[derive(Debug, PartialEq, Eq, Clone, Copy)]
#[non_exhaustive]
pub enum DataRefusal {
    /// An address of another length than this: 4 bytes for IPv4, 16 for IPv6.
    Address(usize),
    /// Fewer bytes than the numbers before the name have: 2 for MX, AFSDB, RT, PX and KX, 4 for NAPTR, 6 for SRV, 18
    /// for SIG.
    Numbers,
    /// There is no name where one should begin; of two names, the first.
    Name(PartRefusal),
    /// Bytes follow the names, where the data should end.
    BehindName,
    /// There is no name after the first one: the mailbox of SOA, or the second name of MINFO, RP and PX.
    SecondName(PartRefusal),
    /// After the names of SOA are fewer or more than the 20 bytes of its numbers.
    Times,
    /// No bytes, where TXT has at least one string.
    NoString,
    /// A string of TXT or NAPTR has fewer bytes than the length before it says, or NAPTR has fewer than three.
    String,
    /// The types of NXT are not a map of up to 16 bytes whose first bit is clear, or those of NSEC not maps of 1 to 32
    /// bytes.
    Types,
}

/// What is wrong with the data.
impl fmt::Display for DataRefusal {
    fn fmt(&self, f: &mut fmt::Formatter<'_>) -> fmt::Result {
        self.put::<_, ToFormatter>(f)
    }
}

impl DataRefusal {
    /// Puts what is wrong with the data.
    pub fn put<O, S: Sink<O>>(&self, output: &mut O) -> result::Result<(), S::Error> {
        match self {
            DataRefusal::Address(len) => {
                S::put_str(output, "the address has other than ")?;
                put_number::<O, S>(output, *len as u64)?;
                S::put_str(output, " bytes")
            }
            DataRefusal::Numbers => S::put_str(output, "the numbers in front of the name are cut"),
            DataRefusal::Name(refusal) => refusal.put::<O, S>(output),
            DataRefusal::BehindName => S::put_str(output, "bytes stand behind the name"),
            DataRefusal::SecondName(refusal) => {
                S::put_str(output, "behind the first name: ")?;
                refusal.put::<O, S>(output)
            }
            DataRefusal::Times => S::put_str(
                output,
                "the numbers behind the names have other than 20 bytes",
            ),
            DataRefusal::NoString => S::put_str(output, "there is no string"),
            DataRefusal::String => S::put_str(output, "a string is cut"),
            DataRefusal::Types => S::put_str(output, "the type bit maps are malformed"),
        }
    }
}

impl RData<'_> {
    /// Why [`RData::parse`] refuses the data of this type and class, by the check that fails first; None where it reads
    /// it. For a record of multicast DNS, the class is the one without the top bit, as [`crate::record::multicast::class_of`]
    /// gives it.
    pub fn refusal(type_: Type, class: u16, octets: &[u8]) -> Option<DataRefusal> {
        match RData::parse(type_, class, octets) {
            Ok(_) => None,
            Err(_) => Some(why_no_data(find_layout(type_, class), octets)),
        }
    }
}

impl Record<'_> {
    /// Why [`Record::rdata`] refuses the record's data, by the check that fails first; None where it reads it.
    pub fn data_refusal(&self) -> Option<DataRefusal> {
        RData::refusal(self.type_, self.class, self.data)
    }

    /// Why [`Record::multicast_rdata`] refuses the data of a record of multicast DNS, by the check that fails first;
    /// None where it reads it.
    pub fn multicast_data_refusal(&self) -> Option<DataRefusal> {
        RData::refusal(self.type_, multicast::class_of(self.class), self.data)
    }
}

// Why octets are no data of a record of this type and class, which may be one of an update.
pub(crate) fn why_no_data_of(type_: Type, class: u16, octets: &[u8]) -> DataRefusal {
    why_no_data(data_layout(type_, class, octets), octets)
}

// How the data of a record of this type and class is laid out.
fn data_layout(type_: Type, class: u16, octets: &[u8]) -> Layout {
    if is_without_data(class, octets) {
        return Layout::Opaque;
    }
    find_layout(type_, class)
}

// Why octets are no data of this layout.
fn why_no_data(layout: Layout, octets: &[u8]) -> DataRefusal {
    match layout {
        Layout::Ipv4 => DataRefusal::Address(4),
        Layout::Ipv6 => DataRefusal::Address(16),
        // Any bytes are accepted.
        Layout::Name | Layout::Opaque => why_no_name(octets),
        Layout::Mail => why_not_behind(octets, field::MX_NAME),
        Layout::Service => why_not_behind(octets, field::SRV_NAME),
        Layout::Authority => why_no_authority(octets),
        Layout::Strings => why_no_strings(octets),
        Layout::Fields(form) => why_no_fields(form, octets),
    }
}

// Why octets are not one part of a name and nothing more.
fn why_no_name(octets: &[u8]) -> DataRefusal {
    match split_name(octets) {
        Ok(_) => DataRefusal::BehindName,
        Err(_) => DataRefusal::Name(why_no_part(octets)),
    }
}

// Why they are not this many bytes of numbers and then one part of a name.
fn why_not_behind(octets: &[u8], len: usize) -> DataRefusal {
    if octets.len() < len {
        return DataRefusal::Numbers;
    }
    why_no_name(&octets[len..])
}

// Why they are not two names and five numbers.
fn why_no_authority(octets: &[u8]) -> DataRefusal {
    let Ok((_, behind)) = split_name(octets) else {
        return DataRefusal::Name(why_no_part(octets));
    };
    let Ok(_) = split_name(behind) else {
        return DataRefusal::SecondName(why_no_part(behind));
    };
    DataRefusal::Times
}

// Why they are not strings, one at least.
fn why_no_strings(octets: &[u8]) -> DataRefusal {
    if octets.is_empty() {
        return DataRefusal::NoString;
    }
    DataRefusal::String
}

// Why they are not fields of this form.
fn why_no_fields(form: Form, octets: &[u8]) -> DataRefusal {
    let Ok((_, behind)) = split_front(form.front, octets) else {
        return why_no_front(form.front, octets);
    };
    let Ok((_, rest)) = split_name(behind) else {
        return DataRefusal::Name(why_no_part(behind));
    };
    let Ok(_) = split_second(form.has_two, rest) else {
        return DataRefusal::SecondName(why_no_part(rest));
    };
    match form.rest {
        RestForm::Bits | RestForm::Types => DataRefusal::Types,
        // Any bytes are accepted as a signature.
        RestForm::Nothing | RestForm::Signature => DataRefusal::BehindName,
    }
}

// Why the octets do not begin with the fields before a name.
fn why_no_front(form: FrontForm, octets: &[u8]) -> DataRefusal {
    match form {
        FrontForm::Rule => {
            if octets.len() < fields::field::STRINGS {
                return DataRefusal::Numbers;
            }
            DataRefusal::String
        }
        // No fields before a name: never refused.
        FrontForm::Nothing | FrontForm::Number | FrontForm::Signed => DataRefusal::Numbers,
    }
}
