//! What a Rust programmer expects of a domain name, of a type of record, and of a record with its names read.

use crate::dns::Type;
use crate::record::name::MAX_NAME_LEN;
use crate::record::{
    AuthorityText, DataText, EntryText, Name, NameTextRefusal, QuestionText, RecordText, types,
};
use crate::{Error, Result};
use core::cmp::Ordering;
use core::fmt;
use core::hash::{Hash, Hasher};
use core::str::FromStr;

impl fmt::Debug for Name {
    fn fmt(&self, f: &mut fmt::Formatter<'_>) -> fmt::Result {
        write!(f, "Name({self})")
    }
}

impl fmt::Debug for QuestionText {
    fn fmt(&self, f: &mut fmt::Formatter<'_>) -> fmt::Result {
        write!(f, "QuestionText({self})")
    }
}

impl fmt::Debug for RecordText<'_> {
    fn fmt(&self, f: &mut fmt::Formatter<'_>) -> fmt::Result {
        write!(f, "RecordText({self})")
    }
}

impl fmt::Debug for DataText<'_> {
    fn fmt(&self, f: &mut fmt::Formatter<'_>) -> fmt::Result {
        write!(f, "DataText({self})")
    }
}

impl fmt::Debug for AuthorityText {
    fn fmt(&self, f: &mut fmt::Formatter<'_>) -> fmt::Result {
        write!(f, "AuthorityText({self})")
    }
}

impl fmt::Debug for EntryText<'_> {
    fn fmt(&self, f: &mut fmt::Formatter<'_>) -> fmt::Result {
        write!(f, "EntryText({self})")
    }
}

/// Names that are equal have the same hash: letters of ASCII count alike in either case.
impl Hash for Name {
    fn hash<H: Hasher>(&self, state: &mut H) {
        // The length of a label is at most 63, and no letter.
        for octet in self.octets() {
            state.write_u8(octet.to_ascii_lowercase());
        }
    }
}

/// The canonical order (RFC 4034 section 6.1): by the labels from the root on, each as its octets with the letters of
/// ASCII in lower case. Names are equal in it where `==` says so.
impl Ord for Name {
    fn cmp(&self, other: &Name) -> Ordering {
        let (left, right) = (Backwards::of(self), Backwards::of(other));
        left.map(Lower).cmp(right.map(Lower))
    }
}

impl PartialOrd for Name {
    fn partial_cmp(&self, other: &Name) -> Option<Ordering> {
        Some(self.cmp(other))
    }
}

// The labels of a name from the last to the first.
struct Backwards<'a> {
    octets: &'a [u8],
    // Where each label begins. Each takes two octets at least, and one ends the name.
    places: [u8; MAX_NAME_LEN / 2],
    count: usize,
}

impl<'a> Backwards<'a> {
    fn of(name: &'a Name) -> Backwards<'a> {
        let octets = name.octets();
        let (mut places, mut count, mut place) = ([0; MAX_NAME_LEN / 2], 0, 0);
        for label in name.labels() {
            places[count] = place as u8;
            count += 1;
            place += 1 + label.len();
        }
        Backwards {
            octets,
            places,
            count,
        }
    }
}

impl<'a> Iterator for Backwards<'a> {
    type Item = &'a [u8];

    fn next(&mut self) -> Option<&'a [u8]> {
        self.count = self.count.checked_sub(1)?;
        let (&len, behind) = self.octets[self.places[self.count] as usize..].split_first()?;
        behind.get(..len as usize)
    }
}

// Octets, compared with the letters of ASCII in lower case.
struct Lower<'a>(&'a [u8]);

impl Ord for Lower<'_> {
    fn cmp(&self, other: &Self) -> Ordering {
        let (left, right) = (self.0.iter(), other.0.iter());
        left.map(u8::to_ascii_lowercase)
            .cmp(right.map(u8::to_ascii_lowercase))
    }
}

impl PartialOrd for Lower<'_> {
    fn partial_cmp(&self, other: &Self) -> Option<Ordering> {
        Some(self.cmp(other))
    }
}

impl PartialEq for Lower<'_> {
    fn eq(&self, other: &Self) -> bool {
        self.cmp(other).is_eq()
    }
}

impl Eq for Lower<'_> {}

/// The same as [`Name::from_text`], and where that refuses the reason of [`Name::from_text_refusal`].
impl FromStr for Name {
    type Err = NameTextRefusal;

    fn from_str(text: &str) -> core::result::Result<Name, NameTextRefusal> {
        let text = text.as_bytes();
        // A text that is refused has a reason, which is proved.
        Name::from_text(text).map_err(|_| {
            Name::from_text_refusal(text).expect("a text that is refused has a reason")
        })
    }
}

/// The type of a mnemonic in IANA's registry, in letters of either case, as `MX`, or of `TYPE` and a number, as
/// `TYPE15` (RFC 3597 section 5). Refused where the text is neither; the mnemonics are those that a type prints.
impl FromStr for Type {
    type Err = Error;

    fn from_str(text: &str) -> Result<Type> {
        match text.split_at_checked(4) {
            Some((word, digits)) if word.eq_ignore_ascii_case("TYPE") => {
                if !digits.bytes().all(|digit| digit.is_ascii_digit()) {
                    return Err(Error);
                }
                digits.parse::<u16>().map(Type::from).map_err(|_| Error)
            }
            _ => NAMED
                .into_iter()
                .find(|type_| {
                    type_
                        .mnemonic()
                        .is_some_and(|mnemonic| mnemonic.eq_ignore_ascii_case(text))
                })
                .ok_or(Error),
        }
    }
}

/// The types that have a mnemonic.
const NAMED: [Type; 40] = [
    types::A,
    types::AAAA,
    types::CNAME,
    types::MX,
    types::NS,
    types::PTR,
    types::SOA,
    types::SRV,
    types::TXT,
    types::HINFO,
    types::NAPTR,
    types::DNAME,
    types::OPT,
    types::DS,
    types::SSHFP,
    types::RRSIG,
    types::NSEC,
    types::DNSKEY,
    types::NSEC3,
    types::TLSA,
    types::SVCB,
    types::HTTPS,
    types::SPF,
    types::IXFR,
    types::AXFR,
    types::ANY,
    types::CAA,
    types::MD,
    types::MF,
    types::MB,
    types::MG,
    types::MR,
    types::MINFO,
    types::RP,
    types::AFSDB,
    types::RT,
    types::SIG,
    types::PX,
    types::NXT,
    types::KX,
];
