// Made from crates/neighbor_fields/src/ndisc/texts.rt by rust/erase.
//! The texts of options of neighbor discovery: a domain name of a search list, and the URI of a captive portal.

use control_wire::inside::text::{Sink, put_hex, put_number};
use packet_fields::Form;
use packet_fields::value::{Text, Value, put_text};
use rattle_std::io;
use rattle_std::io::Write;

// The most octets of a label, and of a name with its empty label (RFC 1035 section 2.3.4).
const MOST_LABEL: u8 = 63;

const MOST_NAME: u16 = 255;

// Why octets are no domain names, one after another up to the end or to padding, where they are none.
pub(super) fn wrong_names(octets: &[u8]) -> Option<&'static str> {
    let mut taken = 0;
    let mut left = 0;
    for (place, octet) in octets.iter().enumerate() {
        let end = taken + 1 + *octet as u16;
        if left > 0 {
            left -= 1;
        } else if *octet == 0 {
            if taken == 0 {
                let (_, padding) = octets.split_at(place + 1);
                return wrong_padding(padding);
            }
            taken = 0;
        } else if *octet > MOST_LABEL {
            return Some("a label of more than 63 bytes");
        } else if end + 1 > MOST_NAME {
            return Some("a name of more than 255 bytes");
        } else {
            taken = end;
            left = *octet;
        }
    }
    if taken == 0 {
        return None;
    }
    Some("the octets end before the name does")
}

// Why octets behind the names are no padding (RFC 8106 section 5.2), where they are none.
fn wrong_padding(octets: &[u8]) -> Option<&'static str> {
    if without_zeros(octets).is_empty() {
        return None;
    }
    Some("other bytes than zeros behind the names")
}

// The octets up to the end of the first name.
pub(super) fn name_len(octets: &[u8]) -> usize {
    let mut left = 0;
    for (place, octet) in octets.iter().enumerate() {
        if left > 0 {
            left -= 1;
        } else if *octet == 0 {
            return place + 1;
        } else {
            left = *octet;
        }
    }
    octets.len()
}

// A domain name by its octets, with its last dot.
#[derive(Clone, Copy)]
pub(super) struct Name<'a>(pub(super) &'a [u8]);

impl Text for Name<'_> {
    fn put_into<O, S: Sink<O>>(self, output: &mut O) -> Result<(), S::Error> {
        let [first_len, rest @ ..] = self.0 else {
            return Ok(());
        };
        put_labels::<O, S>(output, *first_len, rest)
    }
}

// Puts the rest of a name, the first label of which has so many octets.
fn put_labels<O, S: Sink<O>>(output: &mut O, first_len: u8, octets: &[u8]) -> Result<(), S::Error> {
    let mut left = first_len;
    for octet in octets {
        if left > 0 {
            put_label_character::<O, S>(output, *octet)?;
            left -= 1;
        } else {
            S::put_str(output, ".")?;
            left = *octet;
        }
    }
    Ok(())
}

// Puts an octet of a label as a zone file has it (RFC 1035 section 5.1), but for a comma, which is put by its number:
// commas stand between names.
fn put_label_character<O, S: Sink<O>>(output: &mut O, octet: u8) -> Result<(), S::Error> {
    match octet {
        b'"' | b'$' | b'(' | b')' | b'.' | b';' | b'@' | b'\\' => S::put(output, &[b'\\', octet]),
        b'!'..=b'+' | b'-'..=b'~' => S::put(output, &[octet]),
        _ => put_numbered::<O, S>(output, octet),
    }
}

// Puts an octet by its number.
fn put_numbered<O, S: Sink<O>>(output: &mut O, octet: u8) -> Result<(), S::Error> {
    S::put_str(output, "\\")?;
    put_three_digits::<O, S>(output, octet)
}

fn put_three_digits<O, S: Sink<O>>(output: &mut O, octet: u8) -> Result<(), S::Error> {
    put_number::<O, S>(output, (octet / 100) as u64)?;
    put_number::<O, S>(output, (octet / 10 % 10) as u64)?;
    put_number::<O, S>(output, (octet % 10) as u64)
}

// A URI with zeros behind it.
#[derive(Clone, Copy)]
pub(super) struct Uri<'a>(pub(super) &'a [u8]);

impl Value for Uri<'_> {
    fn put<W: Write>(self, output: &mut W, form: Form) -> io::Result<()> {
        put_text(output, form, self)
    }
}

impl Text for Uri<'_> {
    fn put_into<O, S: Sink<O>>(self, output: &mut O) -> Result<(), S::Error> {
        put_uri_characters::<O, S>(output, without_zeros(self.0))
    }
}

fn put_uri_characters<O, S: Sink<O>>(output: &mut O, octets: &[u8]) -> Result<(), S::Error> {
    for octet in octets {
        put_uri_character::<O, S>(output, *octet)?;
    }
    Ok(())
}

fn put_uri_character<O, S: Sink<O>>(output: &mut O, octet: u8) -> Result<(), S::Error> {
    match octet {
        b'"' | b'\\' => S::put(output, &[b'\\', octet]),
        b'!'..=b'~' => S::put(output, &[octet]),
        _ => put_hidden::<O, S>(output, octet),
    }
}

fn put_hidden<O, S: Sink<O>>(output: &mut O, octet: u8) -> Result<(), S::Error> {
    S::put_str(output, "\\x")?;
    put_hex::<O, S>(output, &[octet])
}

// The octets without the zeros at their end.
fn without_zeros(octets: &[u8]) -> &[u8] {
    let mut end = octets.len();
    while end > 0 && octets[end - 1] == 0 {
        end -= 1;
    }
    &octets[..end]
}
