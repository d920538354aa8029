// Made from crates/packet_fields/src/escapes.rt by rust/erase.
//! Strings of JSON (RFC 8259 section 7).

use control_wire::inside::text::Sink;
use rattle_std::io;
use rattle_std::io::Write;

/// Texts go into a string of JSON on an `io::Write`, between its quotation marks.
pub struct ToString;

impl<W: Write> Sink<W> for ToString {
    type Error = io::Error;

    #[inline]
    fn put(output: &mut W, text: &[u8]) -> io::Result<()> {
        write_escaped(output, text)
    }

    #[inline]
    fn put_str(output: &mut W, text: &str) -> io::Result<()> {
        write_escaped(output, text.as_bytes())
    }
}

// Writes a text as it stands in a string.
fn write_escaped<W: Write>(output: &mut W, text: &[u8]) -> io::Result<()> {
    let mut rest = text;
    while !rest.is_empty() {
        let (plain, behind) = rest.split_at(plain_len(rest));
        output.write_all(plain)?;
        rest = write_first(output, behind)?;
    }
    Ok(())
}

// Writes the first octet of these as it stands in a string, and returns the others.
fn write_first<'a, W: Write>(output: &mut W, octets: &'a [u8]) -> io::Result<&'a [u8]> {
    let [first, rest @ ..] = octets else {
        return Ok(octets);
    };
    write_octet(output, *first)?;
    Ok(rest)
}

// Writes an octet as it stands in a string.
fn write_octet<W: Write>(output: &mut W, octet: u8) -> io::Result<()> {
    let letter = escape_letter(octet);
    if letter > 0 {
        return output.write_all(&[b'\\', letter]);
    }
    if octet < b' ' {
        let digits = [digit(octet / 16), digit(octet % 16)];
        return output.write_all(&[b'\\', b'u', b'0', b'0', digits[0], digits[1]]);
    }
    output.write_all(&[octet])
}

// The number of octets before the first that is escaped.
fn plain_len(text: &[u8]) -> usize {
    for (place, octet) in text.iter().enumerate() {
        if !is_plain(*octet) {
            return place;
        }
    }
    text.len()
}

// Whether an octet stands in a string as it is.
fn is_plain(octet: u8) -> bool {
    octet >= b' ' && escape_letter(octet) == 0
}

// The letter of an octet's short escape, or 0.
fn escape_letter(octet: u8) -> u8 {
    match octet {
        b'"' | b'\\' => octet,
        8 => b'b',
        12 => b'f',
        b'\n' => b'n',
        b'\r' => b'r',
        b'\t' => b't',
        _ => 0,
    }
}

// The hexadecimal digit of a value.
fn digit(value: u8) -> u8 {
    if value < 10 {
        b'0' + value
    } else {
        b'a' - 10 + value
    }
}
