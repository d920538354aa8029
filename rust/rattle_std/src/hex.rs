//! Octets as hexadecimal digits.

use crate::vec::Vec;

/// Why digits spell no octets.
#[derive(Debug, PartialEq, Eq)]
pub enum FromHexError {
    /// There was no memory; no call here answers it.
    OutOfMemory,
    /// An octet that is no digit, or another number of digits than wanted.
    Invalid,
}

fn digit(digit: u8) -> Result<u8, FromHexError> {
    match char::from(digit).to_digit(16) {
        Some(value) => Ok(value as u8),
        None => Err(FromHexError::Invalid),
    }
}

/// Reads two digits for each octet, the higher first.
pub fn decode_to_slice(text: &[u8], octets: &mut [u8]) -> Result<(), FromHexError> {
    if text.len() != 2 * octets.len() {
        return Err(FromHexError::Invalid);
    }
    for (octet, pair) in octets.iter_mut().zip(text.chunks(2)) {
        *octet = 16 * digit(pair[0])? + digit(pair[1])?;
    }
    Ok(())
}

/// The octets that digits spell.
pub fn decode(text: &[u8]) -> Result<Vec<u8>, FromHexError> {
    let mut octets = std::vec![0; text.len() / 2];
    decode_to_slice(text, &mut octets)?;
    Ok(Vec(octets))
}

/// Writes two lower-case digits for each octet.
pub fn encode_to_slice(octets: &[u8], text: &mut [u8]) -> Result<(), FromHexError> {
    if text.len() != 2 * octets.len() {
        return Err(FromHexError::Invalid);
    }
    let digit = |value: u8| b"0123456789abcdef"[usize::from(value)];
    for (octet, pair) in octets.iter().zip(text.chunks_mut(2)) {
        pair.copy_from_slice(&[digit(octet / 16), digit(octet % 16)]);
    }
    Ok(())
}
