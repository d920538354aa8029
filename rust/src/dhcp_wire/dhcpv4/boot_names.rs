// Made from crates/dhcp_wire/src/dhcpv4/boot_names.rt by rust/erase.
//! The names of a server and of a file to start from: texts in fields of fixed size.

use super::packet::{Packet, field};
use crate::wirebase::{Error, Octets, Result};

impl<T: Octets> Packet<T> {
    /// The name of a server: the bytes before the first zero. Refused where there is no zero byte, or nothing before
    /// it, or no UTF-8. The field begins at byte 34, as in smoltcp, where RFC 2131 section 2 has the hardware address's
    /// padding: a packet with zeros there is refused. Requires at least 108 bytes.
    ///
    /// # Panics
    ///
    /// May panic where what is asked for above does not hold.
    pub fn get_sname(&self) -> Result<&str> {
        text_in(self.buffer.field(field::SNAME))
    }

    /// The name of a file to start from: the bytes before the first zero. Refused where there is no zero byte, or
    /// nothing before it, or no UTF-8. Requires at least 236 bytes.
    ///
    /// # Panics
    ///
    /// May panic where what is asked for above does not hold.
    pub fn get_boot_file(&self) -> Result<&str> {
        text_in(self.buffer.field(field::FILE))
    }
}

// The text that a field of fixed size holds.
fn text_in(octets: &[u8]) -> Result<&str> {
    let count = before_zero(octets)?;
    if count == 0 {
        return Err(Error);
    }
    match core::str::from_utf8(&octets[..count]) {
        Ok(text) => Ok(text),
        Err(_) => Err(Error),
    }
}

// The number of bytes before the first zero; refused where there is no zero.
fn before_zero(octets: &[u8]) -> Result<usize> {
    for (i, byte) in octets.iter().enumerate() {
        if *byte == 0 {
            return Ok(i);
        }
    }
    Err(Error)
}
