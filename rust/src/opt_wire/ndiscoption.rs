// Made from crates/opt_wire/src/ndiscoption.rt by rust/erase.
//! Options of neighbor discovery (RFC 4861 section 4.6).
//!
//! ```
//! use control_wire::ndiscoption::{NdiscOption, Repr};
//! use control_wire::{EthernetAddress, RawHardwareAddress};
//!
//! let octets = [1, 1, 0x52, 0x54, 0, 0, 0, 1];
//! let option = NdiscOption::new_checked(&octets)?;
//! let address = EthernetAddress([0x52, 0x54, 0, 0, 0, 1]);
//! assert_eq!(
//!     Repr::parse(&option)?,
//!     Repr::SourceLinkLayerAddr(RawHardwareAddress::from(address)),
//! );
//! # Ok::<(), control_wire::Error>(())
//! ```

use crate::opt_wire::writing::UNIT;
use crate::wirebase::{
    Duration, Error, Ipv6Address, Octets, OctetsMut, RawHardwareAddress, Result,
};
use core::fmt;

mod options;
mod refusal;
mod repr;
mod tables;

pub use options::NdiscOptions;
pub use refusal::Refusal;
pub use repr::{PrefixInformation, RedirectedHeader, Repr};
pub use tables::{PrefixInfoFlags, Type};

// The fields of an option (RFC 4861 section 4.6), of units of 8 bytes.
mod field {
    use crate::opt_wire::writing::UNIT;
    use crate::wirebase::Field;

    pub const TYPE: Field = 0..1;

    pub const LENGTH: Field = 1..2;

    pub const PREFIX_OPTION_LEN: Field = 2..3;

    pub const PREFIX_FLAGS: Field = 3..4;

    pub const VALID_LIFETIME: Field = 4..8;

    pub const PREFERRED_LIFETIME: Field = 8..12;

    pub const PREFIX_RESERVED: Field = 12..16;

    pub const PREFIX: Field = 16..32;

    pub const REDIRECTED_RESERVED: Field = 2..8;

    pub const MTU: Field = 4..8;

    // The field of the data of an option of `units` units.
    pub fn data(units: u8) -> Field {
        2..UNIT * units as usize
    }

    // The field of the redirected packet in an option of `units` units.
    pub fn redirected(units: u8) -> Field {
        REDIRECTED_RESERVED.end..UNIT * units as usize
    }

    // The field of the link-layer address in an option of one unit, and in a longer one.
    pub const SHORT_ADDR: Field = 2..8;

    pub const LONG_ADDR: Field = 2..10;

    // The field of a link-layer address of `len` bytes.
    pub fn link_layer_addr(len: usize) -> Field {
        2..2 + len
    }
}

/// A view of the octets of one option.
#[derive(Debug)]
pub struct NdiscOption<T: Octets> {
    buffer: T,
}

impl<T: Octets> NdiscOption<T> {
    /// Makes a view of `buffer`; its length is not checked.
    pub const fn new_unchecked(buffer: T) -> NdiscOption<T> {
        NdiscOption { buffer }
    }

    /// Makes a view of `buffer`. Refused where it doesn't begin with a whole option of one unit or more. On refusal the
    /// buffer is dropped: to keep a `&mut [u8]`, call `new_unchecked` and then `check_len`, which accepts an option
    /// that counts no units too.
    pub fn new_checked(buffer: T) -> Result<NdiscOption<T>> {
        let option = NdiscOption::new_unchecked(buffer);
        option.check_len()?;
        if option.data_len() == 0 {
            return Err(Error);
        }
        Ok(option)
    }

    /// Accepts 8 octets or more that hold all the units that the option counts: 4 or more of a prefix, 6 or more of a
    /// redirected header. Then each accessor of its type may be called, except those of the data and the link-layer
    /// address where the option counts no units. Such an option is accepted here, and refused by `new_checked` and by
    /// [`Repr::parse`].
    pub fn check_len(&self) -> Result<()> {
        let len = self.buffer.octets().len();
        if len < UNIT {
            return Err(Error);
        }
        let units = self.data_len();
        let least = match self.option_type() {
            Type::PrefixInformation => 4,
            Type::RedirectedHeader => 6,
            _ => 0,
        };
        if len < UNIT * units as usize || units < least {
            return Err(Error);
        }
        Ok(())
    }

    /// Returns the buffer of the view.
    pub fn into_inner(self) -> T {
        self.buffer
    }

    /// The type. Requires at least 1 byte.
    ///
    /// # Panics
    ///
    /// May panic where what is asked for above does not hold.
    pub fn option_type(&self) -> Type {
        Type::from(self.buffer.u8_at(field::TYPE))
    }

    /// The units of 8 bytes that the option counts. Requires at least 2 bytes.
    ///
    /// # Panics
    ///
    /// May panic where what is asked for above does not hold.
    pub fn data_len(&self) -> u8 {
        self.buffer.u8_at(field::LENGTH)
    }

    /// The link-layer address of a source or target: the bytes that the option has room for, but at most 8. Requires
    /// those bytes, and that the option counts one unit or more.
    ///
    /// # Panics
    ///
    /// May panic where what is asked for above does not hold.
    pub fn link_layer_addr(&self) -> RawHardwareAddress {
        let room = UNIT * self.data_len() as usize - field::LENGTH.end;
        // The number of bytes is a constant at each call, so that they are copied by moves.
        if room == field::SHORT_ADDR.end - field::SHORT_ADDR.start {
            RawHardwareAddress::from_bytes(self.buffer.field(field::SHORT_ADDR))
        } else {
            RawHardwareAddress::from_bytes(self.buffer.field(field::LONG_ADDR))
        }
    }

    /// The MTU of the link, in bytes. Requires at least 8 bytes.
    ///
    /// # Panics
    ///
    /// May panic where what is asked for above does not hold.
    pub fn mtu(&self) -> u32 {
        self.buffer.u32_at(field::MTU)
    }

    /// The length of a prefix, in bits. Requires at least 3 bytes.
    ///
    /// # Panics
    ///
    /// May panic where what is asked for above does not hold.
    pub fn prefix_len(&self) -> u8 {
        self.buffer.u8_at(field::PREFIX_OPTION_LEN)
    }

    /// The flags of a prefix that have a name. Requires at least 4 bytes.
    ///
    /// # Panics
    ///
    /// May panic where what is asked for above does not hold.
    pub fn prefix_flags(&self) -> PrefixInfoFlags {
        PrefixInfoFlags::from_bits_truncate(self.buffer.u8_at(field::PREFIX_FLAGS))
    }

    /// How long a prefix is on the link, in whole seconds. Requires at least 8 bytes.
    ///
    /// # Panics
    ///
    /// May panic where what is asked for above does not hold.
    pub fn valid_lifetime(&self) -> Duration {
        Duration::from_secs(self.buffer.u32_at(field::VALID_LIFETIME) as u64)
    }

    /// How long addresses made of a prefix are preferred, in whole seconds. Requires at least 12 bytes.
    ///
    /// # Panics
    ///
    /// May panic where what is asked for above does not hold.
    pub fn preferred_lifetime(&self) -> Duration {
        Duration::from_secs(self.buffer.u32_at(field::PREFERRED_LIFETIME) as u64)
    }

    /// The prefix. Requires at least 32 bytes.
    ///
    /// # Panics
    ///
    /// May panic where what is asked for above does not hold.
    pub fn prefix(&self) -> Ipv6Address {
        Ipv6Address::from_octets(self.buffer.field(field::PREFIX).try_into().unwrap())
    }
}

impl<'a, B: AsRef<[u8]> + ?Sized> NdiscOption<&'a B> {
    /// The data, for as long as the octets live. Requires the units that the option counts, one or more.
    ///
    /// # Panics
    ///
    /// May panic where what is asked for above does not hold.
    pub fn data(&self) -> &'a [u8] {
        let octets: &'a [u8] = self.buffer.as_ref();
        &octets[field::data(self.data_len())]
    }
}

impl<T: OctetsMut> NdiscOption<T> {
    /// Writes the type. Requires at least 1 byte.
    ///
    /// # Panics
    ///
    /// May panic where what is asked for above does not hold.
    pub fn set_option_type(&mut self, value: Type) {
        self.buffer.set_u8(field::TYPE, value.into());
    }

    /// Writes the units of 8 bytes that the option counts. Requires at least 2 bytes.
    ///
    /// # Panics
    ///
    /// May panic where what is asked for above does not hold.
    pub fn set_data_len(&mut self, value: u8) {
        self.buffer.set_u8(field::LENGTH, value);
    }

    /// Writes the link-layer address of a source or target. Requires at least 2 bytes and those of the address.
    ///
    /// # Panics
    ///
    /// May panic where what is asked for above does not hold.
    pub fn set_link_layer_addr(&mut self, addr: RawHardwareAddress) {
        self.buffer
            .set_bytes(field::link_layer_addr(addr.len()), addr.as_bytes());
    }

    /// Writes the MTU of the link, in bytes. Requires at least 8 bytes.
    ///
    /// # Panics
    ///
    /// May panic where what is asked for above does not hold.
    pub fn set_mtu(&mut self, value: u32) {
        self.buffer.set_u32(field::MTU, value);
    }

    /// Writes the length of a prefix, in bits. Requires at least 3 bytes.
    ///
    /// # Panics
    ///
    /// May panic where what is asked for above does not hold.
    pub fn set_prefix_len(&mut self, value: u8) {
        self.buffer.set_u8(field::PREFIX_OPTION_LEN, value);
    }

    /// Writes the flags of a prefix, all their bits. Requires at least 4 bytes.
    ///
    /// # Panics
    ///
    /// May panic where what is asked for above does not hold.
    pub fn set_prefix_flags(&mut self, flags: PrefixInfoFlags) {
        self.buffer.set_u8(field::PREFIX_FLAGS, flags.bits());
    }

    /// Writes how long a prefix is on the link, in whole seconds; a fraction is dropped. Requires at least 8 bytes, and
    /// 4,294,967,295 seconds at most.
    ///
    /// # Panics
    ///
    /// May panic where what is asked for above does not hold.
    pub fn set_valid_lifetime(&mut self, time: Duration) {
        self.buffer
            .set_u32(field::VALID_LIFETIME, time.secs() as u32);
    }

    /// Writes how long addresses made of a prefix are preferred, in whole seconds; a fraction is dropped. Requires at
    /// least 12 bytes, and 4,294,967,295 seconds at most.
    ///
    /// # Panics
    ///
    /// May panic where what is asked for above does not hold.
    pub fn set_preferred_lifetime(&mut self, time: Duration) {
        self.buffer
            .set_u32(field::PREFERRED_LIFETIME, time.secs() as u32);
    }

    /// Writes zeros into the reserved bytes of a prefix. Requires at least 16 bytes.
    ///
    /// # Panics
    ///
    /// May panic where what is asked for above does not hold.
    pub fn clear_prefix_reserved(&mut self) {
        self.buffer.set_u32(field::PREFIX_RESERVED, 0);
    }

    /// Writes the prefix. Requires at least 32 bytes.
    ///
    /// # Panics
    ///
    /// May panic where what is asked for above does not hold.
    pub fn set_prefix(&mut self, addr: Ipv6Address) {
        self.buffer.set_bytes(field::PREFIX, &addr.octets());
    }

    /// Writes zeros into the reserved bytes of a redirected header. Requires at least 8 bytes.
    ///
    /// # Panics
    ///
    /// May panic where what is asked for above does not hold.
    pub fn clear_redirected_reserved(&mut self) {
        self.buffer.set_bytes(field::REDIRECTED_RESERVED, &[0; 6]);
    }

    /// Lends the data for writing; the other octets are unchanged. Requires the units that the option counts, one or
    /// more.
    ///
    /// # Panics
    ///
    /// May panic where what is asked for above does not hold.
    pub fn data_mut(&mut self) -> &mut [u8] {
        let data = field::data(self.data_len());
        self.buffer.field_mut(data)
    }
}

/// Views are equal where their octets are equal.
impl<T: Octets> PartialEq for NdiscOption<T> {
    fn eq(&self, other: &NdiscOption<T>) -> bool {
        self.buffer.octets() == other.buffer.octets()
    }
}

impl<T: Octets> Eq for NdiscOption<T> {}

/// Prints the option at the front of the octets, or `NDISC Option (wire::Error)` where they are refused.
impl<T: Octets> fmt::Display for NdiscOption<T> {
    fn fmt(&self, f: &mut fmt::Formatter<'_>) -> fmt::Result {
        let option = NdiscOption::new_unchecked(self.buffer.octets());
        match Repr::parse(&option) {
            Ok(repr) => write!(f, "{repr}"),
            Err(error) => write!(f, "NDISC Option ({error})"),
        }
    }
}
