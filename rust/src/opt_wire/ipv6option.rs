// Made from crates/opt_wire/src/ipv6option.rt by rust/erase.
//! Options of IPv6 extension headers (RFC 8200 section 4.2).
//!
//! ```
//! use control_wire::ipv6option::{Ipv6OptionsIterator, Repr, RouterAlert};
//!
//! // A router alert, and two bytes of padding.
//! let options = [5, 2, 0, 0, 1, 0];
//! let options: Vec<Repr> = Ipv6OptionsIterator::new(&options).collect::<Result<_, _>>()?;
//! let alert = Repr::RouterAlert(RouterAlert::MulticastListenerDiscovery);
//! assert_eq!(options, [alert, Repr::PadN(0)]);
//! # Ok::<(), control_wire::Error>(())
//! ```

use crate::wirebase::{ByteWriter, Error, Octets, OctetsMut, Result};
use byteorder::{BigEndian, ByteOrder};
use core::fmt;

mod options;
pub(crate) mod refusal;
mod tables;

pub use options::Ipv6OptionsIterator;
pub use refusal::Refusal;
use tables::AlertName;
pub use tables::{FailureType, RouterAlert, Type};

// The fields of an option.
mod field {
    use crate::wirebase::Field;

    pub const TYPE: Field = 0..1;

    pub const LENGTH: Field = 1..2;

    // The field of the data of an option, by its length.
    pub const fn data(length: u8) -> Field {
        2..2 + length as usize
    }
}

/// A view of the octets of one option.
#[derive(Debug)]
pub struct Ipv6Option<T: Octets> {
    buffer: T,
}

impl<T: Octets> Ipv6Option<T> {
    /// Makes a view of `buffer`; its length is not checked.
    pub const fn new_unchecked(buffer: T) -> Ipv6Option<T> {
        Ipv6Option { buffer }
    }

    /// Makes a view of `buffer`. Refused where it doesn't begin with a whole option. On refusal the buffer is dropped:
    /// to keep a `&mut [u8]`, call `new_unchecked` and then `check_len`.
    pub fn new_checked(buffer: T) -> Result<Ipv6Option<T>> {
        let option = Ipv6Option::new_unchecked(buffer);
        option.check_len()?;
        Ok(option)
    }

    /// Accepts octets that begin with a Pad1, or with a type, a length and as many bytes of data. Then each accessor
    /// may be called, except those of the length and the data where the option is a Pad1.
    pub fn check_len(&self) -> Result<()> {
        let len = self.buffer.octets().len();
        if len < field::TYPE.end {
            return Err(Error);
        }
        if self.option_type() == Type::Pad1 {
            return Ok(());
        }
        if len < field::LENGTH.end {
            return Err(Error);
        }
        if len < field::data(self.data_len()).end {
            return Err(Error);
        }
        Ok(())
    }

    /// Returns the buffer of the view.
    pub fn into_inner(self) -> T {
        self.buffer
    }

    /// The type. Requires at least 1 byte.
    ///
    /// # Panics
    ///
    /// May panic where what is asked for above does not hold.
    pub fn option_type(&self) -> Type {
        Type::from(self.buffer.u8_at(field::TYPE))
    }

    /// The length field: the number of bytes of data. Requires at least 2 bytes.
    ///
    /// # Panics
    ///
    /// May panic where what is asked for above does not hold.
    pub fn data_len(&self) -> u8 {
        self.buffer.u8_at(field::LENGTH)
    }
}

impl<'a, B: AsRef<[u8]> + ?Sized> Ipv6Option<&'a B> {
    /// The data, for as long as the octets live. Requires the bytes that the option counts.
    ///
    /// # Panics
    ///
    /// May panic where what is asked for above does not hold.
    pub fn data(&self) -> &'a [u8] {
        let octets: &'a [u8] = self.buffer.as_ref();
        &octets[field::data(self.data_len())]
    }
}

impl<T: OctetsMut> Ipv6Option<T> {
    /// Writes the type. Requires at least 1 byte.
    ///
    /// # Panics
    ///
    /// May panic where what is asked for above does not hold.
    pub fn set_option_type(&mut self, value: Type) {
        self.buffer.set_u8(field::TYPE, value.into());
    }

    /// Writes the length field: the number of bytes of data. Requires at least 2 bytes.
    ///
    /// # Panics
    ///
    /// May panic where what is asked for above does not hold.
    pub fn set_data_len(&mut self, value: u8) {
        self.buffer.set_u8(field::LENGTH, value);
    }

    /// Lends the data for writing; the other octets are unchanged. Requires the bytes that the option counts.
    ///
    /// # Panics
    ///
    /// May panic where what is asked for above does not hold.
    pub fn data_mut(&mut self) -> &mut [u8] {
        let data = field::data(self.data_len());
        self.buffer.field_mut(data)
    }
}

/// Views are equal where their octets are equal.
impl<T: Octets> PartialEq for Ipv6Option<T> {
    fn eq(&self, other: &Ipv6Option<T>) -> bool {
        self.buffer.octets() == other.buffer.octets()
    }
}

impl<T: Octets> Eq for Ipv6Option<T> {}

/// Prints the option at the front of the octets, or `IPv6 Extension Option (wire::Error)` where they are refused.
impl<T: Octets> fmt::Display for Ipv6Option<T> {
    fn fmt(&self, f: &mut fmt::Formatter<'_>) -> fmt::Result {
        let option = Ipv6Option::new_unchecked(self.buffer.octets());
        match Repr::parse(&option) {
            Ok(repr) => write!(f, "{repr}"),
            Err(error) => write!(f, "IPv6 Extension Option ({error})"),
        }
    }
}

/// An option of an IPv6 extension header (RFC 8200 section 4.2).
#[derive(Debug, PartialEq, Eq, Clone, Copy)]
#[non_exhaustive]
pub enum Repr<'a> {
    /// One byte of padding.
    Pad1,
    /// Padding: a type, a length and this many bytes.
    PadN(u8),
    /// A router alert (RFC 2711).
    RouterAlert(RouterAlert),
    /// An option of any other type.
    Unknown {
        /// The type: `Rpl`, or one without a name.
        type_: Type,
        /// The length field: the number of bytes of data.
        length: u8,
        /// The data; bytes past `length` are not written.
        data: &'a [u8],
    },
}

impl Default for Repr<'_> {
    fn default() -> Self {
        Repr::Pad1
    }
}

impl<'a> Repr<'a> {
    /// The option at the front of the octets. Refused where they don't begin with a whole option, and where a router
    /// alert has other than 2 bytes of data. The contents of padding are not checked.
    #[inline]
    pub fn parse<B: AsRef<[u8]> + ?Sized>(opt: &Ipv6Option<&'a B>) -> Result<Repr<'a>> {
        Repr::read(opt)
    }

    // The option at the front of the octets.
    #[inline]
    fn read<B: AsRef<[u8]> + ?Sized>(opt: &Ipv6Option<&'a B>) -> Result<Repr<'a>> {
        opt.check_len()?;
        match opt.option_type() {
            Type::Pad1 => Ok(Repr::Pad1),
            Type::PadN => Ok(Repr::PadN(opt.data_len())),
            Type::RouterAlert => {
                if opt.data_len() != RouterAlert::DATA_LEN {
                    return Err(Error);
                }
                Ok(Repr::RouterAlert(BigEndian::read_u16(opt.data()).into()))
            }
            type_ => Ok(Repr::Unknown {
                type_,
                length: opt.data_len(),
                data: opt.data(),
            }),
        }
    }

    /// The bytes that the option takes, by its length field.
    pub const fn buffer_len(&self) -> usize {
        match *self {
            Repr::Pad1 => field::TYPE.end,
            Repr::PadN(length) => field::data(length).end,
            Repr::RouterAlert(_) => field::data(RouterAlert::DATA_LEN).end,
            Repr::Unknown { length, .. } => field::data(length).end,
        }
    }

    /// Writes the option over the front of the octets; the other octets are unchanged. Requires the bytes that the
    /// option takes, and that it holds as much data as its length counts.
    ///
    /// # Panics
    ///
    /// May panic where what is asked for above does not hold.
    pub fn emit<T: OctetsMut>(&self, opt: &mut Ipv6Option<T>) {
        self.emit_into(opt.buffer.octets_mut());
    }

    /// Like `emit`, but writes into a slice.
    ///
    /// # Panics
    ///
    /// May panic where what is asked for above does not hold.
    pub fn emit_into(&self, octets: &mut [u8]) {
        let mut w = ByteWriter::new(octets);
        self.put(&mut w);
    }

    // Writes the text of the option.
    pub(super) fn put(&self, w: &mut ByteWriter<'_>) {
        match *self {
            Repr::Pad1 => w.put_u8(Type::Pad1.into()),
            Repr::PadN(length) => {
                put_counted(w, Type::PadN, length);
                w.put_zeros(length as usize);
            }
            Repr::RouterAlert(alert) => {
                let [high, low] = u16::from(alert).to_be_bytes();
                w.put_bytes(&[Type::RouterAlert.into(), RouterAlert::DATA_LEN, high, low]);
            }
            Repr::Unknown {
                type_,
                length,
                data,
            } => {
                put_counted(w, type_, length);
                w.put_bytes(&data[..length as usize]);
            }
        }
    }
}

// Writes the type of an option and the length of its data.
fn put_counted(w: &mut ByteWriter<'_>, kind: Type, data_len: u8) {
    w.put_bytes(&[kind.into(), data_len]);
}

impl fmt::Display for Repr<'_> {
    fn fmt(&self, f: &mut fmt::Formatter<'_>) -> fmt::Result {
        match *self {
            Repr::Pad1 => f.write_str("IPv6 Option Pad1 "),
            Repr::PadN(length) => fmt_pad_n(f, length),
            Repr::RouterAlert(alert) => fmt_router_alert(f, alert),
            Repr::Unknown { type_, length, .. } => fmt_unknown(f, type_, length),
        }
    }
}

// Prints padding.
fn fmt_pad_n(f: &mut fmt::Formatter<'_>, length: u8) -> fmt::Result {
    write!(f, "IPv6 Option PadN length={length} ")
}

// Prints a router alert.
fn fmt_router_alert(f: &mut fmt::Formatter<'_>, alert: RouterAlert) -> fmt::Result {
    write!(f, "IPv6 Option RouterAlert value={}", AlertName(alert))
}

// Prints an option of any other type, without its data.
fn fmt_unknown(f: &mut fmt::Formatter<'_>, type_: Type, length: u8) -> fmt::Result {
    write!(f, "IPv6 Option {type_} length={length} ")
}
