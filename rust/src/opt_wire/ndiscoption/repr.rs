// Made from crates/opt_wire/src/ndiscoption/repr.rt by rust/erase.
//! The values of options of neighbor discovery (RFC 4861 section 4.6).

use super::{NdiscOption, PrefixInfoFlags, Type, field};
use crate::opt_wire::writing;
use crate::opt_wire::writing::UNIT;
use crate::wirebase::text::HexOrDash;
use crate::wirebase::{
    ByteWriter, Duration, Error, Ipv6Address, Ipv6Packet, Ipv6Repr, OctetsMut, RawHardwareAddress,
    Result,
};
use core::fmt;

/// A prefix of addresses (RFC 4861 section 4.6.2). Its times are written in whole seconds.
#[derive(Debug, PartialEq, Eq, Clone, Copy)]
pub struct PrefixInformation {
    /// The length of the prefix, in bits.
    pub prefix_len: u8,
    /// What the prefix is for.
    pub flags: PrefixInfoFlags,
    /// How long the prefix is on the link.
    pub valid_lifetime: Duration,
    /// How long addresses made of the prefix are preferred.
    pub preferred_lifetime: Duration,
    /// The prefix, as an address that begins with it.
    pub prefix: Ipv6Address,
}

impl PrefixInformation {
    /// Whether hosts may make addresses of the prefix (RFC 4862 section 5.5.3, a to c): its flag for that is set, it is
    /// not the link-local prefix, and it is not preferred for longer than it is valid.
    pub fn is_valid_prefix_info(&self) -> bool {
        self.flags.contains(PrefixInfoFlags::ADDRCONF)
            && !self.prefix.is_link_local()
            && self.preferred_lifetime <= self.valid_lifetime
    }
}

/// Prints all fields in their order, with times in seconds.
impl fmt::Display for PrefixInformation {
    fn fmt(&self, f: &mut fmt::Formatter<'_>) -> fmt::Result {
        let PrefixInformation {
            prefix_len,
            flags,
            valid_lifetime,
            preferred_lifetime,
            prefix,
        } = *self;
        write!(
            f,
            "PrefixInformation prefix_len={prefix_len} flags={flags} valid_lifetime={valid_lifetime} \
             preferred_lifetime={preferred_lifetime} prefix={prefix}"
        )
    }
}

/// The packet that a redirect quotes (RFC 4861 section 4.6.3).
#[derive(Debug, PartialEq, Eq, Clone, Copy)]
pub struct RedirectedHeader<'a> {
    /// The header of that packet.
    pub header: Ipv6Repr,
    /// The payload: all the bytes that the header counts.
    pub data: &'a [u8],
}

/// Prints the header, the length of its payload, and the payload in hexadecimal.
impl fmt::Display for RedirectedHeader<'_> {
    fn fmt(&self, f: &mut fmt::Formatter<'_>) -> fmt::Result {
        write!(
            f,
            "RedirectedHeader header={} payload_len={} data={}",
            self.header,
            self.header.payload_len,
            HexOrDash(self.data)
        )
    }
}

/// An option (RFC 4861 section 4.6).
#[derive(Debug, PartialEq, Eq, Clone, Copy)]
pub enum Repr<'a> {
    /// The link-layer address of the sender.
    SourceLinkLayerAddr(RawHardwareAddress),
    /// The link-layer address of the target.
    TargetLinkLayerAddr(RawHardwareAddress),
    /// A prefix of the link.
    PrefixInformation(PrefixInformation),
    /// The packet that a redirect quotes.
    RedirectedHeader(RedirectedHeader<'a>),
    /// The MTU of the link, in bytes.
    Mtu(u32),
    /// An option of any other type.
    Unknown {
        /// The type, a number without a name.
        type_: u8,
        /// The units of 8 bytes that the option counts.
        length: u8,
        /// The data after type and length: 8 * `length` - 2 bytes.
        data: &'a [u8],
    },
}

impl<'a> Repr<'a> {
    /// The option at the front of the octets. Refused where they don't begin with a whole option of one unit or more,
    /// where a prefix has other than 4 units or an MTU other than 1, and where a redirected header doesn't hold a whole
    /// packet of version 6. Flags without a name are dropped; reserved bytes and padding are not checked.
    #[inline(always)]
    pub fn parse<B: AsRef<[u8]> + ?Sized>(opt: &NdiscOption<&'a B>) -> Result<Repr<'a>> {
        Repr::read(opt)
    }

    // The option at the front of the octets.
    #[inline(always)]
    fn read<B: AsRef<[u8]> + ?Sized>(opt: &NdiscOption<&'a B>) -> Result<Repr<'a>> {
        opt.check_len()?;
        let length = opt.data_len();
        if length == 0 {
            return Err(Error);
        }
        // Each arm returns, so that the value is written once, in the caller's slot.
        match opt.option_type() {
            Type::SourceLinkLayerAddr => {
                return Ok(Repr::SourceLinkLayerAddr(opt.link_layer_addr()));
            }
            Type::TargetLinkLayerAddr => {
                return Ok(Repr::TargetLinkLayerAddr(opt.link_layer_addr()));
            }
            Type::PrefixInformation => {
                if length != 4 {
                    return Err(Error);
                }
                return Ok(Repr::PrefixInformation(PrefixInformation {
                    prefix_len: opt.prefix_len(),
                    flags: opt.prefix_flags(),
                    valid_lifetime: opt.valid_lifetime(),
                    preferred_lifetime: opt.preferred_lifetime(),
                    prefix: opt.prefix(),
                }));
            }
            Type::RedirectedHeader => {
                let (header, data) = read_redirected(opt.redirected())?;
                return Ok(Repr::RedirectedHeader(RedirectedHeader { header, data }));
            }
            Type::Mtu => {
                if length != 1 {
                    return Err(Error);
                }
                return Ok(Repr::Mtu(opt.mtu()));
            }
            Type::Unknown(type_) => {
                return Ok(Repr::Unknown {
                    type_,
                    length,
                    data: opt.data(),
                });
            }
        }
    }

    /// The bytes that the option takes: whole units. Requires that their number fits a `usize`.
    ///
    /// # Panics
    ///
    /// May panic where what is asked for above does not hold.
    pub fn buffer_len(&self) -> usize {
        match self {
            Repr::SourceLinkLayerAddr(addr) => writing::link_layer_addr_len(addr),
            Repr::TargetLinkLayerAddr(addr) => writing::link_layer_addr_len(addr),
            Repr::PrefixInformation(_) => writing::PREFIX_OPTION_LEN,
            Repr::RedirectedHeader(redirected) => writing::redirected_len(redirected),
            Repr::Mtu(_) => writing::MTU_LEN,
            Repr::Unknown { length, .. } => UNIT * *length as usize,
        }
    }

    /// Writes the option over the front of the octets, its reserved bytes and its padding zero; the other octets are
    /// unchanged. Requires the bytes that the option takes; times of 4,294,967,295 seconds at most; that a redirected
    /// header counts its data as the payload, 1,992 bytes at most; and that the data of an unknown option, which counts
    /// one unit or more, fills those units.
    ///
    /// # Panics
    ///
    /// May panic where what is asked for above does not hold.
    pub fn emit<T: OctetsMut>(&self, opt: &mut NdiscOption<T>) {
        self.emit_into(opt.buffer.octets_mut());
    }

    /// Like `emit`, but writes into a slice.
    ///
    /// # Panics
    ///
    /// May panic where what is asked for above does not hold.
    pub fn emit_into(&self, octets: &mut [u8]) {
        let mut w = ByteWriter::new(octets);
        self.put(&mut w);
    }

    // Writes the text of the option.
    fn put(&self, w: &mut ByteWriter<'_>) {
        match self {
            Repr::SourceLinkLayerAddr(addr) => {
                writing::put_link_layer_addr(w, Type::SourceLinkLayerAddr, addr);
            }
            Repr::TargetLinkLayerAddr(addr) => {
                writing::put_link_layer_addr(w, Type::TargetLinkLayerAddr, addr);
            }
            Repr::PrefixInformation(info) => writing::put_prefix(w, info),
            Repr::RedirectedHeader(redirected) => writing::put_redirected(w, redirected),
            Repr::Mtu(mtu) => writing::put_mtu(w, *mtu),
            Repr::Unknown {
                type_,
                length,
                data,
            } => {
                w.put_bytes(&[*type_, *length]);
                w.put_bytes(data);
            }
        }
    }
}

impl<'a, B: AsRef<[u8]> + ?Sized> NdiscOption<&'a B> {
    // The octets of the redirected packet.
    pub(super) fn redirected(&self) -> &'a [u8] {
        let octets: &'a [u8] = self.buffer.as_ref();
        &octets[field::redirected(self.data_len())]
    }
}

// The header of a packet, and its payload. A function of its own, so that a parser needs no registers and no stack for
// them when it reads one of the other options.
#[inline(never)]
fn read_redirected(octets: &[u8]) -> Result<(Ipv6Repr, &[u8])> {
    let packet = Ipv6Packet::new_checked(octets)?;
    let header = Ipv6Repr::parse(&packet)?;
    Ok((header, packet.payload()))
}

/// Prints the fields, as `NDISC Option: MTU mtu=1500`; the data of an option of unknown type in hexadecimal.
impl fmt::Display for Repr<'_> {
    fn fmt(&self, f: &mut fmt::Formatter<'_>) -> fmt::Result {
        match self {
            Repr::SourceLinkLayerAddr(addr) => {
                write!(f, "NDISC Option: SourceLinkLayer addr={addr}")
            }
            Repr::TargetLinkLayerAddr(addr) => {
                write!(f, "NDISC Option: TargetLinkLayer addr={addr}")
            }
            Repr::PrefixInformation(info) => fmt_prefix(f, info),
            Repr::RedirectedHeader(redirected) => write!(f, "NDISC Option: {redirected}"),
            Repr::Mtu(mtu) => write!(f, "NDISC Option: MTU mtu={mtu}"),
            Repr::Unknown {
                type_,
                length,
                data,
            } => fmt_unknown(f, *type_, *length, data),
        }
    }
}

// Prints a prefix.
fn fmt_prefix(f: &mut fmt::Formatter<'_>, info: &PrefixInformation) -> fmt::Result {
    let PrefixInformation {
        prefix_len,
        flags,
        valid_lifetime,
        preferred_lifetime,
        prefix,
    } = *info;
    write!(
        f,
        "NDISC Option: PrefixInformation prefix={prefix}/{prefix_len} flags={flags} \
         valid_lifetime={valid_lifetime} preferred_lifetime={preferred_lifetime}"
    )
}

// Prints an option of unknown type.
fn fmt_unknown(f: &mut fmt::Formatter<'_>, type_: u8, length: u8, data: &[u8]) -> fmt::Result {
    write!(
        f,
        "NDISC Option: Unknown({type_}) length={length} data={}",
        HexOrDash(data)
    )
}
