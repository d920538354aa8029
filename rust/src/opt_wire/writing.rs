// Made from crates/opt_wire/src/writing.rt by rust/erase.
//! Writers for options of neighbor discovery from their fields (RFC 4861 section 4.6), and for the header of a quoted
//! packet, for the crates above: a message that has an option need not make a value of it.

use crate::opt_wire::ndiscoption::{PrefixInformation, RedirectedHeader, Type};
use crate::wirebase::{ByteWriter, IPV6_HEADER_LEN, Ipv6Repr, RawHardwareAddress};

/// The bytes of a unit: the length field of an option counts units.
pub const UNIT: usize = 8;

/// The bytes of the option of an MTU.
pub const MTU_LEN: usize = UNIT;

/// The bytes of the option of a prefix.
pub const PREFIX_OPTION_LEN: usize = 4 * UNIT;

// The bytes of the type and length fields, and the bytes of a redirected header before the payload of the packet.
const HEADER_LEN: usize = 2;

const REDIRECTED_HEADER_LEN: usize = UNIT + IPV6_HEADER_LEN;

/// The bytes of the option of a link-layer address: whole units.
pub fn link_layer_addr_len(addr: &RawHardwareAddress) -> usize {
    UNIT * units_of(HEADER_LEN + addr.len())
}

/// The bytes of the option of a redirected packet: whole units. Requires that their number fits a `usize`.
///
/// # Panics
///
/// May panic where what is asked for above does not hold.
pub fn redirected_len(redirected: &RedirectedHeader<'_>) -> usize {
    UNIT * units_of(REDIRECTED_HEADER_LEN + redirected.data.len())
}

// The number of units that `count` bytes take.
fn units_of(count: usize) -> usize {
    count.div_ceil(UNIT)
}

/// Writes the option of a link-layer address, whose type is given. Requires the bytes that it takes.
///
/// # Panics
///
/// May panic where what is asked for above does not hold.
#[inline]
pub fn put_link_layer_addr(w: &mut ByteWriter<'_>, kind: Type, addr: &RawHardwareAddress) {
    // Addresses of Ethernet and of IEEE 802.15.4 take one write.
    match *addr.as_bytes() {
        [a, b, c, d, e, f] => w.put_bytes(&[kind.into(), 1, a, b, c, d, e, f]),
        [a, b, c, d, e, f, g, h] => {
            w.put_bytes(&[kind.into(), 2, a, b, c, d, e, f, g, h, 0, 0, 0, 0, 0, 0]);
        }
        _ => put_padded(w, kind, addr),
    }
}

// Writes the option with zeros up to whole units. A function of its own, so that the common case needs few registers.
#[inline(never)]
fn put_padded(w: &mut ByteWriter<'_>, kind: Type, addr: &RawHardwareAddress) {
    let len = HEADER_LEN + addr.len();
    let units = units_of(len);
    w.put_bytes(&[kind.into(), units as u8]);
    w.put_bytes(addr.as_bytes());
    w.put_zeros(UNIT * units - len);
}

/// Writes the option of a prefix. Requires the bytes that it takes, and times of 4,294,967,295 seconds at most.
///
/// # Panics
///
/// May panic where what is asked for above does not hold.
#[inline]
pub fn put_prefix(w: &mut ByteWriter<'_>, info: &PrefixInformation) {
    // The bytes before the prefix are one write, since each write checks for room.
    let kind = Type::PrefixInformation.into();
    let [a, b, c, d] = (info.valid_lifetime.secs() as u32).to_be_bytes();
    let [e, f, g, h] = (info.preferred_lifetime.secs() as u32).to_be_bytes();
    let (len, flags) = (info.prefix_len, info.flags.bits());
    w.put_bytes(&[kind, 4, len, flags, a, b, c, d, e, f, g, h, 0, 0, 0, 0]);
    w.put_bytes(&info.prefix.octets());
}

/// Writes the option of a redirected packet. Requires the bytes that it takes, and that the header counts the data as
/// its payload, 1,992 bytes at most.
///
/// # Panics
///
/// May panic where what is asked for above does not hold.
#[inline]
pub fn put_redirected(w: &mut ByteWriter<'_>, redirected: &RedirectedHeader<'_>) {
    let len = REDIRECTED_HEADER_LEN + redirected.data.len();
    let units = units_of(len);
    let kind = Type::RedirectedHeader.into();
    w.put_bytes(&[kind, units as u8, 0, 0, 0, 0, 0, 0]);
    put_header(w, &redirected.header);
    w.put_bytes(redirected.data);
    w.put_zeros(UNIT * units - len);
}

/// Writes the option of an MTU. Requires the bytes that it takes.
///
/// # Panics
///
/// May panic where what is asked for above does not hold.
#[inline]
pub fn put_mtu(w: &mut ByteWriter<'_>, mtu: u32) {
    let [a, b, c, d] = mtu.to_be_bytes();
    w.put_bytes(&[Type::Mtu.into(), 1, 0, 0, a, b, c, d]);
}

/// Writes the header of a packet (RFC 8200 section 3). Requires the 40 bytes that it takes, and a payload of at most
/// 65,535 bytes.
///
/// # Panics
///
/// May panic where what is asked for above does not hold.
#[inline]
pub fn put_header(w: &mut ByteWriter<'_>, header: &Ipv6Repr) {
    header.emit_into(w.part(header.buffer_len()));
}
