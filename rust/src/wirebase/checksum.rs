// Made from crates/wirebase/src/checksum.rt by rust/erase.
//! The internet checksum: RFC 1071.

use crate::wirebase::byte_writer::ByteWriter;
use crate::wirebase::ip::IpProtocol;
use crate::wirebase::ipv4::Ipv4Address;
use crate::wirebase::ipv6::Ipv6Address;
use crate::wirebase::octets::Field;
use byteorder::{ByteOrder, LittleEndian};
use core::ops::Range;

/// The sum of the big-endian words of 16 bits, in one's complement; a last odd byte is the high
/// byte of a word. It is exact for every length. The checksum that a packet without a pseudo header
/// carries is `!data(..)` over its bytes with the field zero, and it is good where its sum is 0xffff.
pub fn data(data: &[u8]) -> u16 {
    sum_of(data)
}

// `data`, always inlined: over the octets of a pseudo header, whose number is known, it is a few additions.
#[inline(always)]
fn sum_of(data: &[u8]) -> u16 {
    // The sum of the bytes in the other order is the sum in the other order: RFC 1071 section 2(B).
    folded(little_sum(data)).swap_bytes()
}

/// The one's complement sum of sums of parts.
pub fn combine(checksums: &[u16]) -> u16 {
    let mut sum: u128 = 0;
    for checksum in checksums {
        sum += *checksum as u128;
    }
    folded(sum)
}

/// Whether the octets carry their checksum. `extra` is the sum of a pseudo header, or 0.
pub fn is_good(octets: &[u8], extra: u16) -> bool {
    added(data(octets), extra) == !0
}

/// Writes the checksum of all the octets into their field of two bytes, which counts as zero; the other octets are
/// unchanged. Where the field begins at an even place, the octets then carry their checksum. `extra` is the sum of a
/// pseudo header, or 0. Requires that the field is within the octets.
///
/// # Panics
///
/// May panic where what is asked for above does not hold.
#[inline]
pub fn fill(octets: &mut [u8], field: Field, extra: u16) {
    let Range { start, end } = field;
    clear_u16(&mut octets[start..end]);
    let checksum = !added(data(octets), extra);
    put_u16(&mut octets[start..end], checksum);
}

// Sets the two bytes at the front to zero. In a message that was just written they are zero already: a second write
// would delay the sum, as `icmp::put_header` explains.
#[inline(always)]
fn clear_u16(octets: &mut [u8]) {
    if octets[0] != 0 || octets[1] != 0 {
        put_u16(octets, 0);
    }
}

// Writes two bytes at the front, the higher first, byte by byte: in a build for size, `BigEndian::write_u16` copies
// them by calls.
#[inline(always)]
fn put_u16(octets: &mut [u8], value: u16) {
    let [high, low] = value.to_be_bytes();
    octets[0] = high;
    octets[1] = low;
}

// The sum of the bytes as words of 64 bits and a shorter last one, the lowest byte first. Two sums are kept, so that an
// addition need not wait for the one before it. The words are split off by patterns: in a build for size, `&rest[8..]`
// is a call.
#[inline(always)]
fn little_sum(data: &[u8]) -> u128 {
    let mut rest = data;
    let mut sum: u128 = 0;
    let mut second: u128 = 0;
    while rest.len() >= 32 {
        sum += little_word(rest, 0) + little_word(rest, 8);
        second += little_word(rest, 16) + little_word(rest, 24);
        rest = &rest[32..];
    }
    sum += second;
    while let [_, _, _, _, _, _, _, _, behind @ ..] = rest {
        sum += little_word(rest, 0);
        rest = behind;
    }
    sum + last_words(rest) as u128
}

// The word of eight bytes at a place, the lowest byte first. Always inlined: in a build for size, it would be a call
// for each word.
#[inline(always)]
fn little_word(octets: &[u8], at: usize) -> u128 {
    LittleEndian::read_u64(&octets[at..at + 8]) as u128
}

// The sum of the last bytes, fewer than 8: a word of 32 bits, one of 16 and a byte, as many of these as there are.
fn last_words(data: &[u8]) -> u64 {
    let mut rest = data;
    let mut sum: u64 = 0;
    if let [_, _, _, _, behind @ ..] = rest {
        sum += LittleEndian::read_u32(rest) as u64;
        rest = behind;
    }
    if let [_, _, behind @ ..] = rest {
        sum += LittleEndian::read_u16(rest) as u64;
        rest = behind;
    }
    with_last_byte(sum, rest)
}

// Adds the last byte where the number of bytes is odd.
fn with_last_byte(sum: u64, data: &[u8]) -> u64 {
    match data {
        [last, ..] => sum + *last as u64,
        [] => sum,
    }
}

// Folds a sum to 16 bits: its two halves are added, three times.
fn folded(sum: u128) -> u16 {
    let sum = added_64((sum >> 64) as u64, (sum % (1 << 64)) as u64);
    let sum = added_32((sum >> 32) as u32, (sum % (1 << 32)) as u32);
    added((sum >> 16) as u16, (sum % (1 << 16)) as u16)
}

// The one's complement sum of two sums in 16 bits: the carry is added at the low end.
fn added(a: u16, b: u16) -> u16 {
    let (sum, carry) = a.overflowing_add(b);
    sum + carry as u16
}

// `added` for parts of a sum in 32 bits.
fn added_32(a: u32, b: u32) -> u32 {
    let (sum, carry) = a.overflowing_add(b);
    sum + carry as u32
}

// `added` for parts of a sum in 64 bits.
fn added_64(a: u64, b: u64) -> u64 {
    let (sum, carry) = a.overflowing_add(b);
    sum + carry as u64
}

/// The sum of the pseudo header that the checksums of TCP and UDP over IPv4 count before the payload (RFC 768): the
/// addresses, its protocol, and the number of bytes of the payload, of which the lower 16 bits count.
pub fn pseudo_header_v4(
    src_addr: &Ipv4Address,
    dst_addr: &Ipv4Address,
    next_header: IpProtocol,
    len: u32,
) -> u16 {
    let mut octets = [0; 12];
    write_pseudo_header_v4(&mut octets, src_addr, dst_addr, next_header, len);
    sum_of(&octets)
}

// Writes the pseudo header into octets of exactly its length.
fn write_pseudo_header_v4(
    octets: &mut [u8],
    src_addr: &Ipv4Address,
    dst_addr: &Ipv4Address,
    next_header: IpProtocol,
    len: u32,
) {
    let mut w = ByteWriter::new(octets);
    w.put_bytes(&src_addr.octets());
    w.put_bytes(&dst_addr.octets());
    w.put_u8(0);
    w.put_u8(next_header.into());
    w.put_u16((len % (1 << 16)) as u16);
}

/// The sum of the pseudo header that the checksums of ICMPv6, TCP and UDP over IPv6 count before the payload
/// (RFC 8200 section 8.1): the addresses, the number of bytes of the payload, and its protocol.
pub fn pseudo_header_v6(
    src_addr: &Ipv6Address,
    dst_addr: &Ipv6Address,
    next_header: IpProtocol,
    len: u32,
) -> u16 {
    let mut octets = [0; 40];
    write_pseudo_header_v6(&mut octets, src_addr, dst_addr, next_header, len);
    sum_of(&octets)
}

// Writes the pseudo header into octets of exactly its length.
fn write_pseudo_header_v6(
    octets: &mut [u8],
    src_addr: &Ipv6Address,
    dst_addr: &Ipv6Address,
    next_header: IpProtocol,
    len: u32,
) {
    let mut w = ByteWriter::new(octets);
    w.put_bytes(&src_addr.octets());
    w.put_bytes(&dst_addr.octets());
    w.put_u32(len);
    w.put_zeros(3);
    w.put_u8(next_header.into());
}
