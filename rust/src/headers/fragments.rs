// Made from crates/header_wire/src/fragments.rt by rust/erase.
//! Payloads in parts, each for a fragment of its own (RFC 791 section 3.2, RFC 8200 section 4.5).

/// The greatest payload that fragments are made of, in bytes. A packet of IPv4 has as many with its header (RFC 791
/// section 3.1), and one of IPv6 with its extension headers (RFC 8200 section 3), so their payloads are smaller.
pub const MAX_PAYLOAD_LEN: usize = 65_535;

/// A part of a payload, and what the header of its fragment says of it, as that of [`ipv4`](super::ipv4::Header) and of
/// [`ipv6_fragment`](super::ipv6_fragment::Header).
#[derive(Debug, PartialEq, Eq, Clone, Copy)]
pub struct Fragment<'a> {
    /// Where the part begins in the payload, in units of 8 bytes, as headers have it; `reassembly` counts bytes.
    pub frag_offset: u16,
    /// Other parts follow this one.
    pub more_frags: bool,
    /// The part.
    pub part: &'a [u8],
}

/// The parts of a payload in turn, for fragments that have room for so many bytes of it: all of it, where there is
/// room; or else parts that are as large as the room allows, in units of 8 bytes, and a last part with what is left.
///
/// The payload of IPv6 is here what is fragmented: what follows the extension headers that each fragment repeats, which
/// stand before its fragment header (RFC 8200 section 4.5). A packet that fits without a fragment header is sent
/// without one (RFC 8021), so ask that first. The first part has to have room for the headers above IP. In IPv4, the
/// room is that behind the longest header: options of a kind below 128 stand in the first fragment only
/// (RFC 791 section 3.1).
///
/// ```
/// use control_wire::headers::{Fragment, Fragments};
///
/// let payload = [7; 20];
/// let mut parts = Fragments::new(&payload, 15).unwrap();
/// let first = Fragment {
///     frag_offset: 0,
///     more_frags: true,
///     part: &payload[..8],
/// };
/// assert_eq!(parts.next(), Some(first));
/// let last = Fragment {
///     frag_offset: 1,
///     more_frags: false,
///     part: &payload[8..],
/// };
/// assert_eq!(parts.next(), Some(last));
/// assert_eq!(parts.next(), None);
/// ```
#[derive(Debug, Clone)]
pub struct Fragments<'a> {
    // The bytes after the parts that were given already, or None after the last; where they begin, in units of 8 bytes;
    // and the bytes that a part may have.
    rest: Option<&'a [u8]>,
    frag_offset: u16,
    room: usize,
}

impl<'a> Fragments<'a> {
    /// The parts of a payload, each of at most `room` bytes; no bytes are one part. None where there is room for fewer
    /// than 8 bytes, as behind an MTU of 0 that an old router tells (RFC 1191 section 5), or where the payload has more
    /// than 65,535.
    pub fn new(payload: &'a [u8], room: usize) -> Option<Fragments<'a>> {
        if room < 8 || payload.len() > MAX_PAYLOAD_LEN {
            return None;
        }
        Some(Fragments {
            rest: Some(payload),
            frag_offset: 0,
            room,
        })
    }
}

impl<'a> Iterator for Fragments<'a> {
    type Item = Fragment<'a>;

    fn next(&mut self) -> Option<Fragment<'a>> {
        let rest = self.rest?;
        let frag_offset = self.frag_offset;
        if rest.len() <= self.room {
            self.rest = None;
            return Some(Fragment {
                frag_offset,
                more_frags: false,
                part: rest,
            });
        }
        let units = self.room / 8;
        let (part, behind) = rest.split_at(8 * units);
        self.rest = Some(behind);
        self.frag_offset += units as u16;
        Some(Fragment {
            frag_offset,
            more_frags: true,
            part,
        })
    }
}
