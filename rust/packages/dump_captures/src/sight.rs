// Made from crates/dump_captures/src/sight.rt by rust/erase.
//! What the headers of a packet tell.

use crate::content::{Content, content_by, messages_over_tcp};
use crate::counts::Category;
use crate::path::{Path, Tunnels};
use crate::place::{Place, Step, Version, follow, packet_in};
use crate::ports::Ports;
use crate::refusal::Refusal;
use crate::refused::{refused_v4, refused_v6, untold};
use capture::Record;
use control_wire::frames::tcp::Prefixed;
use control_wire::frames::{Addresses, Datagram, Frame, Link};
use control_wire::{IpProtocol, Ipv4Packet};
use message_fields::Message;
use packet_fields::ports::ports_of;
use reassembly::Fragment;

/// What the headers of a packet tell.
#[derive(Debug, PartialEq, Eq, Clone, Copy)]
pub enum Sight<'a> {
    /// The frame is of an unsupported link.
    Unread,
    /// The packet is of another protocol.
    Other(Category),
    /// It is a control packet.
    Control(Headers<'a>),
    /// It is a segment of TCP with messages of DNS.
    Segment(Segment<'a>),
}

/// What a packet leads to.
#[derive(Debug, PartialEq, Eq, Clone, Copy)]
pub enum Finding<'a> {
    /// What its headers tell.
    Sight(Sight<'a>),
    /// A fragment of a datagram, to which this is the way.
    Fragment(Path<'a>, Fragment<'a>),
}

/// What the headers of a control packet tell.
#[derive(Debug, PartialEq, Eq, Clone, Copy)]
pub struct Headers<'a> {
    /// The way to its datagram.
    pub path: Path<'a>,
    /// The addresses of the datagram, where they are known.
    pub addresses: Option<Addresses>,
    /// The ports of the source and the destination, where there are any.
    pub ports: Option<(u16, u16)>,
    /// The hops that are left, where the datagram came whole.
    pub hop_limit: Option<u8>,
    /// The hop-by-hop options, where there are any.
    pub hop_by_hop: Option<&'a [u8]>,
    /// Whether the checksum of the IPv4 header is wrong.
    pub is_header_bad: bool,
    /// What it holds.
    pub content: Content<'a>,
}

impl Headers<'_> {
    /// Whether the packet is refused for the checksum of its IPv4 header: where that is asked, and the checksum is
    /// wrong.
    pub(crate) fn is_header_refused(&self, is_strict: bool) -> bool {
        is_strict && self.is_header_bad
    }
}

/// A segment of TCP with messages of DNS.
#[derive(Debug, PartialEq, Eq, Clone, Copy)]
pub struct Segment<'a> {
    /// The way to its datagram.
    pub path: Path<'a>,
    /// Whether the checksum of the IPv4 header is wrong.
    pub is_header_bad: bool,
    /// The datagram.
    pub datagram: Datagram<'a>,
    /// The messages.
    pub messages: Prefixed<'a>,
}

impl<'a> Segment<'a> {
    /// What the headers tell of one of its messages.
    pub fn headers(&self, message: &'a [u8]) -> Headers<'a> {
        let datagram = &self.datagram;
        let message = Message::Tcp(datagram.addresses, datagram.payload, message);
        Headers {
            path: self.path,
            addresses: Some(datagram.addresses),
            ports: ports_of(datagram.protocol, datagram.payload),
            hop_limit: hop_limit_of(&self.path, datagram),
            hop_by_hop: datagram.hop_by_hop,
            is_header_bad: self.is_header_bad,
            content: Content::Whole(message),
        }
    }
}

/// What a packet leads to, of which the capture has these octets, where these ports are given.
pub fn look<'a>(given: &Ports, captured: &Record, octets: &'a [u8]) -> Finding<'a> {
    let Some(link) = Link::of(captured.link_type) else {
        return Finding::Sight(Sight::Unread);
    };
    match link.frame_or_refusal(octets) {
        Ok(frame) => look_into(given, captured, octets, link, &frame),
        Err(refusal) => {
            let refusal = Refusal::Frame(refusal);
            let reason = refusal.reason(is_cut(captured, octets));
            Finding::Sight(untold(NO_PATH, reason, refusal))
        }
    }
}

// Nothing is known of the way to a datagram.
const NO_PATH: Path<'static> = Path {
    tags: &[],
    tunnels: Tunnels::Zero,
    frames: &[],
};

// What a frame leads to.
fn look_into<'a>(
    given: &Ports,
    captured: &Record,
    octets: &[u8],
    link: Link,
    frame: &Frame<'a>,
) -> Finding<'a> {
    let path = Path {
        tags: frame.tags,
        tunnels: Tunnels::Zero,
        frames: &[],
    };
    match packet_in(path, frame.network, frame.payload) {
        Step::Other(number) => Finding::Sight(Sight::Other(network_category(link, number))),
        Step::Datagram(place) => {
            look_at_end(given, captured, octets, &follow(Step::Datagram(place)))
        }
    }
}

/// What there is where the tunnels end.
pub fn look_at_end<'a>(
    given: &Ports,
    captured: &Record,
    octets: &[u8],
    end: &Step<'a>,
) -> Finding<'a> {
    match end {
        Step::Other(number) => Finding::Sight(Sight::Other(Category::EtherType(*number))),
        Step::Datagram(place) => match place.version {
            Version::V4 => look_at_v4(given, captured, octets, place),
            Version::V6 => look_at_v6(given, captured, octets, place),
        },
    }
}

// What an IPv4 datagram is.
fn look_at_v4<'a>(
    given: &Ports,
    captured: &Record,
    octets: &[u8],
    place: &Place<'a>,
) -> Finding<'a> {
    let refusal = match Datagram::parse_v4(place.octets) {
        Ok(datagram) => {
            let is_bad = is_header_bad(place.octets);
            return Finding::Sight(whole(given, &place.path, is_bad, &datagram));
        }
        Err(refusal) => Refusal::Datagram(refusal),
    };
    if let Some(fragment) = Fragment::parse_v4(place.octets) {
        return Finding::Fragment(place.path, fragment);
    }
    let reason = refusal.reason(is_cut(captured, octets));
    Finding::Sight(refused_v4(
        given,
        &place.path,
        place.octets,
        reason,
        refusal,
    ))
}

// What an IPv6 datagram is.
fn look_at_v6<'a>(
    given: &Ports,
    captured: &Record,
    octets: &[u8],
    place: &Place<'a>,
) -> Finding<'a> {
    let refusal = match Datagram::parse_v6(place.octets) {
        Ok(datagram) => return Finding::Sight(whole(given, &place.path, false, &datagram)),
        Err(refusal) => Refusal::Datagram(refusal),
    };
    if let Some(fragment) = Fragment::parse_v6(place.octets) {
        return Finding::Fragment(place.path, fragment);
    }
    let reason = refusal.reason(is_cut(captured, octets));
    Finding::Sight(refused_v6(
        given,
        &place.path,
        place.octets,
        reason,
        refusal,
    ))
}

// The bytes of an IPv4 header without options.
const IPV4_HEADER_LEN: usize = 20;

/// Whether the IPv4 header at the start of the octets is there, and its checksum is wrong.
pub(crate) fn is_header_bad(octets: &[u8]) -> bool {
    if octets.len() < IPV4_HEADER_LEN {
        return false;
    }
    let packet = Ipv4Packet::new_unchecked(octets);
    octets.len() >= packet.header_len() as usize && !packet.verify_checksum()
}

/// Packets of an IP protocol.
pub fn protocol_category(protocol: IpProtocol) -> Category {
    Category::Protocol(u8::from(protocol))
}

// Packets of a network on a link that is not IP.
fn network_category(link: Link, number: u16) -> Category {
    if link.has_ether_types() {
        return Category::EtherType(number);
    }
    Category::Network(number)
}

/// What a whole datagram tells, of which the checksum of the IPv4 header may be wrong.
pub fn whole<'a>(
    given: &Ports,
    path: &Path<'a>,
    is_header_bad: bool,
    datagram: &Datagram<'a>,
) -> Sight<'a> {
    match messages_over_tcp(given, datagram) {
        Some(messages) => Sight::Segment(Segment {
            path: *path,
            is_header_bad,
            datagram: *datagram,
            messages,
        }),
        None => by_protocol(given, path, is_header_bad, datagram),
    }
}

// What a datagram tells by its protocol.
fn by_protocol<'a>(
    given: &Ports,
    path: &Path<'a>,
    is_header_bad: bool,
    datagram: &Datagram<'a>,
) -> Sight<'a> {
    let (protocol, payload) = (datagram.protocol, datagram.payload);
    let ports = ports_of(protocol, payload);
    let Some(content) = content_by(given, &datagram.addresses, protocol, ports, payload) else {
        return Sight::Other(protocol_category(protocol));
    };
    Sight::Control(Headers {
        path: *path,
        addresses: Some(datagram.addresses),
        ports,
        hop_limit: hop_limit_of(path, datagram),
        hop_by_hop: datagram.hop_by_hop,
        is_header_bad,
        content,
    })
}

/// The hops that are left of a datagram on this way. Fragments may differ in it.
pub(crate) fn hop_limit_of(path: &Path<'_>, datagram: &Datagram<'_>) -> Option<u8> {
    if path.frames.is_empty() {
        return Some(datagram.hop_limit);
    }
    None
}

/// Whether the capture kept only a part of a packet.
pub fn is_cut(captured: &Record, octets: &[u8]) -> bool {
    (octets.len() as u64) < captured.original_len as u64
}
