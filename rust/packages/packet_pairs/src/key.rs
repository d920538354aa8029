// Made from crates/packet_pairs/src/key.rt by rust/erase.
//! Which question an answer is to.

use control_wire::dns::Type;
use control_wire::frames::Addresses;
use control_wire::record::Name;
use control_wire::{EthernetAddress, Ipv4Address, Ipv6Address};
use message_fields::Service;

/// Which question an answer is to: a question and its answers have the same key. A key has a fixed size, and borrows
/// nothing.
pub enum Key {
    /// That of a question for a name, of DNS, LLMNR or multicast DNS.
    Name(NameKey),
    /// That of a query of the NetBIOS name service.
    Netbios(NetbiosKey),
    /// That of an echo of ICMPv4 or ICMPv6.
    Echo(EchoKey),
    /// That of a neighbor solicitation.
    Neighbor(NeighborKey),
    /// That of a client's message of DHCP.
    Lease(LeaseKey),
}

/// Who asks, and who is to answer.
#[derive(Debug, PartialEq, Eq, Clone, Copy)]
pub struct Way {
    /// The addresses of the asker and of who is asked. Where anyone may answer, the asker's twice.
    pub addresses: Addresses,
    /// The port that the question comes from.
    pub asker_port: u16,
    /// The port that it goes to.
    pub answerer_port: u16,
}

/// The key of a question for a name (RFC 5452 section 9.1).
pub struct NameKey {
    /// DNS, LLMNR or multicast DNS.
    pub service: Service,
    /// Whether it came over TCP.
    pub over_tcp: bool,
    /// Who asks whom; in LLMNR and multicast DNS anyone may answer.
    pub way: Way,
    /// The number of the query.
    pub transaction_id: u16,
    /// The name, which is compared without regard to the case of ASCII letters (RFC 4343).
    pub name: Name,
    /// The type of the records.
    pub type_: Type,
    /// The class of the records; in multicast DNS without its top bit, which is a flag (RFC 6762 section 5.4).
    pub class: u16,
}

/// The key of a query of the NetBIOS name service, whose responses don't repeat the question (RFC 1002 section 4.2.13).
#[derive(Debug, PartialEq, Eq, Clone, Copy)]
pub struct NetbiosKey {
    /// Who asks; anyone may answer.
    pub way: Way,
    /// The number of the query.
    pub transaction_id: u16,
}

/// The key of an echo (RFC 792, RFC 4443 section 4).
#[derive(Debug, PartialEq, Eq, Clone, Copy)]
pub struct EchoKey {
    /// The addresses of the asker and of who is asked.
    pub addresses: Addresses,
    /// The identifier.
    pub ident: u16,
    /// The sequence number.
    pub seq_no: u16,
}

/// The key of a neighbor solicitation (RFC 4861 section 7.2).
#[derive(Debug, PartialEq, Eq, Clone, Copy)]
pub struct NeighborKey {
    /// The address of the asker.
    pub asker: Ipv6Address,
    /// The address whose link-layer address is asked for.
    pub target: Ipv6Address,
}

/// The key of a client's message of DHCP (RFC 2131 section 3).
#[derive(Debug, PartialEq, Eq, Clone, Copy)]
pub struct LeaseKey {
    /// What it awaits.
    pub reply: Reply,
    /// The transaction identifier, which a DISCOVER and the REQUEST after it share.
    pub transaction_id: u32,
    /// The hardware address of the client.
    pub client: EthernetAddress,
}

/// What a client of DHCP awaits.
#[derive(Debug, PartialEq, Eq, Clone, Copy)]
pub enum Reply {
    /// An OFFER, to a DISCOVER.
    Offer,
    /// An ACK or a NAK, to a REQUEST or an INFORM.
    Decision,
}

impl Key {
    // Whether this is that key.
    pub(crate) fn is(&self, other: &Key) -> bool {
        match (self, other) {
            (Key::Name(key), Key::Name(other)) => key.is(other),
            (Key::Netbios(key), Key::Netbios(other)) => key.is(other),
            (Key::Echo(key), Key::Echo(other)) => key.is(other),
            (Key::Neighbor(key), Key::Neighbor(other)) => key.is(other),
            (Key::Lease(key), Key::Lease(other)) => key.is(other),
            _ => false,
        }
    }

    // Whether many may answer.
    pub(crate) fn goes_to_many(&self) -> bool {
        match self {
            Key::Name(key) => is_of_group(key.service),
            Key::Netbios(_) | Key::Lease(_) => true,
            Key::Echo(_) | Key::Neighbor(_) => false,
        }
    }
}

// Whether the questions of this service go to a group.
fn is_of_group(service: Service) -> bool {
    !matches!(service, Service::Dns)
}

impl NameKey {
    fn is(&self, other: &NameKey) -> bool {
        self.transaction_id == other.transaction_id
            && self.service == other.service
            && self.over_tcp == other.over_tcp
            && self.type_ == other.type_
            && self.class == other.class
            && self.way.is(&other.way)
            && self.name.eq_ignore_case(&other.name)
    }
}

impl NetbiosKey {
    fn is(&self, other: &NetbiosKey) -> bool {
        self.transaction_id == other.transaction_id && self.way.is(&other.way)
    }
}

impl EchoKey {
    fn is(&self, other: &EchoKey) -> bool {
        self.seq_no == other.seq_no
            && self.ident == other.ident
            && are(&self.addresses, &other.addresses)
    }
}

impl NeighborKey {
    fn is(&self, other: &NeighborKey) -> bool {
        have_same_octets(self.target, other.target) && have_same_octets(self.asker, other.asker)
    }
}

impl LeaseKey {
    fn is(&self, other: &LeaseKey) -> bool {
        self.transaction_id == other.transaction_id
            && self.reply == other.reply
            && self.client == other.client
    }
}

impl Way {
    // Whether this is that way.
    fn is(&self, other: &Way) -> bool {
        self.asker_port == other.asker_port
            && self.answerer_port == other.answerer_port
            && are(&self.addresses, &other.addresses)
    }

    // The same way back.
    pub(crate) fn back(self) -> Way {
        Way {
            addresses: reversed(self.addresses),
            asker_port: self.answerer_port,
            answerer_port: self.asker_port,
        }
    }

    // The way from the same asker to anyone.
    pub(crate) fn to_anyone(self) -> Way {
        Way {
            addresses: asker_alone(self.addresses),
            asker_port: self.asker_port,
            answerer_port: self.answerer_port,
        }
    }
}

// The addresses the other way round.
pub(crate) fn reversed(addresses: Addresses) -> Addresses {
    match addresses {
        Addresses::V4(source, destination) => Addresses::V4(destination, source),
        Addresses::V6(source, destination) => Addresses::V6(destination, source),
    }
}

// The first of the addresses, in both places.
fn asker_alone(addresses: Addresses) -> Addresses {
    match addresses {
        Addresses::V4(asker, _) => Addresses::V4(asker, asker),
        Addresses::V6(asker, _) => Addresses::V6(asker, asker),
    }
}

// Whether these are those addresses. No contract says of the derived `==` when addresses are equal, and so here they
// are compared by their octets.
fn are(addresses: &Addresses, others: &Addresses) -> bool {
    match (*addresses, *others) {
        (Addresses::V4(source, destination), Addresses::V4(other_source, other_destination)) => {
            is_v4(source, other_source) && is_v4(destination, other_destination)
        }
        (Addresses::V6(source, destination), Addresses::V6(other_source, other_destination)) => {
            is_v6(source, other_source) && is_v6(destination, other_destination)
        }
        _ => false,
    }
}

// Whether this is that address.
fn is_v4(address: Ipv4Address, other: Ipv4Address) -> bool {
    Ipv4Address::from_octets(address.octets()) == other
}

fn is_v6(address: Ipv6Address, other: Ipv6Address) -> bool {
    Ipv6Address::from_octets(address.octets()) == other
}

fn have_same_octets(address: Ipv6Address, other: Ipv6Address) -> bool {
    address.octets() == other.octets()
}
