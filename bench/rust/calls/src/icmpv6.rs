//! ICMPv6: echoes, errors, neighbor discovery and multicast listeners.

#[cfg(feature = "later")]
use crate::measure::{iterates, prints};
use crate::measure::{reads, writes};
use crate::messages::{self, Got, Sent};
use crate::random::{Random, many};
use control_wire::icmpv6::{Packet, Repr};
use control_wire::mld::{AddressRecord, AddressRecordRepr};
use control_wire::{ChecksumCapabilities, mld, ndisc};

/// What makes a message.
type Make = fn(&mut Random, usize) -> Repr<'static>;

// Each kind of message: the names of its two cases, and what makes it.
const KINDS: [(&str, &str, Make); 10] = [
    ("icmpv6_echo_parse", "icmpv6_echo_emit", messages::echo),
    ("icmpv6_error_parse", "icmpv6_error_emit", messages::error),
    (
        "ndisc_router_solicit_parse",
        "ndisc_router_solicit_emit",
        messages::router_solicit,
    ),
    (
        "ndisc_router_advert_parse",
        "ndisc_router_advert_emit",
        messages::router_advert,
    ),
    (
        "ndisc_neighbor_solicit_parse",
        "ndisc_neighbor_solicit_emit",
        messages::neighbor_solicit,
    ),
    (
        "ndisc_neighbor_advert_parse",
        "ndisc_neighbor_advert_emit",
        messages::neighbor_advert,
    ),
    (
        "ndisc_redirect_parse",
        "ndisc_redirect_emit",
        messages::redirect,
    ),
    ("mld_query_parse", "mld_query_emit", messages::query),
    ("mld_report_parse", "mld_report_emit", messages::report),
    (
        "mld_report_of_records_parse",
        "mld_report_of_records_emit",
        messages::report_of_records,
    ),
];

fn parse(got: &'static Got) -> control_wire::Result<Repr<'static>> {
    let packet = Packet::new_checked(&got.octets)?;
    Repr::parse(
        &got.source,
        &got.destination,
        &packet,
        &ChecksumCapabilities::default(),
    )
}

fn emit(sent: &Sent<'_>, out: &mut [u8]) {
    let caps = ChecksumCapabilities::default();
    sent.message
        .emit_into(&sent.source, &sent.destination, out, &caps);
}

/// The cases.
pub fn cases() {
    let mut all_got: Vec<&'static Got> = Vec::new();
    for (seed, (name_of_parse, name_of_emit, make)) in (10..).zip(KINDS) {
        let sent = messages::sent(seed, make);
        let got: &'static Vec<Got> =
            Box::leak(Box::new(sent.iter().map(messages::write).collect()));
        reads(name_of_parse, got, parse);
        writes(name_of_emit, &sent, |sent| sent.message.packet_len(), emit);
        all_got.extend(&got[..8]);
    }
    parts(&all_got);
    records();
    #[cfg(feature = "later")]
    refusals(&all_got);
}

// What reads a message without its checksum, and the texts of those.
fn parts(got: &[&'static Got]) {
    reads("ndisc_parse", got.iter().copied(), |got| {
        ndisc::Repr::parse(&Packet::new_checked(&got.octets)?)
    });
    reads("mld_parse", got.iter().copied(), |got| {
        mld::Repr::parse(&Packet::new_checked(&got.octets)?)
    });
    #[cfg(feature = "later")]
    {
        let messages: Vec<Repr<'_>> = got.iter().filter_map(|got| parse(got).ok()).collect();
        prints("icmpv6_display", &messages);
        let neighbors: Vec<ndisc::Repr<'_>> = messages
            .iter()
            .filter_map(|message| match message {
                Repr::Ndisc(message) => Some(*message),
                _ => None,
            })
            .collect();
        prints("ndisc_display", &neighbors);
        let listeners: Vec<mld::Repr<'_>> = messages
            .iter()
            .filter_map(|message| match message {
                Repr::Mld(message) => Some(*message),
                _ => None,
            })
            .collect();
        prints("mld_display", &listeners);
    }
}

fn records() {
    let records: Vec<AddressRecordRepr<'_>> =
        many(30, |random, place| messages::records(random, 2)[place % 2]);
    let octets: Vec<Vec<u8>> = records
        .iter()
        .map(|record| messages::octets_of(&[*record]))
        .collect();
    reads("mld_record_parse", &octets, |octets| {
        AddressRecordRepr::parse(&AddressRecord::new_checked(octets)?)
    });
    writes(
        "mld_record_emit",
        &records,
        AddressRecordRepr::buffer_len,
        |record, out| record.emit_into(out),
    );
    #[cfg(feature = "later")]
    {
        reads("mld_record_refusal", &octets, |octets| {
            AddressRecordRepr::refusal(&AddressRecord::new_unchecked(&octets[..octets.len() - 1]))
        });
        let lists: Vec<Vec<u8>> = many(31, |random, place| {
            messages::octets_of(&messages::records(random, 1 + place % 8))
        });
        iterates("mld_records", &lists, |octets| mld::Records::new(8, octets));
        let sources: Vec<Vec<u8>> = many(32, |random, place| random.octets(16 * (place % 8)));
        iterates("mld_sources", &sources, |octets| {
            mld::Sources::new(7, octets)
        });
    }
}

// What reads a message and tells why it is refused, of whole ones, and of those that are cut or damaged.
#[cfg(feature = "later")]
fn refusals(got: &[&'static Got]) {
    let caps = &ChecksumCapabilities::default();
    reads("icmpv6_parse_or_refusal", got.iter().copied(), |got| {
        let packet = Packet::new_unchecked(&got.octets);
        Repr::parse_or_refusal(&got.source, &got.destination, &packet, caps)
    });
    let damaged: Vec<Got> = got
        .iter()
        .zip(0..)
        .map(|(got, place)| {
            let mut octets = got.octets.clone();
            match place % 4 {
                0 => octets[2] ^= 1,
                1 => octets.truncate(place % 24),
                2 => octets[0] = 99,
                _ => {
                    let last = octets.len() - 1;
                    octets.truncate(last);
                }
            }
            Got { octets, ..**got }
        })
        .collect();
    reads("icmpv6_refusal", &damaged, |got| {
        let packet = Packet::new_unchecked(&got.octets);
        Repr::refusal(&got.source, &got.destination, &packet, caps)
    });
    reads("ndisc_refusal", &damaged, |got| {
        ndisc::Repr::refusal(&Packet::new_unchecked(&got.octets))
    });
    reads("mld_refusal", &damaged, |got| {
        mld::Repr::refusal(&Packet::new_unchecked(&got.octets))
    });
}
