//! Options of neighbor discovery and of IPv6, and the headers that hold these.

#[cfg(feature = "later")]
use crate::measure::Case;
use crate::measure::{iterates, prints, reads, writes};
use crate::messages::{prefix, redirected};
use crate::random::{INPUTS, Random, many};
use control_wire::ipv6option::{self, Ipv6OptionsIterator, RouterAlert};
use control_wire::ndiscoption::{self, NdiscOption};
use control_wire::{IpProtocol, ipv6ext_header, ipv6hbh};

/// What makes an option of neighbor discovery.
type Make = fn(&mut Random) -> ndiscoption::Repr<'static>;

// Each kind of option: the names of its two cases, and what makes it.
const KINDS: [(&str, &str, Make); 5] = [
    (
        "ndiscoption_link_address_parse",
        "ndiscoption_link_address_emit",
        |random| ndiscoption::Repr::SourceLinkLayerAddr(random.link_address()),
    ),
    (
        "ndiscoption_prefix_parse",
        "ndiscoption_prefix_emit",
        |random| ndiscoption::Repr::PrefixInformation(prefix(random)),
    ),
    (
        "ndiscoption_redirected_parse",
        "ndiscoption_redirected_emit",
        |random| ndiscoption::Repr::RedirectedHeader(redirected(random)),
    ),
    ("ndiscoption_mtu_parse", "ndiscoption_mtu_emit", |random| {
        ndiscoption::Repr::Mtu(random.u32())
    }),
    (
        "ndiscoption_unknown_parse",
        "ndiscoption_unknown_emit",
        |random| ndiscoption::Repr::Unknown {
            type_: 14 + random.octet() % 100,
            length: 2,
            data: random.leaked(14),
        },
    ),
];

fn write_neighbor(option: &ndiscoption::Repr<'_>) -> Vec<u8> {
    let mut octets = vec![0; option.buffer_len()];
    option.emit_into(&mut octets);
    octets
}

/// The cases.
pub fn cases() {
    neighbor_options();
    ipv6_options();
    headers();
}

fn neighbor_options() {
    let mut all = Vec::new();
    for (seed, (name_of_parse, name_of_emit, make)) in (50..).zip(KINDS) {
        let options = many(seed, |random, _| make(random));
        let octets: Vec<Vec<u8>> = options.iter().map(write_neighbor).collect();
        reads(name_of_parse, &octets, |octets| {
            ndiscoption::Repr::parse(&NdiscOption::new_checked(octets)?)
        });
        writes(
            name_of_emit,
            &options,
            ndiscoption::Repr::buffer_len,
            |option, out| option.emit_into(out),
        );
        all.extend_from_slice(&options[..8]);
    }
    prints("ndiscoption_display", &all);
    #[cfg(feature = "later")]
    {
        // By turns the options of a list are whole, and its last one is cut, or has no length.
        let lists: Vec<Vec<u8>> = many(56, |random, place| {
            let mut octets: Vec<u8> = (0..4)
                .flat_map(|_| write_neighbor(&all[random.below(all.len() as u64) as usize]))
                .collect();
            match place % 4 {
                0 => octets.truncate(octets.len() - 3),
                1 => octets.extend_from_slice(&[1, 0, 0, 0, 0, 0, 0, 0]),
                _ => {}
            }
            octets
        });
        iterates("ndiscoption_options", &lists, |octets| {
            ndiscoption::NdiscOptions::new(octets)
        });
        reads("ndiscoption_refusal", &lists, |octets| {
            ndiscoption::Repr::refusal(&NdiscOption::new_unchecked(&octets[..octets.len() % 24]))
        });
    }
}

// An option of IPv6 of each kind by turns.
fn option(random: &mut Random, place: usize) -> ipv6option::Repr<'static> {
    match place % 4 {
        0 => ipv6option::Repr::Pad1,
        1 => ipv6option::Repr::PadN(random.octet() % 12),
        2 => ipv6option::Repr::RouterAlert(RouterAlert::from(random.u16() % 4)),
        _ => {
            let data = random.leaked(1 + place % 11);
            ipv6option::Repr::Unknown {
                type_: ipv6option::Type::from(0x63),
                length: data.len() as u8,
                data,
            }
        }
    }
}

fn write_option(option: &ipv6option::Repr<'_>) -> Vec<u8> {
    let mut octets = vec![0; option.buffer_len()];
    option.emit_into(&mut octets);
    octets
}

fn ipv6_options() {
    let options = many(60, option);
    let octets: Vec<Vec<u8>> = options.iter().map(write_option).collect();
    reads("ipv6option_parse", &octets, |octets| {
        ipv6option::Repr::parse(&ipv6option::Ipv6Option::new_checked(octets)?)
    });
    writes(
        "ipv6option_emit",
        &options,
        ipv6option::Repr::buffer_len,
        |option, out| option.emit_into(out),
    );
    prints("ipv6option_display", &options);
    let lists: Vec<Vec<u8>> = (0..INPUTS)
        .map(|place| {
            let mut list: Vec<u8> = octets
                .iter()
                .skip(place)
                .take(5)
                .flatten()
                .copied()
                .collect();
            if place % 8 == 0 {
                list.truncate(list.len() - 1);
            }
            list
        })
        .collect();
    iterates("ipv6option_options", &lists, |octets| {
        Ipv6OptionsIterator::new(octets)
    });
    #[cfg(feature = "later")]
    reads("ipv6option_refusal", &octets, |octets| {
        let cut = &octets[..octets.len() - 1];
        ipv6option::Repr::refusal(&ipv6option::Ipv6Option::new_unchecked(cut))
    });
}

// Headers of one to eight options.
fn hop_by_hop(random: &mut Random, place: usize) -> ipv6hbh::Repr<'static> {
    let mut header = ipv6hbh::Repr::mldv2_router_alert();
    for more in 0..place % 8 {
        header.options.push(option(random, place + more));
    }
    header
}

fn headers() {
    let headers = many(61, hop_by_hop);
    let octets: Vec<Vec<u8>> = headers
        .iter()
        .map(|header| {
            let mut octets = vec![0; header.buffer_len()];
            header.emit_into(&mut octets);
            octets
        })
        .collect();
    reads("ipv6hbh_parse", &octets, |octets| {
        ipv6hbh::Repr::parse(&ipv6hbh::Header::new_checked(octets)?)
    });
    writes(
        "ipv6hbh_emit",
        &headers,
        ipv6hbh::Repr::buffer_len,
        |header, out| header.emit_into(out),
    );
    let frames: Vec<Vec<u8>> = many(62, |random, place| {
        let mut octets = vec![IpProtocol::Icmpv6.into(), (place % 4) as u8];
        octets.extend_from_slice(&random.octets(6 + 8 * (place % 4)));
        octets
    });
    reads("ipv6ext_header_parse", &frames, |octets| {
        ipv6ext_header::Repr::parse(&ipv6ext_header::Header::new_checked(octets)?)
    });
    let reprs: Vec<ipv6ext_header::Repr<'_>> = frames
        .iter()
        .map(|octets| {
            ipv6ext_header::Repr::parse(&ipv6ext_header::Header::new_unchecked(octets)).unwrap()
        })
        .collect();
    writes(
        "ipv6ext_header_emit",
        &reprs,
        |repr| repr.header_len() + repr.data.len(),
        |repr, out| repr.emit_into(out),
    );
    #[cfg(feature = "later")]
    {
        prints("ipv6hbh_display", &headers);
        reads("ipv6hbh_refusal", &octets, |octets| {
            let cut = &octets[..octets.len() - 1];
            ipv6hbh::Repr::refusal(&ipv6hbh::Header::new_unchecked(cut))
        });
        reads("ipv6ext_header_refusal", &frames, |octets| {
            let cut = &octets[..octets.len() - 1];
            ipv6ext_header::Repr::refusal(&ipv6ext_header::Header::new_unchecked(cut))
        });
        // Two options behind the alert, by the call that adds padding.
        let mut case = Case::new("ipv6hbh_push_padn_option");
        for place in 0..INPUTS as u8 {
            let mut header = ipv6hbh::Repr::mldv2_router_alert();
            crate::measure::measured(
                |(header, count): (&mut ipv6hbh::Repr<'_>, u8)| header.push_padn_option(count),
                std::hint::black_box((&mut header, place)),
            );
            case.add(header);
        }
        case.end();
    }
}
