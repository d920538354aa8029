//! Options of neighbor discovery as values: each kind in turn, alone and in messages of eight.

use crate::measure::{iterates, prints, reads, writes};
use crate::random::{Random, many};
use control_wire::Ipv6Address;
use control_wire::neighbors::{
    Names, Nat64Length, Nat64Prefix, NeighborOption, NeighborOptions, OptionsWriter, Preference,
    Prefix, Route, Servers,
};

/// An option of each kind in turn.
fn option(random: &mut Random, place: usize) -> NeighborOption<'static> {
    let lifetime = random.u32();
    match place % 8 {
        0 => NeighborOption::SourceLinkLayerAddress(random.leaked(6)),
        1 => NeighborOption::Prefix(Prefix {
            prefix_len: 64,
            on_link: random.is_even(),
            autonomous: random.is_even(),
            router_address: false,
            valid_lifetime: lifetime,
            preferred_lifetime: lifetime / 2,
            prefix: random.ipv6(),
        }),
        2 => NeighborOption::Mtu(1_500),
        3 => NeighborOption::Route(Route {
            prefix_len: 48,
            preference: Preference::High,
            lifetime,
            prefix: random.leaked(8),
        }),
        4 => NeighborOption::DnsServers {
            lifetime,
            servers: Servers::new(random.leaked(32)),
        },
        5 => NeighborOption::SearchList {
            lifetime,
            names: Names::new(b"\x07example\x03org\0\0\0\0"),
        },
        6 => NeighborOption::Nat64Prefix(Nat64Prefix {
            scaled_lifetime: random.u16() % 8_192,
            length: Nat64Length::Bits96,
            prefix: random.leaked(12),
        }),
        _ => NeighborOption::Nonce(random.leaked(6)),
    }
}

/// The cases of this group.
pub fn cases() {
    let options = many(41, option);
    writes(
        "neighbors_emit",
        &options,
        NeighborOption::buffer_len,
        |option, out| option.emit_into(out),
    );
    let octets: Vec<Vec<u8>> = options
        .iter()
        .map(|option| {
            let mut octets = vec![0; option.buffer_len()];
            option.emit_into(&mut octets);
            octets
        })
        .collect();
    reads("neighbors_parse", &octets, |octets| {
        NeighborOption::parse(octets)
    });
    let messages: Vec<Vec<u8>> = octets.chunks(8).map(<[Vec<u8>]>::concat).collect();
    iterates("neighbors_options", &messages, |octets| {
        NeighborOptions::new(octets)
    });
    writes(
        "neighbors_push",
        &options,
        NeighborOption::buffer_len,
        |option, out| OptionsWriter::new(out).push(option),
    );
    let lists: Vec<Vec<Ipv6Address>> = many(43, |random, place| {
        (0..=place % 4).map(|_| random.ipv6()).collect()
    });
    writes(
        "neighbors_servers_write",
        &lists,
        |servers| 16 * servers.len(),
        |servers, out| Servers::write(servers, out).is_some(),
    );
    prints("neighbors_display", &options);
}
