//! Messages of DHCP and their options.

#[cfg(feature = "later")]
use crate::measure::prints;
use crate::measure::{Case, iterates, measured, reads, writes};
use crate::random::{Random, many};
use control_wire::Ipv4Address;
use control_wire::dhcpv4::{DhcpOption, DhcpOptionWriter, MessageType, Packet, Repr};
use std::hint::black_box;

// What a client requests (RFC 2132 section 9.8).
const REQUESTED: [u8; 8] = [1, 3, 6, 15, 42, 51, 58, 119];

// Kinds of option that have no field of a value of their own, with the lengths of their data.
const OTHERS: [(u8, usize); 8] = [
    (12, 9),
    (60, 14),
    (15, 11),
    (42, 8),
    (119, 21),
    (93, 2),
    (97, 17),
    (43, 5),
];

fn others(random: &mut Random, count: usize) -> &'static [DhcpOption<'static>] {
    let options: Vec<DhcpOption<'_>> = OTHERS[..count]
        .iter()
        .map(|(kind, len)| DhcpOption {
            kind: *kind,
            data: random.letters(*len).leak(),
        })
        .collect();
    options.leak()
}

fn blank(random: &mut Random, message_type: MessageType, count: usize) -> Repr<'static> {
    Repr {
        message_type,
        transaction_id: random.u32(),
        secs: random.u16(),
        client_hardware_address: random.ethernet(),
        client_ip: random.ipv4(),
        your_ip: random.ipv4(),
        server_ip: random.ipv4(),
        router: None,
        subnet_mask: None,
        relay_agent_ip: random.ipv4(),
        broadcast: random.is_even(),
        requested_ip: None,
        client_identifier: None,
        server_identifier: None,
        parameter_request_list: None,
        dns_servers: None,
        max_size: None,
        lease_duration: None,
        renew_duration: None,
        rebind_duration: None,
        additional_options: others(random, count),
    }
}

// What a client sends.
fn request(random: &mut Random, message_type: MessageType, place: usize) -> Repr<'static> {
    let mut message = blank(random, message_type, place % 4);
    message.client_identifier = Some(random.ethernet());
    message.parameter_request_list = Some(&REQUESTED);
    message.max_size = Some(random.u16());
    if message_type == MessageType::Request {
        message.requested_ip = Some(random.ipv4());
        message.server_identifier = Some(random.ipv4());
    }
    message
}

// What a server answers.
fn answer(random: &mut Random, message_type: MessageType, place: usize) -> Repr<'static> {
    let mut message = blank(random, message_type, place % 3);
    message.server_identifier = Some(random.ipv4());
    message.router = Some(random.ipv4());
    message.subnet_mask = Some(Ipv4Address::new(255, 255, random.octet(), 0));
    message.dns_servers = Some((0..1 + place % 3).map(|_| random.ipv4()).collect());
    message.lease_duration = Some(random.u32());
    message.renew_duration = Some(random.u32());
    message.rebind_duration = Some(random.u32());
    message
}

fn write(message: &Repr<'_>) -> Vec<u8> {
    let mut octets = vec![0; message.buffer_len()];
    message.emit_into(&mut octets).unwrap();
    octets
}

// Views of packets.
fn views(octets: &[Vec<u8>]) -> Vec<Packet<&[u8]>> {
    octets
        .iter()
        .map(|octets| Packet::new_unchecked(&octets[..]))
        .collect()
}

/// The cases.
pub fn cases() {
    let all = [
        (
            "dhcp_discover_parse",
            "dhcp_discover_emit",
            many(70, |random, place| {
                request(random, MessageType::Discover, place)
            }),
        ),
        (
            "dhcp_offer_parse",
            "dhcp_offer_emit",
            many(71, |random, place| {
                answer(random, MessageType::Offer, place)
            }),
        ),
        (
            "dhcp_request_parse",
            "dhcp_request_emit",
            many(72, |random, place| {
                request(random, MessageType::Request, place)
            }),
        ),
        (
            "dhcp_ack_parse",
            "dhcp_ack_emit",
            many(73, |random, place| answer(random, MessageType::Ack, place)),
        ),
    ];
    let mut few = Vec::new();
    let mut values = Vec::new();
    for (name_of_parse, name_of_emit, messages) in all {
        let octets: Vec<Vec<u8>> = messages.iter().map(write).collect();
        reads(name_of_parse, &octets, |octets| {
            Repr::parse(&Packet::new_checked(octets)?)
        });
        writes(name_of_emit, &messages, Repr::buffer_len, |message, out| {
            message.emit_into(out)
        });
        few.extend_from_slice(&octets[..16]);
        values.extend_from_slice(&messages[..16]);
    }
    iterates("dhcp_options", &views(&few), |packet| packet.options());
    names(&few);
    option_writer();
    #[cfg(feature = "later")]
    later(&few, &values);
}

fn names(octets: &[Vec<u8>]) {
    let named: Vec<Vec<u8>> = octets
        .iter()
        .zip(0..)
        .map(|(octets, place)| {
            let mut octets = octets.clone();
            octets[44..44 + place % 64].fill(b's');
            octets[108..108 + 2 * (place % 64)].fill(b'f');
            octets
        })
        .collect();
    let packets = views(&named);
    reads("dhcp_get_sname", &packets, |packet| packet.get_sname());
    reads("dhcp_get_boot_file", &packets, |packet| {
        packet.get_boot_file()
    });
}

// Options are written in turn, and then the end.
fn option_writer() {
    let mut case = Case::new("dhcp_option_writer");
    let lists = many(74, |random, place| others(random, 1 + place % 8));
    let mut room = [0; 256];
    for options in lists {
        room.fill(0xa5);
        let mut writer = measured(DhcpOptionWriter::new, black_box(&mut room[..]));
        for option in options {
            case.add(measured(
                |(writer, option): (&mut DhcpOptionWriter<'_>, &DhcpOption<'_>)| {
                    writer.emit(*option)
                },
                black_box((&mut writer, option)),
            ));
        }
        case.add(measured(DhcpOptionWriter::end, &mut writer));
        case.add_octets(&room);
    }
    case.end();
}

// By turns a packet is cut, of another hardware or protocol, without a type, or of another operation.
#[cfg(feature = "later")]
fn damage(octets: &[u8], place: usize) -> Vec<u8> {
    let mut octets = octets.to_vec();
    match place % 5 {
        0 => octets.truncate(place % 240),
        1 => octets[1] = 6,
        2 => octets[2] = 8,
        3 => octets[236] ^= 1,
        _ => octets[240] = 255,
    }
    octets
}

#[cfg(feature = "later")]
fn later(octets: &[Vec<u8>], values: &[Repr<'_>]) {
    reads("dhcp_parse_or_refusal", octets, |octets| {
        Repr::parse_or_refusal(&Packet::new_unchecked(octets))
    });
    let damaged: Vec<Vec<u8>> = octets
        .iter()
        .zip(0..)
        .map(|(octets, place)| damage(octets, place))
        .collect();
    reads("dhcp_refusal", &damaged, |octets| {
        Repr::refusal(&Packet::new_unchecked(octets))
    });
    prints("dhcp_display", values);
    let packets = views(octets);
    let options: Vec<DhcpOption<'_>> = packets.iter().flat_map(|packet| packet.options()).collect();
    reads("dhcp_option_value", &options, DhcpOption::value);
    reads("dhcp_option_name", &options, DhcpOption::name);
    prints("dhcp_option_display", &options);
    let lists: Vec<Vec<u8>> = many(75, |random, place| random.octets(place));
    iterates("dhcp_option_addresses", &lists, |octets| {
        control_wire::dhcpv4::OptionAddresses::new(octets)
    });
}
