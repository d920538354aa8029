//! Names: read from messages, plain and by pointers, and from text, and printed.

use crate::dns::{HEADER_LEN, labels, name};
use crate::measure::{Case, iterates, measured, prints};
use crate::random::{Random, many};
use control_wire::dns::Packet;
use control_wire::record::Name;
use std::hint::black_box;

// The pointers of a long chain, and of the longest that `Name::read` follows.
const CHAIN: usize = 4_000;

const FOLLOWED: usize = 127;

/// A message, and where a name begins in it.
struct Placed {
    message: Vec<u8>,
    start: usize,
}

// A message of a name alone.
fn plain(random: &mut Random, place: usize) -> Placed {
    let message = [vec![0; HEADER_LEN], name(random, 1 + place % 6)].concat();
    Placed {
        message,
        start: HEADER_LEN,
    }
}

// A name of some labels before a pointer, to labels before a pointer, to a whole name.
fn pointed(random: &mut Random, place: usize) -> Placed {
    let mut message = [vec![0; HEADER_LEN], name(random, 2)].concat();
    let mut target = HEADER_LEN;
    for more in 0..1 + place % 3 {
        let start = message.len();
        message.extend_from_slice(&labels(random, 1 + more % 2));
        message.extend_from_slice(&pointer(target));
        target = start;
    }
    Placed {
        message,
        start: target,
    }
}

fn pointer(target: usize) -> [u8; 2] {
    (0xc000 + target as u16).to_be_bytes()
}

// A name of 127 labels of one octet, each before a pointer to the next.
fn pieces(random: &mut Random, _: usize) -> Placed {
    let mut message = vec![0; HEADER_LEN];
    let mut target = 0;
    for _ in 0..126 {
        let start = message.len();
        message.extend_from_slice(&[1, b'a' + random.octet() % 26]);
        message.extend_from_slice(&pointer(target));
        target = start;
    }
    Placed {
        message,
        start: target,
    }
}

// A chain of so many pointers with no label between them, which leads to a name.
fn chain(random: &mut Random, pointers: usize) -> Placed {
    let mut message = [vec![0; HEADER_LEN], name(random, 2)].concat();
    let mut target = HEADER_LEN;
    for _ in 0..pointers {
        let start = message.len();
        message.extend_from_slice(&pointer(target));
        target = start;
    }
    Placed {
        message,
        start: target,
    }
}

// Views of messages, and the bytes from where the name begins.
fn views(placed: &[Placed]) -> Vec<(Packet<&[u8]>, &[u8])> {
    placed
        .iter()
        .map(|Placed { message, start }| (Packet::new_unchecked(&message[..]), &message[*start..]))
        .collect()
}

// A case of `Name::read`.
fn read(title: &'static str, placed: &[Placed]) {
    let mut case = Case::new(title);
    for Placed { message, start } in placed {
        let packet = Packet::new_unchecked(&message[..]);
        let name = measured(
            |(packet, bytes): (&Packet<&[u8]>, _)| Name::read(packet, bytes),
            black_box((&packet, &message[*start..])),
        );
        case.add(name.map(|name| name.octets().to_vec()));
    }
    case.end();
}

/// The cases.
pub fn cases() {
    let plain = many(90, plain);
    let pointed = many(91, pointed);
    let pieces = &many(92, pieces)[..8];
    let mut random = Random::new(93);
    let chains = [chain(&mut random, CHAIN), chain(&mut random, CHAIN)];
    let followed = many(96, |random, _| chain(random, FOLLOWED));
    read("name_read", &plain);
    read("name_read_by_pointers", &pointed);
    read("name_read_in_pieces", pieces);
    read("name_read_behind_127_pointers", &followed);
    read("name_read_behind_a_chain", &chains);
    iterates("dns_parse_name", &views(&pointed), |(packet, bytes)| {
        packet.parse_name(bytes)
    });
    iterates(
        "dns_parse_name_behind_a_chain",
        &views(&chains),
        |(packet, bytes)| packet.parse_name(bytes),
    );
    from_text();
    #[cfg(feature = "later")]
    {
        refusals(&pointed, pieces);
        walks(&pointed);
    }
}

// Texts of letters, of which one in four has octets behind backslashes, or is none.
fn texts(seed: u64) -> Vec<Vec<u8>> {
    many(seed, |random, place| {
        let mut text = Vec::new();
        for _ in 0..1 + place % 5 {
            let len = 1 + random.below(14) as usize;
            text.extend_from_slice(&random.letters(len));
            text.push(b'.');
        }
        match place % 8 {
            0 => text.extend_from_slice(b"a\\.b\\255"),
            1 => text.push(b'.'),
            _ => drop(text.pop()),
        }
        text
    })
}

fn from_text() {
    let texts = texts(94);
    let mut case = Case::new("name_from_text");
    for text in &texts {
        let name = measured(Name::from_text, black_box(&text[..]));
        case.add(name.map(|name| name.octets().to_vec()));
    }
    case.end();
    let names: Vec<Name> = texts
        .iter()
        .filter_map(|text| Name::from_text(text).ok())
        .collect();
    prints("name_display", &names);
    let mut random = Random::new(95);
    let unprintable: Vec<Name> = (0..8)
        .map(|place| {
            let label = random.octets(16 + place);
            let octets = [vec![label.len() as u8], label, vec![0]].concat();
            let message = [vec![0; HEADER_LEN], octets].concat();
            Name::read(&Packet::new_unchecked(&message[..]), &message[HEADER_LEN..]).unwrap()
        })
        .collect();
    prints("name_display_of_octets", &unprintable);
    #[cfg(feature = "later")]
    {
        use crate::measure::reads;
        reads("name_from_text_refusal", &texts, |text| {
            Name::from_text_refusal(text)
        });
        iterates("name_labels", &names, Name::labels);
        let pairs: Vec<(&Name, &Name)> = names.iter().zip(names.iter().rev()).collect();
        reads("name_eq_ignore_case", &pairs, |(left, right)| {
            left.eq_ignore_case(right)
        });
    }
}

// By turns a name is cut, leads nowhere, has more than 255 octets, or is whole.
#[cfg(feature = "later")]
fn refusals(pointed: &[Placed], pieces: &[Placed]) {
    let mut placed: Vec<Placed> = Vec::new();
    for (number, whole) in pointed.iter().enumerate() {
        let mut message = whole.message.clone();
        match number % 4 {
            0 => drop(message.pop()),
            1 => {
                let last = message.len() - 1;
                message[last] = 0xff;
            }
            2 => message[whole.start] = 0x80,
            _ => {}
        }
        placed.push(Placed {
            message,
            start: whole.start,
        });
    }
    for whole in pieces {
        let mut message = whole.message.clone();
        message[..3].copy_from_slice(&[1, b'a', 0]);
        placed.push(Placed {
            message,
            start: whole.start,
        });
    }
    let mut case = Case::new("name_read_refusal");
    for Placed { message, start } in &placed {
        let packet = Packet::new_unchecked(&message[..]);
        case.add(measured(
            |(packet, bytes): (&Packet<&[u8]>, _)| Name::read_refusal(packet, bytes),
            black_box((&packet, &message[*start..])),
        ));
    }
    case.end();
    let mut case = Case::new("name_read_or_refusal");
    for Placed { message, start } in &placed {
        let packet = Packet::new_unchecked(&message[..]);
        let name = measured(
            |(packet, bytes): (&Packet<&[u8]>, _)| Name::read_or_refusal(packet, bytes),
            black_box((&packet, &message[*start..])),
        );
        case.add(name.map(|name| name.octets().to_vec()));
    }
    case.end();
    let mut case = Case::new("dns_name_refusal");
    for Placed { message, start } in &placed {
        let packet = Packet::new_unchecked(&message[..]);
        case.add(measured(
            |(packet, bytes): (&Packet<&[u8]>, _)| packet.name_refusal(bytes),
            black_box((&packet, &message[*start..])),
        ));
    }
    case.end();
}

// The text of a name, by the walk that puts it into a buffer.
#[cfg(feature = "later")]
fn walks(pointed: &[Placed]) {
    use control_wire::record::name::dotted::{ROOM_LEN, put_dotted};
    let mut case = Case::new("name_put_dotted");
    let mut room = [0; ROOM_LEN];
    for Placed { message, start } in pointed {
        let packet = Packet::new_unchecked(&message[..]);
        room.fill(0);
        case.add(measured(
            |(room, packet, bytes): (&mut [u8; ROOM_LEN], &Packet<&[u8]>, _)| {
                put_dotted(room, packet, bytes)
            },
            black_box((&mut room, &packet, &message[*start..])),
        ));
        case.add_octets(&room);
    }
    case.end();
}
