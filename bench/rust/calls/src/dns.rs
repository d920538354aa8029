//! Messages of the Domain Name System: questions, records, entries and the data of records.

use crate::measure::{iterates, reads, writes};
use crate::random::{Random, many};
use control_wire::dns::{self, Flags, Opcode, Packet, Type};
use control_wire::record::rdata::RData;
use control_wire::record::{Entries, Question, Record};

/// The octets of a header.
pub const HEADER_LEN: usize = 12;

const CLASS_IN: u16 = 1;

/// A label of up to 16 letters, behind its length.
fn label(random: &mut Random) -> Vec<u8> {
    let len = 3 + random.below(13) as usize;
    let mut octets = vec![len as u8];
    octets.extend_from_slice(&random.letters(len));
    octets
}

/// A name of so many labels, without its end.
pub fn labels(random: &mut Random, count: usize) -> Vec<u8> {
    (0..count).flat_map(|_| label(random)).collect()
}

/// A name of so many labels.
pub fn name(random: &mut Random, count: usize) -> Vec<u8> {
    let mut octets = labels(random, count);
    octets.push(0);
    octets
}

/// Types of records, and data that each of them may have; names end in a pointer to the question.
const TYPES: [(u16, fn(&mut Random) -> Vec<u8>); 9] = [
    (1, |random| random.octets(4)),
    (28, |random| random.octets(16)),
    (5, pointed),
    (15, |random| [random.octets(2), pointed(random)].concat()),
    (16, |random| [label(random), label(random)].concat()),
    (33, |random| [random.octets(6), pointed(random)].concat()),
    (6, |random| {
        [pointed(random), pointed(random), random.octets(20)].concat()
    }),
    (12, pointed),
    (99, |random| random.octets(24)),
];

// A label, and then the name of the question.
fn pointed(random: &mut Random) -> Vec<u8> {
    [label(random), vec![0xc0, HEADER_LEN as u8]].concat()
}

// The type of a record and what stands behind it.
fn behind_name(random: &mut Random, place: usize) -> Vec<u8> {
    let (type_, data) = TYPES[place % TYPES.len()];
    let data = data(random);
    let mut octets = type_.to_be_bytes().to_vec();
    octets.extend_from_slice(&CLASS_IN.to_be_bytes());
    octets.extend_from_slice(&random.u32().to_be_bytes());
    octets.extend_from_slice(&(data.len() as u16).to_be_bytes());
    octets.extend_from_slice(&data);
    octets
}

/// A response with a record of each type.
pub fn response(random: &mut Random, place: usize) -> Vec<u8> {
    let mut octets = random.octets(2);
    octets.extend_from_slice(&[0x81, 0x80, 0, 1, 0, 6, 0, 1, 0, 2]);
    octets.extend_from_slice(&name(random, 3));
    octets.extend_from_slice(&[0, 1, 0, 1]);
    for more in 0..9 {
        if more % 2 == 0 {
            octets.extend_from_slice(&[0xc0, HEADER_LEN as u8]);
        } else {
            octets.extend_from_slice(&pointed(random));
        }
        octets.extend_from_slice(&behind_name(random, place + more));
    }
    octets
}

/// The cases.
pub fn cases() {
    questions();
    records();
    let responses = many(84, response);
    iterates("dns_entries", &responses, |octets| {
        Entries::new(&Packet::new_unchecked(octets))
    });
    #[cfg(feature = "later")]
    later(&responses);
}

fn questions() {
    let octets: Vec<Vec<u8>> = many(80, |random, place| {
        let type_ = [1, 28, 5, 15][place % 4];
        [name(random, 3), vec![0, type_, 0, 1]].concat()
    });
    reads("dns_question_parse", &octets, |octets| {
        dns::Question::parse(octets)
    });
    reads("dns_any_question_parse", &octets, |octets| {
        Question::parse(octets)
    });
    let questions: Vec<dns::Question<'_>> = octets
        .iter()
        .map(|octets| dns::Question::parse(octets).unwrap().1)
        .collect();
    writes(
        "dns_question_emit",
        &questions,
        dns::Question::buffer_len,
        |question, out| question.emit(out),
    );
    let mut random = Random::new(81);
    let queries: Vec<dns::Repr<'_>> = questions
        .iter()
        .map(|question| dns::Repr {
            transaction_id: random.u16(),
            opcode: Opcode::Query,
            flags: Flags::RECURSION_DESIRED,
            question: dns::Question {
                name: question.name,
                type_: question.type_,
            },
        })
        .collect();
    writes(
        "dns_query_emit",
        &queries,
        dns::Repr::buffer_len,
        |query, out| query.emit_into(out),
    );
}

fn records() {
    let octets: Vec<Vec<u8>> = many(82, |random, place| {
        [name(random, 2), behind_name(random, place)].concat()
    });
    reads("dns_record_parse", &octets, |octets| {
        dns::Record::parse(octets)
    });
    reads("dns_any_record_parse", &octets, |octets| {
        Record::parse(octets)
    });
    let records: Vec<Record<'_>> = octets
        .iter()
        .map(|octets| Record::parse(octets).unwrap().1)
        .collect();
    reads("dns_rdata_parse", &records, |record| {
        RData::parse(record.type_, record.class, record.data)
    });
    let types: Vec<u16> = many(83, |random, _| random.u16() % 300);
    reads("dns_type_from", &types, |number| Type::from(*number));
}

#[cfg(feature = "later")]
fn later(responses: &[Vec<u8>]) {
    use crate::measure::{Case, measured};
    use control_wire::record::{EdnsOptions, TxtStrings};
    use std::hint::black_box;

    let cut: Vec<Vec<u8>> = many(85, |random, place| {
        let mut octets = [name(random, 2), behind_name(random, place)].concat();
        octets.truncate(octets.len() * (place % 8) / 8);
        octets
    });
    reads("dns_question_refusal", &cut, |octets| {
        dns::Question::refusal(octets)
    });
    reads("dns_record_refusal", &cut, |octets| {
        dns::Record::refusal(octets)
    });
    reads("dns_any_record_refusal", &cut, |octets| {
        Record::refusal(octets)
    });
    // The refusal of entries, where the last one is cut.
    let mut case = Case::new("dns_entries_refusal");
    for octets in responses {
        let mut entries = Entries::new(&Packet::new_unchecked(&octets[..octets.len() - 1]));
        while let Some(Ok(_)) = entries.next() {}
        case.add(measured(Entries::refusal, black_box(&entries)));
    }
    case.end();
    let data: Vec<(Type, Vec<u8>)> = many(86, |random, place| {
        let (type_, data) = TYPES[place % TYPES.len()];
        let mut data = data(random);
        data.truncate(data.len() * (1 + place % 4) / 4);
        (Type::from(type_), data)
    });
    reads("dns_rdata_refusal", &data, |(type_, data)| {
        RData::refusal(*type_, CLASS_IN, data)
    });
    let strings: Vec<Vec<u8>> = many(87, |random, place| labels(random, 1 + place % 5));
    iterates("dns_txt_strings", &strings, |octets| {
        TxtStrings::new(octets)
    });
    let options: Vec<Vec<u8>> = many(88, |random, place| {
        (0..place % 5)
            .flat_map(|more| {
                let data = random.octets(more * 4);
                [vec![0, 10, 0, data.len() as u8], data].concat()
            })
            .collect()
    });
    iterates("dns_edns_options", &options, |octets| {
        EdnsOptions::new(octets)
    });
    texts(responses);
}

// A response of 40 addresses of one host, whose name stands behind a chain of 1,000 pointers, in the data of a record.
#[cfg(feature = "later")]
fn chained(random: &mut Random) -> Vec<u8> {
    let mut octets = random.octets(2);
    octets.extend_from_slice(&[0x81, 0x80, 0, 0, 0, 41, 0, 0, 0, 0]);
    octets.extend_from_slice(&[0, 0, 99, 0, 1, 0, 0, 0, 60]);
    let name = name(random, 2);
    octets.extend_from_slice(&(name.len() as u16 + 2_000).to_be_bytes());
    let mut target = octets.len();
    octets.extend_from_slice(&name);
    for _ in 0..1_000 {
        let start = octets.len();
        octets.extend_from_slice(&(0xc000 + target as u16).to_be_bytes());
        target = start;
    }
    for _ in 0..40 {
        octets.extend_from_slice(&(0xc000 + target as u16).to_be_bytes());
        octets.extend_from_slice(&[0, 1, 0, 1, 0, 0, 0, 60, 0, 4]);
        octets.extend_from_slice(&random.octets(4));
    }
    octets
}

// Entries as lines of a zone file: what is read for them, and how they are printed.
#[cfg(feature = "later")]
fn texts(responses: &[Vec<u8>]) {
    use crate::measure::{Case, measured};
    use control_wire::record::{Entry, EntryText};
    use std::fmt::Write;
    use std::hint::black_box;

    let mut printed = Case::new("dns_entry_text_display");
    let mut text = arrayvec::ArrayString::<8_192>::new();
    let chained = [chained(&mut Random::new(89))];
    for (name, messages) in [
        ("dns_entry_text", responses),
        ("dns_entry_text_behind_a_chain", &chained),
    ] {
        let mut case = Case::new(name);
        for octets in messages {
            let packet = Packet::new_unchecked(&octets[..]);
            for entry in Entries::new(&packet).flatten() {
                let answer = measured(
                    |(entry, packet): (&Entry<'_>, _)| entry.text(packet, false),
                    black_box((&entry, &packet)),
                );
                text.clear();
                match answer {
                    Ok(answer) => write!(text, "{answer}").unwrap(),
                    Err(refusal) => write!(text, "{refusal:?}").unwrap(),
                }
                case.add_octets(text.as_bytes());
            }
        }
        case.end();
    }
    for octets in responses {
        let packet = Packet::new_unchecked(&octets[..]);
        for entry in Entries::new(&packet).flatten() {
            let Ok(answer) = entry.text(&packet, false) else {
                continue;
            };
            text.clear();
            printed.add(measured(
                |(answer, text): (&EntryText<'_>, &mut arrayvec::ArrayString<8_192>)| {
                    write!(text, "{answer}")
                },
                black_box((&answer, &mut text)),
            ));
            printed.add_octets(text.as_bytes());
        }
    }
    printed.end();
}
