//! Extensions of ICMP errors: a quote with one to three labels and an interface.

use crate::measure::{iterates, reads, writes};
use crate::random::many;
use control_wire::extensions::{
    ErrorData, Family, InterfaceInformation, LabelStack, Object, Parts, Role, structure,
};

/// The cases of this group.
pub fn cases() {
    let interfaces = many(51, |random, place| InterfaceInformation {
        role: Role::Incoming,
        index: Some(random.u32()),
        address: None,
        name: (place % 2 == 0).then_some(&b"eth0"[..]),
        mtu: Some(1_500),
    });
    writes(
        "extensions_interface_emit",
        &interfaces,
        InterfaceInformation::buffer_len,
        |interface, out| interface.emit_into(out),
    );
    let payloads: Vec<(u8, Vec<u8>)> = interfaces
        .iter()
        .map(|interface| {
            let mut octets = vec![0; interface.buffer_len()];
            interface.emit_into(&mut octets);
            (interface.c_type(), octets)
        })
        .collect();
    reads(
        "extensions_interface_parse",
        &payloads,
        |(kind, payload)| InterfaceInformation::parse(*kind, payload),
    );
    let lists: Vec<[Object<'_>; 2]> = many(52, |random, place| {
        let labels = random.leaked(4 * (1 + place % 3));
        let (c_type, payload) = &payloads[place];
        [(1, 1, labels), (2, *c_type, &payload[..])].map(|(class, c_type, payload)| Object {
            class,
            c_type,
            payload,
        })
    });
    let errors: Vec<ErrorData<'_>> = many(53, |random, place| ErrorData {
        family: if place % 2 == 0 {
            Family::V4
        } else {
            Family::V6
        },
        quoted: random.leaked(28 + 4 * (place % 30)),
        objects: &lists[place],
    });
    writes(
        "extensions_emit",
        &errors,
        ErrorData::buffer_len,
        |error, out| error.emit_into(out),
    );
    let octets: Vec<(Family, u8, Vec<u8>)> = errors
        .iter()
        .map(|error| {
            let mut octets = vec![0; error.buffer_len()];
            error.emit_into(&mut octets);
            (error.family, error.length(), octets)
        })
        .collect();
    reads("extensions_split", &octets, |(family, length, octets)| {
        Parts::split(octets, *length, *family)
    });
    let structures: Vec<&[u8]> = octets
        .iter()
        .filter_map(|(family, length, octets)| {
            Parts::split(octets, *length, *family).ok()?.extensions
        })
        .collect();
    writes(
        "extensions_structure_emit",
        &lists,
        |objects| structure::buffer_len(objects),
        |objects, out| structure::emit(objects, out),
    );
    reads(
        "extensions_structure_parse",
        structures.iter().copied(),
        |octets| structure::parse(octets),
    );
    let objects: Vec<_> = structures
        .iter()
        .filter_map(|octets| structure::parse(octets).ok())
        .collect();
    iterates("extensions_objects", &objects, |objects| objects.iter());
    let stacks: Vec<_> = lists
        .iter()
        .filter_map(|[labels, _]| LabelStack::parse(labels.payload).ok())
        .collect();
    iterates("extensions_labels", &stacks, LabelStack::iter);
}
