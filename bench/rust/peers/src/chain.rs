//! A response in whose second record the name is a chain of 8,181 pointers, each to the one before it: as long as a
//! pointer's 14 bits let one be in a record's data.

use control_wire::dns::{Packet, Record};
use control_wire::record::Name;
use hickory_proto::op::Message;
use std::time::Instant;

const FIRST: u16 = 23;
const LAST: u16 = 16_381;

// The root has a record of a type that nobody knows, whose data are the chain from the root on; the name of the next
// record, of type A, is a pointer to the chain's end.
fn response() -> Vec<u8> {
    let mut octets = b"\x12\x34\x81\x80\0\0\0\x02\0\0\0\0\0\xff\0\0\x01\0\0\0\0".to_vec();
    octets.extend((LAST + 2 - FIRST).to_be_bytes());
    octets.extend((0xc000_u16 + 12).to_be_bytes());
    for at in (FIRST..LAST).step_by(2) {
        octets.extend((0xc000 + at).to_be_bytes());
    }
    octets.extend((0xc000 + LAST).to_be_bytes());
    octets.extend(b"\0\x01\0\x01\0\0\0\0\0\x04\xc0\0\x02\x07");
    octets
}

/// Says what the library does, on a thread with this stack, in KiB.
pub fn here(stack: usize) {
    tell(stack, |octets| {
        let packet = Packet::new_unchecked(octets);
        let (rest, _) = Record::parse(packet.payload()).unwrap();
        let (_, record) = Record::parse(rest).unwrap();
        match Name::read(&packet, record.name) {
            Ok(name) => format!("read, its name has {} octets", name.octets().len()),
            Err(error) => format!("refused: {error}"),
        }
    });
}

/// The same of hickory-proto.
pub fn hickory(stack: usize) {
    tell(stack, |octets| match Message::from_vec(octets) {
        Ok(message) => format!(
            "read, its name has {} octets",
            message.answers()[1].name().len()
        ),
        Err(error) => format!("refused: {error}"),
    });
}

// Prints what a reader says of the response, and how long it takes for it.
fn tell(stack: usize, read: fn(&[u8]) -> String) {
    let octets = response();
    let call = move || {
        let start = Instant::now();
        let said = read(&octets);
        println!("{said}, in {} microseconds", start.elapsed().as_micros());
    };
    let thread = std::thread::Builder::new()
        .stack_size(stack * 1_024)
        .spawn(call)
        .unwrap();
    thread.join().unwrap();
}
