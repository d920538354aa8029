//! Names of messages behind pointers: 127 of them are followed, as many as a name of 255 octets has labels.

use control_wire::dns::Packet;
use control_wire::record::{Name, NameRefusal};

// Byte 0, and then labels of one letter, each before a pointer to the label before it, and the first before one to that
// byte.
fn labels_apart() -> Vec<u8> {
    let mut message = vec![0];
    for piece in 0..127_u16 {
        let target = if piece == 0 { 0 } else { 4 * piece - 3 };
        message.extend([1, b'a']);
        message.extend((0xc000 + target).to_be_bytes());
    }
    message
}

// Byte 0, and then pointers, the first to `first` and each other one to the pointer before it.
fn pointers(first: u16) -> Vec<u8> {
    let mut message = vec![0];
    for place in (1..256_u16).step_by(2) {
        let target = if place == 1 { first } else { place - 2 };
        message.extend((0xc000 + target).to_be_bytes());
    }
    message
}

#[test]
fn a_name_whose_labels_all_stand_apart() {
    let message = labels_apart();
    let packet = Packet::new_unchecked(&message[..]);
    let last = message.len() - 4;
    let name = Name::read(&packet, &message[last..]).unwrap();
    assert_eq!((name.octets().len(), name.labels().count()), (255, 127));
    let mut labels = name.labels();
    labels.next();
    assert_eq!((labels.clone().count(), labels.count()), (126, 126));
    // Behind one pointer more.
    let pointer = (0xc000 + last as u16).to_be_bytes();
    let packet = Packet::new_unchecked(&message[..]);
    assert_eq!(
        Name::read_refusal(&packet, &pointer),
        Some(NameRefusal::TooManyPointers)
    );
}

#[test]
fn a_pointer_that_leads_nowhere_is_told_as_such_wherever_it_stands() {
    for (first, behind_127, behind_128) in [
        (0, None, Some(NameRefusal::TooManyPointers)),
        (
            0x3fff,
            Some(NameRefusal::Pointer(0x3fff)),
            Some(NameRefusal::Pointer(0x3fff)),
        ),
    ] {
        let message = pointers(first);
        let packet = Packet::new_unchecked(&message[..]);
        assert_eq!(Name::read_refusal(&packet, &message[253..]), behind_127);
        assert_eq!(Name::read_refusal(&packet, &message[255..]), behind_128);
    }
}
