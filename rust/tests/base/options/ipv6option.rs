// Made from crates/tests_base/src/options/ipv6option.rt by rust/erase.

use crate::options::plain_reader::compare_damaged;
#[allow(unused_imports)]
use crate::rattle_std::prelude::*;
use crate::rattle_std::test::Fail;
use crate::testing::{FILLERS, ascend, holds_of, same, same_of};
use control_wire::Error;
use control_wire::ipv6option::{
    FailureType, Ipv6Option, Ipv6OptionsIterator, Repr, RouterAlert, Type,
};
use std::hash::{DefaultHasher, Hash, Hasher};

mod printing;

#[test]
fn option_types_and_their_numbers() {
    const ROWS: &[(u8, Type)] = &[
        (0x00, Type::Pad1),
        (0x01, Type::PadN),
        (0x05, Type::RouterAlert),
        (0x63, Type::Rpl),
        (0x02, Type::Unknown(0x02)),
        (0x04, Type::Unknown(0x04)),
        (0x06, Type::Unknown(0x06)),
        (0xff, Type::Unknown(0xff)),
    ];
    for &(number, kind) in ROWS {
        same_of(number, Type::from(number), kind);
        same_of(kind, u8::from(kind), number);
    }
}

#[test]
fn router_alerts_and_their_numbers() {
    const ROWS: &[(u16, RouterAlert)] = &[
        (0, RouterAlert::MulticastListenerDiscovery),
        (1, RouterAlert::Rsvp),
        (2, RouterAlert::ActiveNetworks),
        (3, RouterAlert::Unknown(3)),
        (0xbeef, RouterAlert::Unknown(0xbeef)),
        (0xffff, RouterAlert::Unknown(0xffff)),
    ];
    for &(number, alert) in ROWS {
        same_of(number, RouterAlert::from(number), alert);
        same_of(alert, u16::from(alert), number);
    }
}

fn hash_of(failure: FailureType) -> u64 {
    let mut hasher = DefaultHasher::new();
    failure.hash(&mut hasher);
    hasher.finish()
}

#[test]
fn failure_types_are_the_two_highest_bits() {
    const ROWS: &[(u8, FailureType)] = &[
        (0x00, FailureType::Skip),
        (0x3f, FailureType::Skip),
        (0x40, FailureType::Discard),
        (0x7f, FailureType::Discard),
        (0xa0, FailureType::DiscardSendAll),
        (0xc0, FailureType::DiscardSendUnicast),
        (0xff, FailureType::DiscardSendUnicast),
    ];
    for &(number, failure) in ROWS {
        same_of(number, FailureType::from(number), failure);
        same_of(failure, u8::from(failure), number & 0xc0);
        same_of(failure, failure as u8, number & 0xc0);
    }
}

#[test]
fn failure_types_of_options() {
    const ROWS: &[(Type, FailureType)] = &[
        (Type::PadN, FailureType::Skip),
        (Type::Rpl, FailureType::Discard),
        (Type::Unknown(0xc5), FailureType::DiscardSendUnicast),
    ];
    for &(kind, failure) in ROWS {
        same_of(kind, FailureType::from(kind), failure);
        same_of(kind, hash_of(FailureType::from(kind)), hash_of(failure));
    }
}

#[test]
fn order_of_types_of_alerts_and_of_failures() {
    const TYPES: &[Type] = &[
        Type::Pad1,
        Type::PadN,
        Type::RouterAlert,
        Type::Rpl,
        Type::Unknown(0),
        Type::Unknown(7),
    ];
    const ALERTS: &[RouterAlert] = &[
        RouterAlert::MulticastListenerDiscovery,
        RouterAlert::Rsvp,
        RouterAlert::ActiveNetworks,
        RouterAlert::Unknown(0),
        RouterAlert::Unknown(7),
    ];
    const FAILURES: &[FailureType] = &[
        FailureType::Skip,
        FailureType::Discard,
        FailureType::DiscardSendAll,
        FailureType::DiscardSendUnicast,
    ];
    ascend(TYPES);
    ascend(ALERTS);
    ascend(FAILURES);
}

#[test]
fn views_of_whole_options_alone() {
    const ROWS: &[(&[u8], bool)] = &[
        (&[], false),
        (&[0x00], true),
        (&[0x00, 0xff], true),
        (&[0x01], false),
        (&[0x01, 0x00], true),
        (&[0x01, 0x01], false),
        (&[0x05, 0x02, 0x00], false),
        (&[0x05, 0x02, 0x00, 0x00], true),
        // The data of a router alert is not looked at here.
        (&[0x05, 0x00], true),
        (&[0x11, 0x03, 0xa1, 0xa2], false),
        (&[0x11, 0x03, 0xa1, 0xa2, 0xa3], true),
        (&[0x11, 0x03, 0xa1, 0xa2, 0xa3, 0xa4], true),
    ];
    for &(octets, whole) in ROWS {
        let view = Ipv6Option::new_checked(octets);
        same_of(octets, view.is_ok(), whole);
        let view = Ipv6Option::new_unchecked(octets);
        same_of(octets, view.check_len().is_ok(), whole);
        same(view.into_inner(), octets);
    }
}

#[test]
fn a_type_is_set_in_one_octet() {
    let mut octets = [0xff];
    let mut view = Ipv6Option::new_unchecked(octets.as_mut_slice());
    view.set_option_type(Type::Rpl);
    same(view.option_type(), Type::Rpl);
    same(&*view.into_inner(), [0x63].as_slice());
}

#[test]
fn a_length_is_set_in_two_octets() {
    let mut octets = [0xff; 2];
    let mut view = Ipv6Option::new_unchecked(octets.as_mut_slice());
    view.set_data_len(3);
    same(view.data_len(), 3);
    same(octets, [0xff, 0x03]);
}

#[test]
fn data_stand_behind_their_length() {
    let mut octets = [0x11, 0x03, 0xff, 0xff, 0xff];
    let mut view = Ipv6Option::new_unchecked(octets.as_mut_slice());
    view.data_mut().copy_from_slice(&[0xa1, 0xa2, 0xa3]);
    same(octets, [0x11, 0x03, 0xa1, 0xa2, 0xa3]);
    let view = Ipv6Option::new_unchecked(octets.as_slice());
    same(view.data(), [0xa1, 0xa2, 0xa3].as_slice());
}

#[test]
fn views_are_equal_as_their_octets() {
    const HERE: &[u8] = &[0x11, 0x01, 0xa1];
    const ROWS: &[(&[u8], bool)] = &[
        (&[0x11, 0x01, 0xa1], true),
        (&[0x11, 0x01, 0xa2], false),
        (&[0x11, 0x01], false),
    ];
    let view = Ipv6Option::new_unchecked(HERE);
    for &(octets, is_equal) in ROWS {
        let other = Ipv6Option::new_unchecked(octets);
        same_of(octets, view == other, is_equal);
        same_of(octets, view != other, !is_equal);
    }
}

// Compares whether two views for writing are equal.
fn check_equal(here: &mut [u8], there: &mut [u8], is_equal: bool) {
    let view = Ipv6Option::new_unchecked(here);
    let other = Ipv6Option::new_unchecked(there);
    same([view == other, view != other], [is_equal, !is_equal]);
}

#[test]
fn views_for_writing_are_equal_as_their_octets() {
    let mut here = [0x11, 0x01, 0xa1];
    check_equal(&mut here, &mut [0x11, 0x01, 0xa1], true);
    check_equal(&mut here, &mut [0x11, 0x01, 0xa2], false);
}

// tests/refused has each of these with its one line in the wrong place: the data used after its buffer is gone, and the
// buffer read while the view that writes to it lives.
#[test]
fn data_lives_as_long_as_its_buffer() {
    let data;
    let octets = [0x11, 0x01, 0xa1];
    {
        data = Ipv6Option::new_unchecked(octets.as_slice()).data();
    }
    same(data.len(), 1);
}

#[test]
fn buffer_is_read_after_its_view() {
    let mut octets = [0x11, 0x01, 0xa1];
    let mut view = Ipv6Option::new_unchecked(octets.as_mut_slice());
    view.set_option_type(Type::Rpl);
    let kind = octets[0];
    same(kind, 0x63);
}

#[test]
fn options_in_turn() {
    // The last counts 8 bytes of data where there are none.
    const OCTETS: &[u8] = &[
        0x00, 0x01, 0x01, 0x00, 0x01, 0x02, 0x00, 0x00, 0x01, 0x00, 0x00, 0x11, 0x00, 0x05, 0x02,
        0x00, 0x01, 0x01, 0x08, 0x00,
    ];
    const ANSWERS: &[Option<control_wire::Result<Repr<'static>>>] = &[
        Some(Ok(Repr::Pad1)),
        Some(Ok(Repr::PadN(1))),
        Some(Ok(Repr::PadN(2))),
        Some(Ok(Repr::PadN(0))),
        Some(Ok(Repr::Pad1)),
        Some(Ok(Repr::Unknown {
            type_: Type::Unknown(0x11),
            length: 0,
            data: &[],
        })),
        Some(Ok(Repr::RouterAlert(RouterAlert::Rsvp))),
        Some(Err(Error)),
        None,
        None,
    ];
    let mut options = Ipv6OptionsIterator::new(OCTETS);
    for answer in ANSWERS {
        same(&options.next(), answer);
    }
    compare_damaged(OCTETS);
}

#[test]
fn a_copy_of_options_goes_on_from_the_same_place() -> Result<(), Fail> {
    let mut options = Ipv6OptionsIterator::new(&[0x00, 0x01, 0x00]);
    same(options.next(), Some(Ok(Repr::Pad1)));
    let mut copy = options.try_clone()?;
    same(copy.next(), Some(Ok(Repr::PadN(0))));
    same(copy.next(), None);
    same(options.next(), Some(Ok(Repr::PadN(0))));
    Ok(())
}

// Compares what reading these octets gives.
fn check_read(octets: &[u8], answer: control_wire::Result<Repr<'_>>) {
    let read = Repr::parse(&Ipv6Option::new_unchecked(octets));
    same_of(octets, read, answer);
}

#[test]
fn longest_padding() {
    let mut octets = [0x00; 257];
    octets[..2].copy_from_slice(&[0x01, 0xff]);
    check_read(&octets, Ok(Repr::PadN(255)));
    check_read(&octets[..256], Err(Error));
    compare_damaged(&octets);
}

#[test]
fn options_refused() {
    const ROWS: &[&[u8]] = &[
        &[],
        &[0x01],
        // Router alerts of 0, 1 and 3 bytes of data, and of 2 where there is 1.
        &[0x05, 0x00],
        &[0x05, 0x01, 0x00],
        &[0x05, 0x03, 0x00, 0x00, 0x00],
        &[0x05, 0x02, 0x00],
        &[0x11, 0x01],
    ];
    for &octets in ROWS {
        check_read(octets, Err(Error));
        compare_damaged(octets);
    }
}

// Whether the option holds as much data as it counts.
fn holds_its_data(option: &Repr<'_>) -> bool {
    match *option {
        Repr::Unknown { length, data, .. } => length as usize <= data.len(),
        _ => true,
    }
}

// What writing an option over so many of eight octets of this kind leaves.
fn written(option: &Repr<'_>, fill: u8, len: usize) -> [u8; 8] {
    holds_of(option, holds_its_data(option));
    holds_of(option, option.buffer_len() <= len);
    let mut octets = [fill; 8];
    option.emit(&mut Ipv6Option::new_unchecked(&mut octets[..len]));
    let mut plain = [fill; 8];
    option.emit_into(&mut plain[..len]);
    same_of(option, plain, octets);
    octets
}

// A text of at most eight octets, and octets of this kind behind it.
fn filled(text: &[u8], fill: u8) -> [u8; 8] {
    let mut octets = [fill; 8];
    octets[..text.len()].copy_from_slice(text);
    octets
}

// Writes an option over so many octets of this kind, and reads it again.
fn check_written(option: &Repr<'_>, text: &[u8], again: &Repr<'_>, fill: u8, len: usize) {
    holds_of(option, text.len() <= len && len <= 8);
    let octets = written(option, fill, len);
    same_of((option, fill), octets, filled(text, fill));
    check_read(&octets[..len], Ok(*again));
}

#[test]
fn options_written_over_octets_of_any_kind() {
    const ALERT: Repr<'static> = Repr::RouterAlert(RouterAlert::Unknown(0xbeef));
    // An option, its text, and what is read again: data past the length is not written.
    const ROWS: &[(Repr<'static>, &[u8], Repr<'static>)] = &[
        (Repr::Pad1, &[0x00], Repr::Pad1),
        (
            Repr::PadN(3),
            &[0x01, 0x03, 0x00, 0x00, 0x00],
            Repr::PadN(3),
        ),
        (ALERT, &[0x05, 0x02, 0xbe, 0xef], ALERT),
        (
            Repr::Unknown {
                type_: Type::Unknown(0x11),
                length: 2,
                data: &[0xa1, 0xa2, 0xa3],
            },
            &[0x11, 0x02, 0xa1, 0xa2],
            Repr::Unknown {
                type_: Type::Unknown(0x11),
                length: 2,
                data: &[0xa1, 0xa2],
            },
        ),
    ];
    for (option, text, again) in ROWS {
        same_of(option, option.buffer_len(), text.len());
        for &fill in FILLERS {
            check_written(option, text, again, fill, text.len());
            check_written(option, text, again, fill, text.len() + 3);
        }
        compare_damaged(text);
    }
}

#[test]
fn the_default_option_is_a_pad1() {
    same(Repr::default(), Repr::Pad1);
}

// The text of an option of four bytes.
fn text_of(option: &Repr<'_>) -> [u8; 4] {
    let mut text = [0xff; 4];
    holds_of(option, holds_its_data(option));
    holds_of(option, option.buffer_len() == 4);
    option.emit_into(text.as_mut_slice());
    text
}

#[test]
fn padding_loses_what_it_is_filled_with_when_it_is_rewritten() {
    const ROWS: &[&[u8]] = &[&[0x01, 0x02, 0xaa, 0xbb], &[0x01, 0x02, 0x00, 0x00]];
    for &octets in ROWS {
        check_read(octets, Ok(Repr::PadN(2)));
    }
    same(text_of(&Repr::PadN(2)), [0x01, 0x02, 0x00, 0x00]);
}

#[test]
fn data_past_its_length_is_no_part_of_the_text() {
    const ROWS: &[(Repr<'static>, bool)] = &[
        (
            Repr::Unknown {
                type_: Type::Unknown(0x11),
                length: 2,
                data: &[0xa1, 0xa2, 0xa3],
            },
            true,
        ),
        (
            Repr::Unknown {
                type_: Type::Unknown(0x11),
                length: 2,
                data: &[0xa1, 0xa3],
            },
            false,
        ),
        (Repr::PadN(2), false),
    ];
    const WHOLE: &Repr<'static> = &Repr::Unknown {
        type_: Type::Unknown(0x11),
        length: 2,
        data: &[0xa1, 0xa2],
    };
    for (other, same) in ROWS {
        let is_same = text_of(WHOLE) == text_of(other);
        same_of(other, is_same, *same);
    }
}
