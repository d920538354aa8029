// Made from crates/tests_base/src/options/ipv6hbh.rt by rust/erase.

use crate::options::plain_reader::{check_kept, compare_damaged};
#[allow(unused_imports)]
use crate::rattle_std::prelude::*;
use crate::testing::{FILLERS, holds_of, prints, same, same_of, takes_writes};
use arrayvec::ArrayVec;
use control_wire::ipv6hbh::{Header, Refusal, Repr};
use control_wire::ipv6option;
use control_wire::ipv6option::{RouterAlert, Type};

type Option<'a> = ipv6option::Repr<'a>;

const PADS: [Option<'static>; 8] = [Option::Pad1; 8];

const PADS_AND_ALERT: [Option<'static>; 5] = [
    Option::Pad1,
    Option::Pad1,
    Option::Pad1,
    Option::Pad1,
    Option::RouterAlert(RouterAlert::Unknown(0xbeef)),
];

const NO_DATA: [Option<'static>; 1] = [Option::Unknown {
    type_: Type::Unknown(0x11),
    length: 0,
    data: &[],
}];

const RPL: [Option<'static>; 1] = [Option::Unknown {
    type_: Type::Rpl,
    length: 2,
    data: &[0xaa, 0xbb],
}];

const ALERT_AND_PAD: [Option<'static>; 2] = [
    Option::RouterAlert(RouterAlert::MulticastListenerDiscovery),
    Option::PadN(0),
];

#[test]
fn headers_and_the_options_that_they_keep() {
    const ROWS: &[(&'static [u8], &'static [Option<'static>])] = &[
        (
            &[0x00, 0x00, 0x00, 0x00, 0x05, 0x02, 0xbe, 0xef],
            &PADS_AND_ALERT,
        ),
        (&[0x00; 8], &PADS),
        // A good ninth option is left out, and a bad tenth is not looked at.
        (&[0x00; 9], &PADS),
        (&[0, 0, 0, 0, 0, 0, 0, 0, 0, 0x11], &PADS),
        (&[0x01, 0x04, 0x00, 0x00, 0x00, 0x00], &[Option::PadN(4)]),
        (&[0x11, 0x00], &NO_DATA),
        (&[0x63, 0x02, 0xaa, 0xbb], &RPL),
        (REPORT, &ALERT_AND_PAD),
    ];
    for &(octets, options) in ROWS {
        check_kept(octets, options);
        compare_damaged(octets);
    }
}

#[test]
fn headers_refused() {
    const ROWS: &[&[u8]] = &[
        &[],
        // A bad option: a router alert of 3 bytes of data, and one whose length is left out.
        &[0x00, 0x00, 0x00, 0x00, 0x05, 0x03, 0x00, 0x00, 0x00],
        &[0x00, 0x00, 0x00, 0x00, 0x11],
        &[0x00, 0x00, 0x00, 0x00, 0x00, 0x11],
        // A bad ninth option, after as many as are kept.
        &[0, 0, 0, 0, 0, 0, 0, 0, 0x11],
        &[0, 0, 0, 0, 0, 0, 0, 0, 0x05, 0x03, 0x00, 0x00, 0x00],
    ];
    for &octets in ROWS {
        let header = Header::new_unchecked(octets);
        holds_of(&header, Repr::parse(&header).is_err());
        compare_damaged(octets);
    }
}

#[test]
fn reasons_of_refused_headers() {
    const THREE: ipv6option::Refusal = ipv6option::Refusal::Length(Type::RouterAlert, 3);
    const ROWS: &[(&[u8], usize, ipv6option::Refusal)] = &[
        (&[0x11], 0, ipv6option::Refusal::Short),
        (&[0x00, 0x00, 0x05, 0x03, 0, 0, 0], 2, THREE),
        (
            &[0x01, 0x02, 0, 0, 0x11, 0x02, 0x00],
            1,
            ipv6option::Refusal::Cut(4),
        ),
        // A bad ninth option, after as many as are kept.
        (
            &[0, 0, 0, 0, 0, 0, 0, 0, 0x11],
            8,
            ipv6option::Refusal::Short,
        ),
        (&[0, 0, 0, 0, 0, 0, 0, 0, 0x05, 0x03, 0, 0, 0], 8, THREE),
    ];
    let none = Repr::refusal(&Header::new_unchecked(&[]));
    same(none, Some(Refusal::Empty));
    for &(octets, index, refusal) in ROWS {
        let told = Repr::refusal(&Header::new_unchecked(octets));
        same_of(octets, told, Some(Refusal::Option { index, refusal }));
    }
}

#[test]
fn what_reasons_print() {
    let refusal = Refusal::Option {
        index: 2,
        refusal: ipv6option::Refusal::Length(Type::RouterAlert, 3),
    };
    const TEXT: &str = "option 2: a length of 3 is not allowed for RouterAlert";
    prints(&refusal, TEXT);
    takes_writes(&refusal, 7);
    prints(&Refusal::Empty, "no options");
}

#[test]
fn what_a_header_prints() {
    const TEXT: &str = "IPv6 Hop-by-Hop Options count=2 \
        (IPv6 Option RouterAlert value=MulticastListenerDiscovery) (IPv6 Option PadN length=0 )";
    prints(&report(), TEXT);
    takes_writes(&report(), 11);
}

#[test]
fn views_of_some_octets_alone() {
    const ROWS: &[(&[u8], bool)] = &[(&[], false), (&[0x11], true)];
    for &(octets, whole) in ROWS {
        same_of(octets, Header::new_checked(octets).is_ok(), whole);
        let view = Header::new_unchecked(octets);
        same_of(octets, view.check_len().is_ok(), whole);
    }
}

const PADDING: &[u8] = &[0x01, 0x01, 0x00];

#[test]
fn options_are_lent_for_writing() {
    let mut octets = [0xff, 0xff, 0xff];
    let mut view = Header::new_unchecked(octets.as_mut_slice());
    view.options_mut().copy_from_slice(PADDING);
    same(&*view.into_inner(), PADDING);
}

#[test]
fn options_are_all_the_octets() {
    same(Header::new_unchecked(PADDING).options(), PADDING);
}

// The options of a multicast listener report: a router alert, and padding.
fn report() -> Repr<'static> {
    let mut header = Repr::mldv2_router_alert();
    header.push_padn_option(0);
    header
}

const REPORT: &[u8] = &[0x05, 0x02, 0x00, 0x00, 0x01, 0x00];

#[test]
fn multicast_listener_report_with_padding() {
    let header = report();
    match Repr::parse(&Header::new_unchecked(REPORT)) {
        Ok(read) => {
            same(&read, &header);
        }
        Err(_) => holds_of(REPORT, false),
    }
    check_cloned(&header);
}

// Compares a copy of a header with it.
fn check_cloned(header: &Repr<'_>) {
    match header.try_clone() {
        Ok(cloned) => same(&cloned, header),
        Err(_) => holds_of(header, false),
    }
}

// What writing a header over so many of 17 octets of this kind leaves.
fn written(header: &Repr<'_>, fill: u8, len: usize) -> [u8; 17] {
    let mut octets = [fill; 17];
    header.emit(&mut Header::new_unchecked(&mut octets[..len]));
    octets
}

// Writes a header over octets of any kind: over just as many as it takes, in both ways, and over more of them, of
// which the others stay.
fn check_written(header: &Repr<'_>, text: &[u8]) {
    let len = header.buffer_len();
    holds_of(text, len <= 14);
    for &fill in FILLERS {
        let octets = written(header, fill, len);
        same_of(fill, &octets[..len], text);
        let mut plain = [fill; 17];
        header.emit_into(&mut plain[..len]);
        same_of(fill, [plain, written(header, fill, 17)], [octets; 2]);
    }
}

#[test]
fn a_router_alert_written_over_octets_of_any_kind() {
    check_written(&report(), REPORT);
}

#[test]
fn options_written_one_after_another() {
    const TEXT: &[u8] = &[
        0x01, 0x03, 0x00, 0x00, 0x00, 0x05, 0x02, 0xbe, 0xef, 0x11, 0x02, 0xa1, 0xa2, 0x00,
    ];
    // The third byte of data is past the length that is counted.
    let mut options = ArrayVec::new();
    options.push(Option::PadN(3));
    options.push(Option::RouterAlert(RouterAlert::Unknown(0xbeef)));
    options.push(Option::Unknown {
        type_: Type::Unknown(0x11),
        length: 2,
        data: &[0xa1, 0xa2, 0xa3],
    });
    options.push(Option::Pad1);
    check_written(&Repr { options }, TEXT);
    compare_damaged(TEXT);
}
